/* Puzzle lines to read: sound ones, nearly sound ones, and others; and what has to come of reading and of writing one,
 * said here once more from the header's words. */
#ifndef PAWDOKU_TESTS_LINES_H
#define PAWDOKU_TESTS_LINES_H

#include "passed.h"

/* No line and no output for one is lent longer. */
enum { LINE_MOST = 96, LINE_ROOM = PAWDOKU_LINE_GIVENS + 64 };

/* ---- lines */

/* 81 blanks of both sorts; its length is with the line feed or without. */
static size_t blank_line(uint8_t line[LINE_MOST])
{
    memset(line, '\n', LINE_MOST);
    for (size_t i = 0; i < PAWDOKU_CELLS; i++)
        line[i] = one_in(2) ? '.' : '0';
    return PAWDOKU_CELLS + below(2);
}

/* Any digits, few or many. They need not open. */
static size_t any_line(uint8_t line[LINE_MOST])
{
    const size_t length = blank_line(line), of_six = below(7);
    for (size_t i = 0; i < PAWDOKU_CELLS; i++)
        if (below(6) < of_six)
            line[i] = (uint8_t)('1' + below(9));
    return length;
}

/* A sitting's givens as a setter may mail them. */
static size_t line_of(const struct sitting *s, uint8_t line[LINE_MOST])
{
    const size_t length = blank_line(line);
    for (const uint8_t *given = s->givens; given < s->givens + s->givens_length; given += 3)
        line[9 * (given[0] - 1) + given[1] - 1] = (uint8_t)('0' + given[2]);
    return length;
}

/* What mail and keyboards make of a line. */
static size_t damage_line(uint8_t line[LINE_MOST], size_t length)
{
    static const uint8_t near[] = "/:-,;*_ \t\r\n\v\0oO\xb1\xae";
    uint8_t *one = line + below(PAWDOKU_CELLS);
    switch (below(9)) {
    case 0: return 0;
    case 1: return 79 + below(6);
    case 2: *one = any_byte(); return length;
    case 3: *one = near[below(sizeof near)]; return length;
    case 4: line[80] = near[below(sizeof near)]; return length;
    case 5: line[81] = '\r'; return 82 + below(2);
    case 6: line[81] = one_in(2) ? '.' : any_byte(); return 82;
    case 7: spoil(line, PAWDOKU_CELLS); *one = any_byte(); return length;
    default:
        for (size_t i = 0; i < LINE_MOST; i++)
            line[i] = any_byte();
        return one_in(2) ? length : below(LINE_MOST);
    }
}

/* An output of any bytes: just enough of them, more, one too few, or fewer. */
static void lend_room(size_t enough)
{
    static uint8_t bytes[LINE_ROOM];
    const size_t room[5] = {enough, enough, enough + below(LINE_ROOM - enough), enough - 1, below(enough)};
    for (size_t i = 0; i < LINE_ROOM; i++)
        bytes[i] = any_byte();
    lend(&output, bytes, room[one_in(4) ? below(5) : below(3)]);
}

/* ---- what has to come of them */

/* The answer, and every byte of the output. */
struct expected {
    size_t number, place, length;
    uint8_t output[LINE_ROOM];
};

/* The digit that a character stands for, 0 for a blank; above 9 for a character of another sort. */
static size_t value_of(uint8_t character)
{
    static const char values[] = "0123456789";
    const char *found = memchr(values, character == '.' ? '0' : character, 10);
    return found == NULL ? 10 : (size_t)(found - values);
}

static void lay_given(struct expected *e, size_t cell, size_t digit)
{
    const uint8_t given[3] = {(uint8_t)(cell / 9 + 1), (uint8_t)(cell % 9 + 1), (uint8_t)digit};
    memcpy(e->output + e->length, given, sizeof given);
    e->length += sizeof given;
}

/* The givens of a board, in order. */
static struct expected givens_of(const pawdoku_board *b)
{
    struct expected e = {0, 0, 0, {0}};
    for (size_t i = 0; i < PAWDOKU_CELLS; i++)
        if (b->given[i])
            lay_given(&e, i, b->digits[i]);
    return e;
}

/* Of the line and the output as they are lent. */
static struct expected reading_of_line(void)
{
    struct expected e = {0, 0, 0, {0}};
    const uint8_t *line = input.copy;
    memcpy(e.output, output.copy, output.length);
    if (output.length < PAWDOKU_LINE_GIVENS)
        e.number = PAWDOKU_OUTPUT_TOO_SHORT;
    else if (input.length != 81 && !(input.length == 82 && line[81] == '\n'))
        e.number = PAWDOKU_NOT_A_LINE;
    for (size_t i = 0; i < PAWDOKU_CELLS && e.number == 0; i++)
        if (value_of(line[i]) > 9) {
            e.number = PAWDOKU_NO_LINE_CHARACTER;
            e.place = i + 1;
        }
    for (size_t i = 0; i < PAWDOKU_CELLS && e.number == 0; i++)
        if (value_of(line[i]) > 0)
            lay_given(&e, i, value_of(line[i]));
    return e;
}

/* Of a board, into the output as it is lent. */
static struct expected writing_of_line(const pawdoku_board *b)
{
    struct expected e = {0, 0, 0, {0}};
    memcpy(e.output, output.copy, output.length);
    e.number = !is_board(b) ? PAWDOKU_NOT_A_BOARD : output.length < 81 ? PAWDOKU_OUTPUT_TOO_SHORT : 0;
    for (size_t i = 0; i < PAWDOKU_CELLS && e.number == 0; i++)
        e.output[e.length++] = (uint8_t)(b->given[i] ? "0123456789"[b->digits[i]] : '.');
    return e;
}

static void must_be_expected(enum call call, pawdoku_written w, const struct expected *e)
{
    must(w.refusal.number == e->number, call, "another number");
    must(w.refusal.place == e->place, call, "another place");
    must(w.length == e->length, call, "another length");
    must(memcmp(output.bytes, e->output, output.length) == 0, call, "another output");
}

#endif
