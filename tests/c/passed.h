/* What is passed: sittings that go on as long as their calls are accepted, and what a hostile caller makes of them. */
#ifndef PAWDOKU_TESTS_PASSED_H
#define PAWDOKU_TESTS_PASSED_H

#include "counted.h"
#include "lent.h"

/* ---- boards */

/* Number 2, as the header says it. */
static int is_board(const pawdoku_board *b)
{
    if (b->made > PAWDOKU_MAX_MOVES || b->standing > b->made || b->checks > PAWDOKU_MAX_CHECKS || b->solved > 1)
        return 0;
    for (int i = 0; i < PAWDOKU_CELLS; i++) {
        if (b->digits[i] > 9 || b->given[i] > 1 || (b->given[i] == 1 && b->digits[i] == 0))
            return 0;
        if ((b->notes[i] & ~0x3fe) != 0 || b->solution[i] < 1 || b->solution[i] > 9)
            return 0;
    }
    return 1;
}

/* Byte for byte, but for those between the fields, which C does not keep. */
static int same_board(const pawdoku_board *a, const pawdoku_board *b)
{
    const size_t front = offsetof(pawdoku_board, solved) + 1;
    const size_t back = offsetof(pawdoku_board, made);
    return memcmp(a, b, front) == 0 && memcmp((const char *)a + back, (const char *)b + back, sizeof *a - back) == 0;
}

static int is_zero_board(const pawdoku_board *b)
{
    static const pawdoku_board zero;
    return same_board(b, &zero);
}

/* ---- sittings, which go on as long as their calls are accepted */

struct sitting {
    uint8_t givens[3 * PAWDOKU_CELLS];
    size_t givens_length;
    uint8_t solution[PAWDOKU_SOLUTION_BYTES];
    pawdoku_board board;
    uint8_t journal[PAWDOKU_JOURNAL_BYTES];
    uint8_t checks[PAWDOKU_CHECK_MEMORY];
};

enum { SITTINGS = 8 };
static struct sitting sittings[SITTINGS];

/* Document 01's solution G at row r, column c, both from 0. */
static uint8_t solution_g(int r, int c)
{
    return (uint8_t)((3 * r + r / 3 + c) % 9 + 1);
}

static void set_puzzle(struct sitting *s, size_t givens)
{
    s->givens_length = 0;
    for (int i = 0; i < PAWDOKU_CELLS; i++) {
        s->solution[i] = solution_g(i / 9, i % 9);
        size_t left = givens - s->givens_length / 3;
        if (left == 0 || below((size_t)(PAWDOKU_CELLS - i)) >= left)
            continue;
        s->givens[s->givens_length++] = (uint8_t)(i / 9 + 1);
        s->givens[s->givens_length++] = (uint8_t)(i % 9 + 1);
        s->givens[s->givens_length++] = s->solution[i];
    }
}

static int open_sitting(struct sitting *s)
{
    pawdoku_answer a = pawdoku_open(s->givens, s->givens_length, s->solution, sizeof s->solution, s->journal, sizeof s->journal, s->checks, sizeof s->checks);
    count(OPEN, a.refusal);
    s->board = a.board;
    return a.refusal.number == 0;
}

/* Runs a list of one call, repeated, or of two in turn. */
static void repeat(struct sitting *s, const uint8_t calls[8], size_t times)
{
    static uint8_t list[8 * PAWDOKU_MAX_MOVES], answers[8 * PAWDOKU_MAX_MOVES];
    for (size_t i = 0; i < times; i++)
        memcpy(list + 4 * i, calls + 4 * (i % 2), 4);
    pawdoku_answer a = pawdoku_play(s->board, s->journal, sizeof s->journal, s->checks, sizeof s->checks, list,
                                    4 * times, answers, 4 * times);
    count(PLAY, a.refusal);
    look_at_answers(answers, times);
    s->board = a.board;
}

/* A new sitting: an empty puzzle, one with a cell left, some givens; a full journal; full check memory. */
static void restart(size_t i)
{
    static const size_t givens[SITTINGS] = {0, 80, 30, 60, 79, 0, 10, 40};
    struct sitting *s = &sittings[i];
    set_puzzle(s, givens[i]);
    must(open_sitting(s), OPEN, "a puzzle that opens is refused");
    if (i == 5)
        repeat(s, (const uint8_t[8]){PAWDOKU_CALL_PENCIL, 1, 1, 1, PAWDOKU_CALL_PENCIL, 1, 1, 1},
               PAWDOKU_MAX_MOVES - below(2));
    if (i == 6) {
        for (uint8_t n = 1; n <= 9; n++)
            repeat(s, (const uint8_t[8]){PAWDOKU_CALL_PLACE, n, n, n, PAWDOKU_CALL_PLACE, n, n, n}, 1);
        uint8_t at = (uint8_t)(1 + below(9));
        repeat(s, (const uint8_t[8]){PAWDOKU_CALL_CHECK, at, at, 0, PAWDOKU_CALL_CHECK, at, at, 0},
               PAWDOKU_MAX_CHECKS - below(2));
    }
}

/* ---- what is passed */

static struct lent journal, checks, solution, input, output, answers;

/* What a call with a board gets, and whether it is a sitting's own, with nothing damaged. */
struct passed {
    struct sitting *from;
    pawdoku_board board;
    int own;
};

static size_t boundary(size_t limit)
{
    const size_t values[8] = {0, 1, limit - 1, limit, limit + 1, SIZE_MAX, SIZE_MAX / 8 + 1, (size_t)random_next()};
    return values[below(8)];
}

/* A value that number 2 does not speak of, and that no call returned either. */
static void any_board(pawdoku_board *b)
{
    for (int i = 0; i < PAWDOKU_CELLS; i++) {
        b->digits[i] = (uint8_t)below(10);
        b->given[i] = b->digits[i] != 0 && one_in(4);
        b->notes[i] = (uint16_t)(random_next() & 0x3fe);
        b->solution[i] = (uint8_t)(1 + below(9));
    }
    b->solved = one_in(8);
    b->made = below(PAWDOKU_MAX_MOVES + 1);
    b->standing = below(b->made + 1);
    b->checks = below(PAWDOKU_MAX_CHECKS + 1);
}

/* A board that no call returned: one field wrong, or every byte, or none. */
static void damage_board(pawdoku_board *b)
{
    size_t i = below(PAWDOKU_CELLS);
    switch (below(12)) {
    case 0: b->digits[i] = any_byte(); break;
    case 1: b->given[i] = any_byte(); break;
    case 2: b->notes[i] = (uint16_t)random_next(); break;
    case 3: b->solution[i] = any_byte(); break;
    case 4: b->solved = any_byte(); break;
    case 5: b->made = boundary(PAWDOKU_MAX_MOVES); break;
    case 6: b->standing = one_in(2) ? boundary(b->made) : boundary(PAWDOKU_MAX_MOVES); break;
    case 7: b->checks = boundary(PAWDOKU_MAX_CHECKS); break;
    case 8: spoil((uint8_t *)b, sizeof *b); break;
    case 9:
    case 10: any_board(b); break;
    default:
        for (size_t k = 0; k < sizeof *b; k++)
            ((uint8_t *)b)[k] = any_byte();
    }
}

/* Bytes damaged where they are in use. */
static void damage_bytes(struct lent *l, size_t used)
{
    if (l->length == 0)
        return;
    if (one_in(8))
        used = 0;
    size_t most = used == 0 || used > l->length ? l->length : used;
    for (size_t n = 1 + below(3); n > 0; n--)
        spoil(l->bytes, most);
    memcpy(l->copy, l->bytes, l->length);
}

/* Slots that are sound but for the givens, and that no call wrote. */
static void any_slots(struct lent *l)
{
    for (size_t i = 0; i + PAWDOKU_SLOT_BYTES <= l->length; i += PAWDOKU_SLOT_BYTES) {
        uint8_t *slot = l->bytes + i;
        memset(slot, 0, PAWDOKU_SLOT_BYTES);
        slot[0] = (uint8_t)(2 + below(4));
        for (int k = 1; k < 4; k++)
            slot[k] = (uint8_t)(1 + below(9));
        if (slot[0] == PAWDOKU_ERASE)
            slot[3] = 0;
        if (slot[0] == PAWDOKU_ERASE || (slot[0] == PAWDOKU_PLACE && one_in(2)))
            slot[4] = (uint8_t)(1 + below(9));
        if (slot[0] == PAWDOKU_PLACE && one_in(2))
            slot[5] = any_byte();
    }
    memcpy(l->copy, l->bytes, l->length);
}

static size_t wrong_length(size_t right)
{
    const size_t values[6] = {0, 1, right - 1, right + 1, right / 2, below(LENT_MOST)};
    return values[below(6)];
}

/* Lends memory with its length, or another. Answers whether it is the right one. */
static int lend_memory(struct lent *l, const uint8_t *bytes, size_t right)
{
    static uint8_t longer[LENT_MOST];
    memcpy(longer, bytes, right);
    size_t length = one_in(24) ? wrong_length(right) : right;
    lend(l, longer, length);
    return length == right;
}

static struct passed pass(void)
{
    struct passed p;
    p.from = &sittings[below(SITTINGS)];
    p.board = p.from->board;
    p.own = lend_memory(&journal, p.from->journal, PAWDOKU_JOURNAL_BYTES);
    p.own &= lend_memory(&checks, p.from->checks, PAWDOKU_CHECK_MEMORY);
    if (one_in(4)) {
        damage_board(&p.board);
        p.own = 0;
    }
    if (one_in(8)) {
        size_t standing = p.from->board.standing, made = p.from->board.made;
        damage_bytes(&journal, one_in(2) ? 8 * made : 8 * (standing + 1));
        damage_bytes(&checks, 6 * p.from->board.checks);
        if (one_in(8))
            any_slots(&journal);
        p.own = 0;
    }
    return p;
}

static uint8_t line(void)
{
    return one_in(12) ? any_byte() : (uint8_t)(1 + below(9));
}

static int on_grid(uint8_t row, uint8_t column)
{
    return row >= 1 && row <= 9 && column >= 1 && column <= 9;
}

/* A cell, and a digit for it. */
struct aim {
    uint8_t row, column, digit;
};

/* Whether the call may be accepted there; for the pencil, where it is `marked`, with a mark to strike. */
static int suits(enum call call, int marked, const pawdoku_board *b, size_t cell)
{
    switch (call) {
    case PLACE: return !b->given[cell];
    case PENCIL: return b->digits[cell] == 0 && (!marked || b->notes[cell] != 0);
    default: return b->digits[cell] != 0 && !b->given[cell];
    }
}

static uint8_t lowest_mark(uint16_t note)
{
    uint8_t digit = 0;
    while (digit < 15 && (note >> digit & 1) == 0)
        digit++;
    return digit;
}

/* Any cell and digit; every other time, where there are any, such that the call may be accepted. */
static struct aim take_aim(enum call call, const pawdoku_board *b)
{
    struct aim a;
    a.row = line();
    a.column = line();
    a.digit = line();
    if (one_in(2))
        return a;
    const int marked = call == PENCIL && one_in(2);
    size_t start = below(PAWDOKU_CELLS), i = 0;
    while (i < PAWDOKU_CELLS && !suits(call, marked, b, (start + i) % PAWDOKU_CELLS))
        i++;
    if (i == PAWDOKU_CELLS)
        return a;
    size_t cell = (start + i) % PAWDOKU_CELLS;
    a.row = (uint8_t)(cell / 9 + 1);
    a.column = (uint8_t)(cell % 9 + 1);
    if (marked)
        a.digit = lowest_mark(b->notes[cell]);
    if (call == PLACE && one_in(2))
        a.digit = b->solution[cell];
    return a;
}

#endif
