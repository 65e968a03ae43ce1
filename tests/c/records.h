/* Givens and records to open: sound ones, nearly sound ones, and others. */
#ifndef PAWDOKU_TESTS_RECORDS_H
#define PAWDOKU_TESTS_RECORDS_H

#include "passed.h"

static void damage_givens(uint8_t *givens, size_t *length)
{
    size_t n = *length / 3;
    switch (below(6)) {
    case 0: *length = below(3 * PAWDOKU_CELLS + 1); break;
    case 1:
        for (size_t i = 0; i < PAWDOKU_CELLS; i++) {
            givens[3 * i] = (uint8_t)(i / 9 + 1);
            givens[3 * i + 1] = (uint8_t)(i % 9 + 1);
            givens[3 * i + 2] = solution_g((int)i / 9, (int)i % 9);
        }
        *length = 3 * PAWDOKU_CELLS;
        break;
    case 2:
        if (n > 0)
            givens[3 * (n - 1)] = (uint8_t)(9 + below(4));
        break;
    case 3:
        if (n > 0)
            spoil(givens + 3 * below(n) + 2, 1);
        break;
    case 4:
        if (*length > 0)
            spoil(givens, *length);
        break;
    default:
        for (size_t i = 0; i < 3 * PAWDOKU_CELLS; i++)
            givens[i] = any_byte();
    }
}

static size_t put(uint8_t *record, size_t n, const uint8_t *item, size_t length)
{
    memcpy(record + n, item, length);
    return n + length;
}

static size_t put_givens(uint8_t *record, const struct sitting *s)
{
    size_t n = 0;
    for (size_t i = 0; i < s->givens_length; i += 3) {
        record[n++] = PAWDOKU_RECORD_GIVEN;
        n = put(record, n, s->givens + i, 3);
    }
    return n;
}

static size_t put_move(uint8_t *record, size_t n, uint8_t kind, struct aim at)
{
    return put(record, n, (const uint8_t[4]){kind, at.row, at.column, at.digit}, kind == PAWDOKU_ERASE ? 3 : 4);
}

static size_t put_undone(uint8_t *record, size_t n, size_t undone)
{
    return put(record, n, (const uint8_t[3]){PAWDOKU_RECORD_UNDONE, (uint8_t)undone, (uint8_t)(undone >> 8)}, 3);
}

static size_t put_check(uint8_t *record, size_t n, size_t standing, struct aim at)
{
    const uint8_t low = (uint8_t)standing, high = (uint8_t)(standing >> 8);
    return put(record, n, (const uint8_t[6]){PAWDOKU_RECORD_CHECK, low, high, at.row, at.column, at.digit}, 6);
}

/* More moves than a journal holds, or as many, or one less: a mark written and struck in turn. */
static size_t put_many_moves(uint8_t *record, size_t n, struct aim at)
{
    size_t moves = PAWDOKU_MAX_MOVES - 1 + below(3);
    for (size_t i = 0; i < moves; i++)
        n = put_move(record, n, i % 2 == 0 ? PAWDOKU_WRITE_MARK : PAWDOKU_STRIKE_MARK, at);
    return n;
}

/* A record put together item by item, so that it is sometimes sound and otherwise nearly. */
static size_t compose(const struct sitting *s, uint8_t *record)
{
    const struct aim at = take_aim(PENCIL, &s->board);
    size_t n = put_givens(record, s), moves = below(5);
    if (one_in(40))
        n = put_many_moves(record, n, at);
    for (size_t i = 0; i < moves; i++) {
        uint8_t kind = (uint8_t)(2 + below(4));
        n = put_move(record, n, kind, one_in(2) ? at : take_aim(PLACE, &s->board));
    }
    n = put_undone(record, n, one_in(2) ? 0 : below(moves + 2));
    size_t asked = one_in(40) ? PAWDOKU_MAX_CHECKS - 1 + below(3) : below(3);
    for (size_t i = 0; i < asked; i++) {
        size_t standing = one_in(8) ? 1023 + below(3) : below(4);
        n = put_check(record, n, standing, one_in(2) ? at : take_aim(PLACE, &s->board));
    }
    return n;
}

/* The one cell that is left filled, filled again, taken back, asked about: what only a board that is nearly solved refuses. */
static size_t compose_last_cell(const struct sitting *s, uint8_t *record)
{
    size_t cell = 0, n = put_givens(record, s);
    while (cell < PAWDOKU_CELLS - 1 && s->board.given[cell])
        cell++;
    const struct aim right = {(uint8_t)(cell / 9 + 1), (uint8_t)(cell % 9 + 1), s->solution[cell]};
    const struct aim wrong = {right.row, right.column, (uint8_t)(right.digit % 9 + 1)};
    n = put_move(record, n, PAWDOKU_PLACE, one_in(2) ? right : wrong);
    if (one_in(2))
        n = put_move(record, n, PAWDOKU_PLACE, one_in(2) ? right : wrong);
    n = put_undone(record, n, below(2));
    size_t standing = below(2);
    if (one_in(2))
        n = put_check(record, n, standing, one_in(2) ? right : wrong);
    return n;
}

/* A sitting's own record. */
static size_t written_of(const struct sitting *s, uint8_t *record)
{
    pawdoku_written w = pawdoku_write(s->board, s->journal, sizeof s->journal, s->checks, sizeof s->checks, record, PAWDOKU_MAX_RECORD);
    count(WRITE, w.refusal);
    return w.length;
}

static size_t damage_record(uint8_t *record, size_t length)
{
    switch (below(5)) {
    case 0: return below(length + 1);
    case 1:
        for (size_t i = 0; i < length; i++)
            record[i] = any_byte();
        return length;
    case 2: record[length] = any_byte(); return length + 1;
    case 3: {
        size_t at = below(length + 1), cut = below(8);
        cut = cut > length - at ? length - at : cut;
        memmove(record + at, record + at + cut, length - at - cut);
        return length - cut;
    }
    default:
        for (size_t n = 1 + below(3); n > 0 && length > 0; n--)
            spoil(record, length);
        return length;
    }
}

#endif
