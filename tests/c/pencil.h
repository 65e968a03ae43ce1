/* What has to come of the pencil, and of the marks in a record: two kinds of move there, each with the rule that it had
 * as a call. Said here once more from the header's words. */
#ifndef PAWDOKU_TESTS_PENCIL_H
#define PAWDOKU_TESTS_PENCIL_H

#include "records.h"

/* ---- the call */

/* The number, the board, and every byte of the journal. */
struct pencilled {
    uint8_t number;
    pawdoku_board board;
    uint8_t journal[LENT_MOST];
};

static uint16_t mark_of(uint8_t digit)
{
    return (uint16_t)(1u << digit);
}

/* The lowest number that refuses it, or 0. The cell is counted from 0, and looked at where there is one. */
static uint8_t pencil_refused(const pawdoku_board *b, struct aim at, size_t cell)
{
    if (journal.length != PAWDOKU_JOURNAL_BYTES)
        return PAWDOKU_WRONG_LENGTH;
    if (!is_board(b))
        return PAWDOKU_NOT_A_BOARD;
    if (!on_grid(at.row, at.column))
        return PAWDOKU_NO_SUCH_CELL;
    if (b->solved)
        return PAWDOKU_SOLVED;
    if (b->digits[cell] != 0)
        return PAWDOKU_MARKS_NOT_ACCEPTED;
    if (at.digit < 1 || at.digit > 9)
        return PAWDOKU_DIGIT_OUT_OF_RANGE;
    return b->standing == PAWDOKU_MAX_MOVES ? PAWDOKU_TOO_MANY_MOVES : PAWDOKU_ACCEPTED;
}

/* Of a board and the journal as it is lent: one mark and one slot change, or nothing. */
static struct pencilled pencilling_of(const pawdoku_board *b, struct aim at)
{
    const size_t cell = 9 * (size_t)(at.row - 1) + at.column - 1;
    struct pencilled e = {.number = pencil_refused(b, at, cell), .board = *b};
    memcpy(e.journal, journal.copy, journal.length);
    if (e.number != PAWDOKU_ACCEPTED)
        return e;
    const int present = (b->notes[cell] & mark_of(at.digit)) != 0;
    const uint8_t kind = present ? PAWDOKU_STRIKE_MARK : PAWDOKU_WRITE_MARK;
    const uint8_t slot[PAWDOKU_SLOT_BYTES] = {kind, at.row, at.column, at.digit, 0, 0, 0, 0};
    e.board.notes[cell] = (uint16_t)(present ? b->notes[cell] - mark_of(at.digit) : b->notes[cell] + mark_of(at.digit));
    memcpy(e.journal + PAWDOKU_SLOT_BYTES * b->standing, slot, sizeof slot);
    e.board.standing = b->standing + 1;
    e.board.made = e.board.standing;
    return e;
}

/* Every field, and every lent byte. */
static void must_be_pencilled(const pawdoku_answer *a, const struct pencilled *e)
{
    must(a->refusal.number == e->number, PENCIL, "another number");
    must(memcmp(a->board.notes, e->board.notes, sizeof e->board.notes) == 0, PENCIL, "other marks");
    must(same_board(&a->board, &e->board), PENCIL, "another board");
    must(memcmp(journal.bytes, e->journal, journal.length) == 0, PENCIL, "another journal");
    must(unchanged_from(&checks, 0), PENCIL, "the check memory was written");
}

/* ---- marks in a record */

/* A record of marks in one cell, counted from 0, and what it reopens as: the move that is refused and by which number,
 * or neither and the cell's note. */
struct marks {
    uint8_t record[PAWDOKU_MAX_RECORD];
    size_t length, cell, moves, refused;
    uint8_t inner;
    uint16_t note;
};

/* What refuses a mark where the cell is filled or has this note, or 0. */
static uint8_t mark_refused(uint8_t kind, int filled, uint16_t note, uint8_t digit)
{
    const int is_digit = digit >= 1 && digit <= 9;
    const int present = is_digit && (note & mark_of(digit)) != 0;
    if (filled)
        return PAWDOKU_MARKS_NOT_ACCEPTED;
    if (kind == PAWDOKU_STRIKE_MARK)
        return present ? PAWDOKU_ACCEPTED : PAWDOKU_MARK_NOT_THERE;
    if (!is_digit)
        return PAWDOKU_DIGIT_OUT_OF_RANGE;
    return present ? PAWDOKU_MARK_ALREADY_WRITTEN : PAWDOKU_ACCEPTED;
}

/* One more mark. Behind one that is refused nothing is expected any more. */
static void add_mark(struct marks *m, uint8_t kind, int filled, uint8_t digit)
{
    const struct aim at = {(uint8_t)(m->cell / 9 + 1), (uint8_t)(m->cell % 9 + 1), digit};
    m->length = put_move(m->record, m->length, kind, at);
    m->moves++;
    if (m->refused != 0)
        return;
    m->inner = mark_refused(kind, filled, m->note, digit);
    if (m->inner != PAWDOKU_ACCEPTED)
        m->refused = m->moves;
    else if (kind == PAWDOKU_WRITE_MARK)
        m->note |= mark_of(digit);
    else
        m->note &= (uint16_t)~mark_of(digit);
}

/* Some marks of a few digits, so that one is often present; now and then of what is no digit, or in a given's cell. */
static struct marks marks_of(const struct sitting *s)
{
    struct marks m = {.cell = below(PAWDOKU_CELLS)};
    m.length = put_givens(m.record, s);
    while (s->board.given[m.cell] && !one_in(8))
        m.cell = below(PAWDOKU_CELLS);
    for (size_t moves = below(6); moves > 0; moves--) {
        const uint8_t digits[8] = {1, 1, 5, 5, 9, 9, 0, 10};
        const uint8_t digit = one_in(4) ? digits[below(8)] : digits[below(6)];
        add_mark(&m, one_in(2) ? PAWDOKU_WRITE_MARK : PAWDOKU_STRIKE_MARK, s->board.given[m.cell], digit);
    }
    m.length = put_undone(m.record, m.length, 0);
    return m;
}

static void must_be_marked(const pawdoku_answer *a, const struct marks *m)
{
    const uint8_t number = m->refused == 0 ? PAWDOKU_ACCEPTED : PAWDOKU_MOVE_REFUSED;
    must(a->refusal.number == number, REOPEN, "a record of marks is answered otherwise");
    must(a->refusal.place == m->refused, REOPEN, "another move than the first mark that its kind refuses");
    must(a->refusal.inner == m->inner, REOPEN, "another reason than the mark's kind has");
    if (m->refused != 0)
        return;
    must(a->board.standing == m->moves, REOPEN, "more moves than the record has marks, or fewer");
    must(a->board.notes[m->cell] == m->note, REOPEN, "another note than the record's marks make");
}

#endif
