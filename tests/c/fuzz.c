/* Hostile use of every exported function: boards that no call ever returned, wrong lengths, damaged journals, records
 * and puzzle lines, any byte for a row, a column, a digit, any number for k. What must hold whatever is passed:
 *
 *     no byte outside a lent slice is touched (lent.h), and none inside that the call has no business with;
 *     the number is one that include/pawdoku.h lists for the call, and the lowest of 1 to 4 that applies;
 *     a refused call leaves the board and the lent memory as they were (opening and reopening: zero, unless by 1);
 *     a board that comes back accepted is a board;
 *     place, erase and pencil made again on the board that was passed answer the same;
 *     the pencil answers and leaves what pencil.h says; pressed twice it leaves two moves, each undone by itself;
 *     no call answers 10 or 11: they stand inside 29, where a record's mark is refused as pencil.h says;
 *     a list of calls is answered as its calls are, one after the other, also on what is no board;
 *     a sitting that is saved reopens as it was;
 *     a line is read and written as lines.h says it, and each of the two brings back what the other made.
 *
 *     fuzz CALLS [SEED]
 *
 * The same seed makes the same calls. Writes how many calls were made of each and how often each number was given. */
#define _DEFAULT_SOURCE 1
#include "lines.h"
#include "pencil.h"
#include "records.h"

#include <signal.h>

/* ---- what must hold after every call */

static void look_at_guards(enum call call)
{
    const struct lent *all[] = {&journal, &checks, &solution, &input, &output, &answers};
    for (size_t i = 0; i < sizeof all / sizeof *all; i++)
        must(guards_stand(all[i]), call, "a byte beside a lent slice was written");
}

/* The lowest of 1 to 4 that applies, or 0: `right_lengths`, the board, the position and the status are asked in that order. */
static int lowest(const struct passed *p, int right_lengths, int position_ok, int asks_status)
{
    if (!right_lengths)
        return 1;
    if (!is_board(&p->board))
        return 2;
    if (!position_ok)
        return 3;
    return asks_status && p->board.solved ? 4 : 0;
}

static void must_be_lowest(enum call call, pawdoku_refusal r, int low)
{
    must(low == 0 ? r.number == 0 || r.number > 4 : r.number == low, call, "not the lowest number that applies");
}

/* A call that answers with a board: refused it leaves all as it was, accepted the board is one. */
static void must_answer(enum call call, const struct passed *p, pawdoku_refusal r, const pawdoku_board *b)
{
    if (r.number == 0) {
        must(is_board(b), call, "what comes back is no board");
        return;
    }
    must(same_board(b, &p->board), call, "a refused call changed the board");
    must(unchanged_from(&journal, 0) && unchanged_from(&checks, 0), call, "a refused call changed lent memory");
}

/* Of the bytes of one entry, or of none, nothing beside them may change. */
static int only_changed(const struct lent *l, size_t start, size_t length)
{
    return memcmp(l->bytes, l->copy, start < l->length ? start : l->length) == 0 && unchanged_from(l, start + length);
}

static void go_on(const struct passed *p, const pawdoku_board *b)
{
    if (!p->own)
        return;
    p->from->board = *b;
    memcpy(p->from->journal, journal.bytes, journal.length);
    memcpy(p->from->checks, checks.bytes, checks.length);
}

/* ---- the play calls */

static pawdoku_answer call_move(enum call call, pawdoku_board b, uint8_t *j, size_t length, uint8_t row, uint8_t column, uint8_t digit)
{
    switch (call) {
    case PLACE: return pawdoku_place(b, j, length, row, column, digit);
    case ERASE: return pawdoku_erase(b, j, length, row, column);
    default: return pawdoku_pencil(b, j, length, row, column, digit);
    }
}

/* An answer that was lost: the call made again on the board that was passed, on the journal as it was left, answers the
 * same and leaves the same. */
static void must_answer_again(enum call call, const pawdoku_board *b, struct aim at, const pawdoku_answer *first)
{
    static uint8_t left[LENT_MOST];
    memcpy(left, journal.bytes, journal.length);
    pawdoku_answer a = call_move(call, *b, journal.pointer, journal.length, at.row, at.column, at.digit);
    count(call, a.refusal);
    must(a.refusal.number == first->refusal.number, call, "made again, it is answered by another number");
    must(same_board(&a.board, &first->board), call, "made again, it answers another board");
    must(memcmp(journal.bytes, left, journal.length) == 0, call, "made again, it leaves another journal");
}

static void try_move(void)
{
    static const enum call moves[4] = {PLACE, ERASE, PENCIL, PENCIL};
    enum call call = moves[below(4)];
    struct passed p = pass();
    struct aim at = take_aim(call, &p.board);
    pawdoku_answer a = call_move(call, p.board, journal.pointer, journal.length, at.row, at.column, at.digit);
    count(call, a.refusal);
    look_at_guards(call);
    must_be_lowest(call, a.refusal, lowest(&p, journal.length == PAWDOKU_JOURNAL_BYTES, on_grid(at.row, at.column), 1));
    must_answer(call, &p, a.refusal, &a.board);
    if (call == PENCIL) {
        const struct pencilled e = pencilling_of(&p.board, at);
        must_be_pencilled(&a, &e);
    }
    must_answer_again(call, &p.board, at, &a);
    if (a.refusal.number != 0)
        return;
    must(a.board.standing == p.board.standing + 1 && a.board.made == a.board.standing, call, "a recorded move is the last");
    must(only_changed(&journal, 8 * p.board.standing, 8), call, "a recorded move writes its one slot");
    go_on(&p, &a.board);
}

/* A key that bounces turns a mark round and back again: two moves, unless the journal has room for one alone, and each
 * is undone by itself. */
static void try_bounce(void)
{
    struct passed p = pass();
    struct aim at = take_aim(PENCIL, &p.board);
    uint16_t notes[2][PAWDOKU_CELLS];
    pawdoku_board b = p.board;
    for (int press = 0; press < 2; press++) {
        memcpy(notes[press], b.notes, sizeof b.notes);
        pawdoku_answer a = pawdoku_pencil(b, journal.pointer, journal.length, at.row, at.column, at.digit);
        count(PENCIL, a.refusal);
        must(press == 0 || a.refusal.number == 0 || b.standing == PAWDOKU_MAX_MOVES, PENCIL, "refused the second time");
        if (a.refusal.number != 0)
            return;
        b = a.board;
    }
    look_at_guards(PENCIL);
    must(b.standing == p.board.standing + 2, PENCIL, "two presses are other than two moves");
    must(memcmp(b.notes, notes[0], sizeof b.notes) == 0, PENCIL, "two presses leave another note");
    for (int press = 1; press >= 0; press--) {
        pawdoku_answer a = pawdoku_undo(b, journal.pointer, journal.length);
        count(UNDO, a.refusal);
        must(a.refusal.number == 0, UNDO, "a press of the pencil cannot be undone");
        must(memcmp(a.board.notes, notes[press], sizeof b.notes) == 0, UNDO, "undone, the note is another than before");
        b = a.board;
    }
}

static void try_back(void)
{
    enum call call = one_in(2) ? UNDO : REDO;
    struct passed p = pass();
    const uint8_t *j = journal.pointer;
    pawdoku_answer a = call == UNDO ? pawdoku_undo(p.board, j, journal.length) : pawdoku_redo(p.board, j, journal.length);
    count(call, a.refusal);
    look_at_guards(call);
    must_be_lowest(call, a.refusal, lowest(&p, journal.length == PAWDOKU_JOURNAL_BYTES, 1, 1));
    must_answer(call, &p, a.refusal, &a.board);
    must(unchanged_from(&journal, 0), call, "the journal was written");
    if (a.refusal.number != 0)
        return;
    must(a.board.made == p.board.made && a.board.standing == p.board.standing + (call == UNDO ? (size_t)-1 : 1), call, "standing moves by one");
    go_on(&p, &a.board);
}

static void try_check(void)
{
    struct passed p = pass();
    struct aim at = take_aim(CHECK, &p.board);
    pawdoku_checked a = pawdoku_check(p.board, checks.pointer, checks.length, at.row, at.column);
    count(CHECK, a.refusal);
    look_at_guards(CHECK);
    must_be_lowest(CHECK, a.refusal, lowest(&p, checks.length == PAWDOKU_CHECK_MEMORY, on_grid(at.row, at.column), 1));
    must_answer(CHECK, &p, a.refusal, &a.board);
    must(a.right <= 1 && (a.refusal.number == 0 || a.right == 0), CHECK, "a verdict beside a refusal, or one that is no flag");
    if (a.refusal.number != 0)
        return;
    size_t cell = 9 * (size_t)(at.row - 1) + at.column - 1;
    must(a.right == (p.board.digits[cell] == p.board.solution[cell]), CHECK, "a wrong verdict");
    must(a.board.checks == p.board.checks + 1 && only_changed(&checks, 6 * p.board.checks, 6), CHECK, "a check stores its six bytes");
    go_on(&p, &a.board);
}

/* ---- what the journal shows */

static void try_shown(void)
{
    static const uint8_t zeros[16];
    enum call call = one_in(2) ? LATEST : NEXT;
    struct passed p = pass();
    lend(&output, zeros, one_in(6) ? below(8) : 8 + below(8));
    uint8_t *out = output.pointer;
    pawdoku_shown s = call == LATEST ? pawdoku_latest(p.board, journal.pointer, journal.length, out, output.length)
                                     : pawdoku_next(p.board, journal.pointer, journal.length, out, output.length);
    count(call, s.refusal);
    look_at_guards(call);
    must_be_lowest(call, s.refusal, lowest(&p, journal.length == PAWDOKU_JOURNAL_BYTES, 1, 0));
    must(unchanged_from(&journal, 0), call, "the journal was written");
    if (s.refusal.number != 0) {
        must(unchanged_from(&output, 0) && s.offset == 0 && s.length == 0, call, "something stands beside a refusal");
        return;
    }
    must(s.offset == 8 * (call == LATEST ? p.board.standing - 1 : p.board.standing) && s.length == 8, call, "another slot's place");
    must(memcmp(output.bytes, journal.bytes + s.offset, 8) == 0 && unchanged_from(&output, 8), call, "the output is not the slot, and the rest as it was");
}

static void try_reading(void)
{
    struct passed p = pass();
    size_t k = one_in(4) ? boundary(p.board.made) : 1 + below(p.board.made % 4096 + 1);
    pawdoku_reading_answer a = pawdoku_reading(p.board, journal.pointer, journal.length, k);
    count(READING, a.refusal);
    look_at_guards(READING);
    must_be_lowest(READING, a.refusal, lowest(&p, journal.length == PAWDOKU_JOURNAL_BYTES, 1, 0));
    must(unchanged_from(&journal, 0), READING, "the journal was written");
    if (a.refusal.number != 0) {
        must(a.kind == 0 && a.row == 0 && a.column == 0 && a.digit == 0 && a.undone == 0 && a.index == 0, READING, "something stands beside a refusal");
        must(is_zero(a.digits, sizeof a.digits) && is_zero((const uint8_t *)a.notes, sizeof a.notes), READING, "something stands beside a refusal");
        return;
    }
    const uint8_t *slot = journal.bytes + 8 * (k - 1);
    must(a.index == k && a.undone == (k > p.board.standing), READING, "another move's index, or undone wrongly");
    must(a.kind == slot[0] && a.row == slot[1] && a.column == slot[2] && a.digit == slot[3], READING, "another move");
    if (p.own && k == p.board.standing)
        must(memcmp(a.digits, p.board.digits, sizeof a.digits) == 0 && memcmp(a.notes, p.board.notes, sizeof a.notes) == 0, READING, "the last standing move's reading is not the board");
}

/* ---- the record */

/* What was written of a sitting reopens, and is the sitting again. */
static void must_reopen(const struct passed *p, size_t length)
{
    static uint8_t j[PAWDOKU_JOURNAL_BYTES], c[PAWDOKU_CHECK_MEMORY];
    pawdoku_answer a = pawdoku_reopen(output.bytes, length, p->from->solution, PAWDOKU_SOLUTION_BYTES, j, sizeof j, c, sizeof c);
    count(REOPEN, a.refusal);
    must(a.refusal.number == 0 && same_board(&a.board, &p->board), REOPEN, "a saved sitting reopens as another");
    must(memcmp(j, journal.bytes, 8 * a.board.made) == 0 && memcmp(c, checks.bytes, 6 * a.board.checks) == 0, REOPEN, "with other moves or checks");
}

static void try_write(void)
{
    static uint8_t pattern[PAWDOKU_MAX_RECORD + 8];
    struct passed p = pass();
    memset(pattern, any_byte(), sizeof pattern);
    lend(&output, pattern, one_in(4) ? below(64) : one_in(4) ? below(sizeof pattern) : PAWDOKU_MAX_RECORD);
    pawdoku_written w = pawdoku_write(p.board, journal.pointer, journal.length, checks.pointer, checks.length, output.pointer, output.length);
    count(WRITE, w.refusal);
    look_at_guards(WRITE);
    must_be_lowest(WRITE, w.refusal, lowest(&p, journal.length == PAWDOKU_JOURNAL_BYTES && checks.length == PAWDOKU_CHECK_MEMORY, 1, 0));
    must(unchanged_from(&journal, 0) && unchanged_from(&checks, 0), WRITE, "the journal or the check memory was written");
    if (w.refusal.number != 0) {
        must(unchanged_from(&output, 0) && w.length == 0, WRITE, "something stands beside a refusal");
        return;
    }
    must(w.length <= output.length && w.length <= PAWDOKU_MAX_RECORD && unchanged_from(&output, w.length), WRITE, "bytes beyond the record were written");
    if (p.own)
        must_reopen(&p, w.length);
}

/* A solution: the puzzle's, or damaged, or of another length. */
static void lend_solution(const struct sitting *s)
{
    lend_memory(&solution, s->solution, PAWDOKU_SOLUTION_BYTES);
    if (solution.length == 0 || !one_in(10))
        return;
    size_t at = below(solution.length);
    solution.bytes[at] = one_in(3) ? 0 : one_in(2) ? (uint8_t)(1 + below(9)) : any_byte();
    memcpy(solution.copy, solution.bytes, solution.length);
}

/* Memory that is full of something, so that what a call leaves of it shows. */
static void lend_used_memory(void)
{
    static uint8_t full[PAWDOKU_JOURNAL_BYTES];
    memset(full, 1 + (int)below(255), sizeof full);
    lend_memory(&journal, full, PAWDOKU_JOURNAL_BYTES);
    lend_memory(&checks, full, PAWDOKU_CHECK_MEMORY);
}

/* Opening and reopening: number 1 leaves the memory, anything else zeros behind what is stored. */
static void must_open(enum call call, const pawdoku_answer *a, int right_lengths)
{
    must((a->refusal.number == 1) == !right_lengths, call, "1 where the lengths are right, or not 1 where they are wrong");
    must(unchanged_from(&solution, 0) && unchanged_from(&input, 0), call, "what was lent to be read was written");
    must(a->refusal.number == 0 ? is_board(&a->board) : is_zero_board(&a->board), call, "what comes back is no board, or not zero beside a refusal");
    if (a->refusal.number == 1) {
        must(unchanged_from(&journal, 0) && unchanged_from(&checks, 0), call, "1 and the memory was written");
        return;
    }
    size_t used = 8 * a->board.made, stored = 6 * a->board.checks;
    must(is_zero(journal.bytes + used, journal.length - used), call, "the journal is not zero behind its moves");
    must(is_zero(checks.bytes + stored, checks.length - stored), call, "the check memory is not zero behind its checks");
}

static int lengths_to_open(void)
{
    return journal.length == PAWDOKU_JOURNAL_BYTES && checks.length == PAWDOKU_CHECK_MEMORY && solution.length == PAWDOKU_SOLUTION_BYTES;
}

static void try_open(void)
{
    static uint8_t givens[3 * PAWDOKU_CELLS];
    const struct sitting *s = &sittings[below(SITTINGS)];
    size_t length = s->givens_length;
    memcpy(givens, s->givens, length);
    if (one_in(2))
        damage_givens(givens, &length);
    lend(&input, givens, length);
    lend_solution(s);
    lend_used_memory();
    pawdoku_answer a = pawdoku_open(input.pointer, input.length, solution.pointer, solution.length, journal.pointer, journal.length, checks.pointer, checks.length);
    count(OPEN, a.refusal);
    look_at_guards(OPEN);
    must_open(OPEN, &a, lengths_to_open() && input.length % 3 == 0);
    must(a.refusal.number != 0 || (a.board.made == 0 && a.board.standing == 0 && a.board.checks == 0), OPEN, "an opened board has moves or checks");
}

static void try_reopen(void)
{
    static uint8_t record[LENT_MOST];
    const size_t at = below(SITTINGS);
    const struct sitting *s = &sittings[at];
    memset(record, 0, PAWDOKU_MAX_RECORD);
    size_t length = one_in(3) ? written_of(s, record) : at == 1 ? compose_last_cell(s, record) : compose(s, record);
    if (one_in(3))
        length = damage_record(record, length);
    lend(&input, record, length);
    lend_solution(s);
    lend_used_memory();
    pawdoku_answer a = pawdoku_reopen(input.pointer, input.length, solution.pointer, solution.length, journal.pointer, journal.length, checks.pointer, checks.length);
    count(REOPEN, a.refusal);
    look_at_guards(REOPEN);
    must_open(REOPEN, &a, lengths_to_open());
}

/* Marks of both kinds, as a record has them: no call makes such a move where the mark is otherwise. */
static void try_marks(void)
{
    const struct sitting *s = &sittings[below(SITTINGS)];
    const struct marks m = marks_of(s);
    lend(&input, m.record, m.length);
    lend(&solution, s->solution, PAWDOKU_SOLUTION_BYTES);
    lend_used_memory();
    pawdoku_answer a = pawdoku_reopen(input.pointer, input.length, solution.pointer, solution.length, journal.pointer,
                                      journal.length, checks.pointer, checks.length);
    count(REOPEN, a.refusal);
    look_at_guards(REOPEN);
    must_open(REOPEN, &a, lengths_to_open());
    if (lengths_to_open())
        must_be_marked(&a, &m);
}

/* ---- the questions */

static uint8_t box_line(uint8_t line_byte)
{
    return (uint8_t)((line_byte == 0 ? 0 : line_byte - 1) / 3 + 1);
}

/* Of any bytes: whether they lie on the grid is not asked. */
static int are_peers(uint8_t r, uint8_t c, uint8_t r2, uint8_t c2)
{
    if (r == r2 && c == c2)
        return 0;
    return r == r2 || c == c2 || (box_line(r) == box_line(r2) && box_line(c) == box_line(c2));
}

static int are_peer_cells(size_t cell, size_t other)
{
    return are_peers((uint8_t)(cell / 9 + 1), (uint8_t)(cell % 9 + 1), (uint8_t)(other / 9 + 1), (uint8_t)(other % 9 + 1));
}

/* Of a cell counted from 0: it holds a digit that a peer also holds. */
static int conflicts_at(const pawdoku_board *b, size_t cell)
{
    for (size_t other = 0; other < PAWDOKU_CELLS; other++)
        if (b->digits[cell] != 0 && b->digits[other] == b->digits[cell] && are_peer_cells(cell, other))
            return 1;
    return 0;
}

static int is_consistent(const pawdoku_board *b)
{
    for (size_t cell = 0; cell < PAWDOKU_CELLS; cell++)
        if (conflicts_at(b, cell))
            return 0;
    return 1;
}

static void try_cell(void)
{
    struct passed p = pass();
    uint8_t row = line(), column = line();
    pawdoku_cell_answer a = pawdoku_cell(p.board, row, column);
    count(CELL, a.refusal);
    must_be_lowest(CELL, a.refusal, lowest(&p, 1, on_grid(row, column), 0));
    if (a.refusal.number != 0) {
        must(a.digit == 0 && a.given == 0 && a.conflicting == 0 && a.note == 0 && a.shown == 0, CELL, "something stands beside a refusal");
        return;
    }
    size_t cell = 9 * (size_t)(row - 1) + column - 1;
    must(a.digit == p.board.digits[cell] && a.given == p.board.given[cell] && a.note == p.board.notes[cell], CELL, "another cell's answer");
    must(a.conflicting == conflicts_at(&p.board, cell), CELL, "conflicting wrongly");
    must(a.shown == (a.digit == 0), CELL, "a note shown under a digit, or not where there is none");
}

static void try_cell_yes_no(void)
{
    enum call call = (enum call)(CONFLICTS + below(3));
    struct passed p = pass();
    uint8_t row = line(), column = line();
    pawdoku_yes_no a = call == CONFLICTS       ? pawdoku_conflicts(p.board, row, column)
                       : call == ACCEPTS_MARKS ? pawdoku_accepts_marks(p.board, row, column)
                                               : pawdoku_holds_players_digit(p.board, row, column);
    count(call, a.refusal);
    must_be_lowest(call, a.refusal, lowest(&p, 1, on_grid(row, column), 0));
    must(a.holds <= 1 && (a.refusal.number == 0 || a.holds == 0), call, "a flag that is none, or yes beside a refusal");
    pawdoku_cell_answer c = pawdoku_cell(p.board, row, column);
    count(CELL, c.refusal);
    must(c.refusal.number == a.refusal.number, call, "refused otherwise than the question for the cell");
    if (a.refusal.number == 0)
        must(a.holds == (call == CONFLICTS ? c.conflicting : call == ACCEPTS_MARKS ? c.digit == 0 : c.digit != 0 && !c.given), call, "another answer than the cell's");
}

static void try_board_yes_no(void)
{
    enum call call = (enum call)(IS_SOLVED + below(5));
    struct passed p = pass();
    const pawdoku_board *b = &p.board;
    pawdoku_yes_no a = call == IS_SOLVED       ? pawdoku_is_solved(*b)
                       : call == IS_FULL       ? pawdoku_is_full(*b)
                       : call == IS_CONSISTENT ? pawdoku_is_consistent(*b)
                       : call == CAN_UNDO      ? pawdoku_can_undo(*b)
                                               : pawdoku_can_redo(*b);
    count(call, a.refusal);
    must_be_lowest(call, a.refusal, lowest(&p, 1, 1, 0));
    must(a.holds <= 1 && (a.refusal.number == 0 || a.holds == 0), call, "a flag that is none, or yes beside a refusal");
    if (a.refusal.number != 0)
        return;
    must(call != IS_SOLVED || a.holds == b->solved, call, "another status");
    must(call != IS_FULL || a.holds == (memchr(b->digits, 0, PAWDOKU_CELLS) == NULL), call, "full wrongly");
    must(call != IS_CONSISTENT || a.holds == is_consistent(b), call, "consistent wrongly");
    must(call != CAN_UNDO || a.holds == (!b->solved && b->standing > 0), call, "undo promised wrongly");
    must(call != CAN_REDO || a.holds == (!b->solved && b->standing < b->made), call, "redo promised wrongly");
}

/* Nine less the cells that hold the digit and conflict with no peer. */
static int left_for(const pawdoku_board *b, uint8_t digit)
{
    int left = 9;
    for (size_t i = 0; i < PAWDOKU_CELLS; i++)
        left -= b->digits[i] == digit && !conflicts_at(b, i);
    return left;
}

static void try_left(void)
{
    struct passed p = pass();
    uint8_t digit = line();
    pawdoku_left a = pawdoku_digits_left(p.board, digit);
    count(DIGITS_LEFT, a.refusal);
    must_be_lowest(DIGITS_LEFT, a.refusal, lowest(&p, 1, 1, 0));
    int left = a.refusal.number == 0 ? left_for(&p.board, digit) : 0;
    must(a.left == left, DIGITS_LEFT, "not nine less the cells that hold it and conflict with no peer");
}

static void try_keypad(void)
{
    struct passed p = pass();
    pawdoku_keypad_answer a = pawdoku_keypad(p.board);
    count(KEYPAD, a.refusal);
    must_be_lowest(KEYPAD, a.refusal, lowest(&p, 1, 1, 0));
    for (uint8_t digit = 1; digit <= 9; digit++) {
        int left = a.refusal.number == 0 ? left_for(&p.board, digit) : 0;
        must(a.left[digit - 1] == left, KEYPAD, "another number than the question for the key says");
    }
}

/* ---- a list of calls */

static enum call call_of(uint8_t first)
{
    switch (first) {
    case PAWDOKU_CALL_PLACE: return PLACE;
    case PAWDOKU_CALL_ERASE: return ERASE;
    case PAWDOKU_CALL_PENCIL: return PENCIL;
    case PAWDOKU_CALL_UNDO: return UNDO;
    case PAWDOKU_CALL_REDO: return REDO;
    case PAWDOKU_CALL_CHECK: return CHECK;
    default: return CALLS;
    }
}

/* What a list was lent, to be run once more call by call. */
struct again {
    pawdoku_board board;
    uint8_t journal[LENT_MOST], checks[LENT_MOST];
};

/* One call of a list, made by itself. */
static pawdoku_checked one_call(struct again *g, enum call call, const uint8_t bytes[4])
{
    if (call == CHECK)
        return pawdoku_check(g->board, g->checks, checks.length, bytes[1], bytes[2]);
    const size_t length = journal.length;
    pawdoku_answer a = call == UNDO   ? pawdoku_undo(g->board, g->journal, length)
                       : call == REDO ? pawdoku_redo(g->board, g->journal, length)
                                      : call_move(call, g->board, g->journal, length, bytes[1], bytes[2], bytes[3]);
    return (pawdoku_checked){.refusal = a.refusal, .right = 0, .board = a.board};
}

/* Its four bytes of answer. */
static void say(struct again *g, const uint8_t bytes[4], uint8_t said[4])
{
    enum call call = call_of(bytes[0]);
    memcpy(said, (const uint8_t[4]){PAWDOKU_NO_CALL, 0, 0, 0}, 4);
    if (call == CALLS) {
        refusals_by[PAWDOKU_NO_CALL]++;
        return;
    }
    pawdoku_checked c = one_call(g, call, bytes);
    count(call, c.refusal);
    g->board = c.board;
    const uint8_t low = (uint8_t)c.refusal.place, high = (uint8_t)(c.refusal.place >> 8);
    memcpy(said, (const uint8_t[4]){c.refusal.number, low, high, c.right}, 4);
}

/* What answers a call on a value that is no board: 255 for no call, 1 for memory of another length, else 2. */
static int says_no_board(const uint8_t bytes[4], const uint8_t said[4])
{
    enum call call = call_of(bytes[0]);
    int right = call == CHECK ? checks.length == PAWDOKU_CHECK_MEMORY : journal.length == PAWDOKU_JOURNAL_BYTES;
    return said[0] == (call == CALLS ? PAWDOKU_NO_CALL : right ? PAWDOKU_NOT_A_BOARD : PAWDOKU_WRONG_LENGTH);
}

/* The list again, one call after the other, whatever the board is and the lengths are. */
static void must_be_as_one_by_one(const struct passed *p, const pawdoku_board *left, size_t groups)
{
    static struct again again;
    again.board = p->board;
    memcpy(again.journal, journal.copy, journal.length);
    memcpy(again.checks, checks.copy, checks.length);
    for (size_t i = 0; i < groups; i++) {
        const uint8_t *call = input.bytes + 4 * i, *answer = answers.bytes + 4 * i;
        uint8_t said[4];
        say(&again, call, said);
        must(memcmp(said, answer, 4) == 0, PLAY, "another answer than the call's by itself");
        must(is_board(&p->board) || says_no_board(call, answer), PLAY, "a call on no board is not answered by 2");
    }
    must(same_board(left, &again.board), PLAY, "another board than the calls' one by one");
    must(memcmp(journal.bytes, again.journal, journal.length) == 0, PLAY, "another journal");
    must(memcmp(checks.bytes, again.checks, checks.length) == 0, PLAY, "other checks");
}

/* A call's most often; now and then one of versions 1 to 3, which is none today, or any. */
static uint8_t first_byte(void)
{
    if (one_in(16))
        return (uint8_t)(2 + below(7));
    return one_in(16) ? any_byte() : (uint8_t)(PAWDOKU_CALL_PLACE + below(6));
}

static void lend_list(void)
{
    static uint8_t list[256], full[256];
    for (size_t i = 0; i < sizeof list; i++)
        list[i] = i % 4 != 0 ? line() : first_byte();
    memset(full, 0x77, sizeof full);
    size_t length = below(sizeof list);
    lend(&input, list, length);
    lend(&answers, full, one_in(4) ? below(sizeof full) : length);
}

/* As many calls as there are whole groups in both. */
static size_t groups_lent(void)
{
    return (input.length < answers.length ? input.length : answers.length) / 4;
}

/* Runs the list that is lent. */
static pawdoku_board play_list(const struct passed *p)
{
    pawdoku_answer a = pawdoku_play(p->board, journal.pointer, journal.length, checks.pointer, checks.length,
                                    input.pointer, input.length, answers.pointer, answers.length);
    count(PLAY, a.refusal);
    look_at_guards(PLAY);
    must(unchanged_from(&input, 0), PLAY, "the list was written");
    must(unchanged_from(&answers, 4 * groups_lent()), PLAY, "bytes behind the answers were written");
    look_at_answers(answers.bytes, groups_lent());
    must_be_as_one_by_one(p, &a.board, groups_lent());
    return a.board;
}

static void try_play(void)
{
    struct passed p = pass();
    lend_list();
    const pawdoku_board left = play_list(&p);
    go_on(&p, &left);
}

/* Every byte there is, as the first of a group: 16 to 21 are calls, and no other. */
static void try_every_first_byte(void)
{
    static uint8_t list[4 * 256];
    struct passed p = pass();
    for (size_t byte = 0; byte < 256; byte++) {
        const uint8_t group[4] = {(uint8_t)byte, line(), line(), line()};
        memcpy(list + 4 * byte, group, sizeof group);
    }
    lend(&input, list, sizeof list);
    lend(&answers, list, sizeof list);
    const pawdoku_board left = play_list(&p);
    for (size_t byte = 0; byte < 256; byte++) {
        const int is_call = byte >= 16 && byte <= 21, said_so = answers.bytes[4 * byte] != PAWDOKU_NO_CALL;
        must(is_call == said_so, PLAY, "a first byte is a call's wrongly, or wrongly none's");
    }
    go_on(&p, &left);
}

/* ---- puzzle lines */

/* Reads a line into an output as it is lent. */
static pawdoku_written read_line(const uint8_t *line, size_t length)
{
    lend(&input, line, length);
    pawdoku_written w = pawdoku_read_line(input.pointer, input.length, output.pointer, output.length);
    count(READ_LINE, w.refusal);
    look_at_guards(READ_LINE);
    must(unchanged_from(&input, 0), READ_LINE, "the line was written");
    struct expected e = reading_of_line();
    must_be_expected(READ_LINE, w, &e);
    return w;
}

static void try_read_line(void)
{
    static uint8_t line[LINE_MOST];
    size_t length = any_line(line);
    if (one_in(2))
        length = damage_line(line, length);
    lend_room(PAWDOKU_LINE_GIVENS);
    read_line(line, length);
}

/* Every byte there is, as a line's first character, its last, one between, and behind it. */
static void try_every_byte(void)
{
    static uint8_t line[LINE_MOST];
    for (int byte = 0; byte < 256; byte++) {
        const size_t places[4] = {0, PAWDOKU_CELLS - 1, 1 + below(PAWDOKU_CELLS - 2), PAWDOKU_CELLS};
        for (size_t i = 0; i < 4; i++) {
            any_line(line);
            line[places[i]] = (uint8_t)byte;
            lend_room(PAWDOKU_LINE_GIVENS);
            read_line(line, places[i] == PAWDOKU_CELLS ? 82 : 81);
        }
    }
}

static pawdoku_written write_line(const pawdoku_board *b)
{
    pawdoku_written w = pawdoku_write_line(*b, output.pointer, output.length);
    count(WRITE_LINE, w.refusal);
    look_at_guards(WRITE_LINE);
    struct expected e = writing_of_line(b);
    must_be_expected(WRITE_LINE, w, &e);
    return w;
}

static void must_be_read_back(size_t length, const uint8_t *givens, size_t givens_length)
{
    must(length == givens_length, WRITE_LINE, "read back as more or fewer givens");
    must(memcmp(output.bytes, givens, length) == 0, WRITE_LINE, "read back as other givens");
}

/* A written line read back gives the board's givens: those that a sitting was opened with, and those of any board. */
static void try_write_line(void)
{
    struct passed p = pass();
    lend_room(PAWDOKU_LINE_BYTES);
    if (write_line(&p.board).refusal.number != 0)
        return;
    uint8_t line[PAWDOKU_LINE_BYTES];
    memcpy(line, output.bytes, sizeof line);
    lend_room(PAWDOKU_LINE_GIVENS);
    pawdoku_written read = read_line(line, sizeof line);
    if (read.refusal.number != 0)
        return;
    struct expected e = givens_of(&p.board);
    must_be_read_back(read.length, e.output, e.length);
    if (p.own)
        must_be_read_back(read.length, p.from->givens, p.from->givens_length);
}

/* Opens what was read from a sitting's line, and plays any list of calls on it. */
static void open_and_play(struct sitting *s, size_t givens_length)
{
    s->givens_length = givens_length;
    memcpy(s->givens, output.bytes, givens_length);
    must(open_sitting(s), READ_LINE, "the givens of a line that opens are refused");
    lend_list();
    pawdoku_answer a = pawdoku_play(s->board, s->journal, sizeof s->journal, s->checks, sizeof s->checks, input.pointer,
                                    input.length, answers.pointer, answers.length);
    count(PLAY, a.refusal);
    look_at_answers(answers.bytes, groups_lent());
    s->board = a.board;
}

/* A read line whose givens open a board, written after any play, is the line with full stops and without line feed. */
static void try_line_and_back(void)
{
    static struct sitting s;
    static uint8_t line[LINE_MOST];
    s = sittings[below(SITTINGS)];
    size_t length = line_of(&s, line);
    lend_room(PAWDOKU_LINE_GIVENS);
    pawdoku_written read = read_line(line, length);
    if (read.refusal.number != 0)
        return;
    open_and_play(&s, read.length);
    lend_room(PAWDOKU_LINE_BYTES);
    if (write_line(&s.board).refusal.number != 0)
        return;
    for (size_t i = 0; i < PAWDOKU_CELLS; i++)
        must(output.bytes[i] == (line[i] == '0' ? '.' : line[i]), WRITE_LINE, "another line than was read");
}

/* ---- notes and the grid, which cannot be refused */

static void try_notes(void)
{
    uint16_t note = (uint16_t)random_next();
    uint8_t digit = line();
    int held = digit >= 1 && digit <= 9 && (note >> digit & 1) != 0;
    must(pawdoku_note_contains(note, digit) == held, NOTE_CONTAINS, "another answer");
    count_plain(NOTE_CONTAINS);
    pawdoku_digits d = pawdoku_note_digits(note);
    count_plain(NOTE_DIGITS);
    size_t n = 0;
    for (uint8_t mark = 1; mark <= 9; mark++)
        if ((note >> mark & 1) != 0)
            must(d.digits[n++] == mark, NOTE_DIGITS, "another digit");
    must(is_zero(d.digits + n, 9 - n), NOTE_DIGITS, "something behind the digits");
    must(pawdoku_note_len(note) == n, NOTE_LEN, "another length");
    count_plain(NOTE_LEN);
    must(pawdoku_note_is_empty(note) == (n == 0), NOTE_IS_EMPTY, "another answer");
    count_plain(NOTE_IS_EMPTY);
}

static void try_grid(void)
{
    uint8_t row = line(), column = line(), row2 = line(), column2 = line();
    must(pawdoku_cell_of(row, column) == (on_grid(row, column) ? 9u * (row - 1u) + column : 0u), CELL_OF, "another cell");
    count_plain(CELL_OF);
    must(pawdoku_band(row) == box_line(row), BAND, "another band");
    count_plain(BAND);
    must(pawdoku_stack(column) == box_line(column), STACK, "another stack");
    count_plain(STACK);
    must(pawdoku_is_peer_of(row, column, row2, column2) == are_peers(row, column, row2, column2), IS_PEER_OF, "another answer");
    count_plain(IS_PEER_OF);
    size_t cell = one_in(8) ? boundary(PAWDOKU_CELLS) : 1 + below(PAWDOKU_CELLS), n = 0;
    pawdoku_peer_cells peers = pawdoku_peers(cell);
    count_plain(PEERS);
    for (size_t other = 1; other <= PAWDOKU_CELLS && cell >= 1 && cell <= PAWDOKU_CELLS; other++)
        if (are_peer_cells(cell - 1, other - 1))
            must(n < 20 && peers.cells[n++] == other, PEERS, "another peer");
    must(n == 20 || is_zero(peers.cells, 20), PEERS, "peers where there is no such cell");
    must(pawdoku_version() == PAWDOKU_VERSION && PAWDOKU_ABI() == PAWDOKU_VERSION, VERSION, "another version");
    count_plain(VERSION);
}

/* ---- the run */

/* How often each is tried, of 39. */
enum { TRIED = 39 };
static void (*const TRIES[TRIED])(void) = {
    try_move, try_move, try_move, try_move, try_move, try_move, try_move, try_move, try_back, try_back, try_back, try_back, try_check, try_check,
    try_shown, try_shown, try_reading, try_write, try_open, try_open, try_reopen, try_reopen, try_reopen, try_reopen, try_cell, try_cell_yes_no,
    try_board_yes_no, try_left, try_keypad, try_play, try_notes, try_grid, try_grid,
    try_read_line, try_read_line, try_write_line, try_line_and_back, try_bounce, try_marks,
};

static void report(void)
{
    for (int call = 0; call < CALLS; call++)
        printf("%-22s %9llu calls %9llu accepted\n", LISTED[call].name, (unsigned long long)calls_of[call], (unsigned long long)accepted_of[call]);
    printf("a record's move refused by:");
    for (int n = 0; n < 256; n++)
        if (moves_refused_by[n] != 0)
            printf(" %d: %llu;", n, (unsigned long long)moves_refused_by[n]);
    printf("\nnumbers:");
    for (int n = 0; n < 256; n++)
        if (refusals_by[n] != 0)
            printf(" %d: %llu;", n, (unsigned long long)refusals_by[n]);
    printf("\n%llu calls, seed %llu: nothing outside of what was lent, nothing out of order\n", (unsigned long long)made_calls, (unsigned long long)seed);
}

/* A run of some length meets every number, 10 and 11 where a record's move is refused, and has each call accepted; a
 * run that does not tests less than it says. */
static int met_everything(void)
{
    int met = refusals_by[PAWDOKU_NO_CALL] != 0;
    for (uint8_t n = 0; n <= PAWDOKU_NO_LINE_CHARACTER; n++) {
        met = met && (refusals_by[n] != 0 || is_of_a_mark(n));
        met = met && (moves_refused_by[n] != 0 || !is_inner(PAWDOKU_MOVE_REFUSED, n));
    }
    for (int call = 0; call < CALLS; call++)
        met = met && accepted_of[call] != 0;
    return met;
}

int main(int argc, char **argv)
{
    if (argc < 2) {
        fprintf(stderr, "usage: fuzz CALLS [SEED]\n");
        return 2;
    }
    uint64_t wanted = strtoull(argv[1], NULL, 10);
    seed = argc > 2 ? strtoull(argv[2], NULL, 10) : 1;
    random_state = seed;
    signal(SIGSEGV, faulted);
    signal(SIGBUS, faulted);
    struct lent *all[] = {&journal, &checks, &solution, &input, &output, &answers};
    for (size_t i = 0; i < sizeof all / sizeof *all; i++) {
        lent_make(all[i]);
        lend(all[i], (const uint8_t *)"", 0);
    }
    for (size_t i = 0; i < SITTINGS; i++)
        restart(i);
    try_every_byte();
    try_every_first_byte();
    while (made_calls < wanted) {
        TRIES[below(TRIED)]();
        size_t i = below(SITTINGS);
        if (one_in(sittings[i].board.solved ? 64 : 2000))
            restart(i);
    }
    report();
    if (wanted >= 100000 && !met_everything()) {
        fprintf(stderr, "fuzz: a number was never given, or a call never accepted\n");
        return 1;
    }
    return 0;
}
