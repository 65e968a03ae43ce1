/* One sitting at a board, from C: open a puzzle, pencil, place, undo, check, save, and go on from what was saved.
 *
 *     sitting            keeps the saved record in memory
 *     sitting FILE       writes it to FILE and reads it back from there
 *
 * Everything the board works on is in struct sitting: the library keeps nothing and allocates nothing. */
#include "pawdoku.h"

#include <stdio.h>
#include <stdlib.h>
#include <string.h>

static const char GIVENS[] = "53..7...."
                             "6..195..."
                             ".98....6."
                             "8...6...3"
                             "4..8.3..1"
                             "7...2...6"
                             ".6....28."
                             "...419..5"
                             "....8..79";

static const char SOLUTION[] = "534678912"
                               "672195348"
                               "198342567"
                               "859761423"
                               "426853791"
                               "713924856"
                               "961537284"
                               "287419635"
                               "345286179";

/* A board and the memory that is lent to its calls. */
struct sitting {
    pawdoku_board board;
    uint8_t journal[PAWDOKU_JOURNAL_BYTES];
    uint8_t checks[PAWDOKU_CHECK_MEMORY];
};

static void expect(int holds, const char *what)
{
    if (!holds) {
        fprintf(stderr, "sitting: not as expected: %s\n", what);
        exit(1);
    }
}

/* Takes over the board of an answer, which a refusal leaves as it was. */
static void accept(struct sitting *s, pawdoku_answer answer, const char *what)
{
    if (answer.refusal.number != PAWDOKU_ACCEPTED) {
        fprintf(stderr, "sitting: %s is refused by %d\n", what, answer.refusal.number);
        exit(1);
    }
    s->board = answer.board;
}

static void read_solution(uint8_t solution[PAWDOKU_SOLUTION_BYTES])
{
    for (int i = 0; i < PAWDOKU_CELLS; i++)
        solution[i] = (uint8_t)(SOLUTION[i] - '0');
}

/* The givens as opening takes them, read from the line that a setter mailed. Answers how many bytes there are. */
static size_t read_givens(uint8_t givens[PAWDOKU_LINE_GIVENS])
{
    pawdoku_written read = pawdoku_read_line((const uint8_t *)GIVENS, strlen(GIVENS), givens, PAWDOKU_LINE_GIVENS);
    expect(read.refusal.number == PAWDOKU_ACCEPTED, "the line is one");
    return read.length;
}

static void open_puzzle(struct sitting *s)
{
    uint8_t givens[PAWDOKU_LINE_GIVENS];
    uint8_t solution[PAWDOKU_SOLUTION_BYTES];
    size_t length = read_givens(givens);
    read_solution(solution);
    accept(s, pawdoku_open(givens, length, solution, sizeof solution, s->journal, sizeof s->journal, s->checks, sizeof s->checks), "opening");
    printf("opened a puzzle of %zu givens\n", length / PAWDOKU_GIVEN_BYTES);
}

static void place(struct sitting *s, uint8_t row, uint8_t column, uint8_t digit)
{
    accept(s, pawdoku_place(s->board, s->journal, sizeof s->journal, row, column, digit), "placing");
}

static void pencil(struct sitting *s, uint8_t row, uint8_t column, uint8_t digit)
{
    accept(s, pawdoku_pencil(s->board, s->journal, sizeof s->journal, row, column, digit), "pencilling");
}

static void undo(struct sitting *s)
{
    accept(s, pawdoku_undo(s->board, s->journal, sizeof s->journal), "undoing");
}

static void redo(struct sitting *s)
{
    accept(s, pawdoku_redo(s->board, s->journal, sizeof s->journal), "redoing");
}

static int is_right(struct sitting *s, uint8_t row, uint8_t column)
{
    pawdoku_checked checked = pawdoku_check(s->board, s->checks, sizeof s->checks, row, column);
    expect(checked.refusal.number == PAWDOKU_ACCEPTED, "a check is accepted");
    s->board = checked.board;
    return checked.right;
}

static int shows_mark(const struct sitting *s, uint8_t row, uint8_t column, uint8_t digit)
{
    pawdoku_cell_answer cell = pawdoku_cell(s->board, row, column);
    expect(cell.refusal.number == PAWDOKU_ACCEPTED, "the question for a cell is answered");
    return cell.shown && pawdoku_note_contains(cell.note, digit);
}

/* The pencil key, pressed twice, as a key that bounces presses it: the first press writes the mark, the second strikes
 * it. Both are moves, and undoing takes them back one by one. */
static void pencil_twice(struct sitting *s)
{
    pencil(s, 1, 4, 6);
    expect(shows_mark(s, 1, 4, 6), "the pencil writes a mark that is absent");
    pencil(s, 1, 4, 6);
    expect(!shows_mark(s, 1, 4, 6) && s->board.made == 2, "and strikes one that is present, by a second move");
    undo(s);
    expect(shows_mark(s, 1, 4, 6), "undoing the second press brings the mark back");
    undo(s);
    expect(!shows_mark(s, 1, 4, 6) && s->board.standing == 0, "undoing the first takes it away");
    printf("pencilled 6 twice at row 1, column 4: written, struck, and each taken back by itself\n");
}

/* Pencils 4 into three peers of row 1, column 3, and places 4 there: the marks vanish, and come back when it is undone. */
static void pencil_and_place(struct sitting *s)
{
    static const uint8_t peers[3][2] = {{1, 4}, {2, 3}, {9, 3}};
    for (int i = 0; i < 3; i++)
        pencil(s, peers[i][0], peers[i][1], 4);
    place(s, 1, 3, 4);
    for (int i = 0; i < 3; i++)
        expect(!shows_mark(s, peers[i][0], peers[i][1], 4), "a placed digit strikes its mark from its peers");
    undo(s);
    for (int i = 0; i < 3; i++)
        expect(shows_mark(s, peers[i][0], peers[i][1], 4), "undoing brings every struck mark back");
    redo(s);
    for (int i = 0; i < 3; i++)
        expect(!shows_mark(s, peers[i][0], peers[i][1], 4), "redoing strikes them again");
    printf("placed 4 at row 1, column 3: three marks struck, back after undo, struck again after redo\n");
}

/* The slot of the latest move says what it displaced. */
static void look_at_latest(const struct sitting *s)
{
    uint8_t slot[PAWDOKU_SLOT_BYTES];
    pawdoku_shown shown = pawdoku_latest(s->board, s->journal, sizeof s->journal, slot, sizeof slot);
    expect(shown.refusal.number == PAWDOKU_ACCEPTED, "the latest move is shown");
    expect(memcmp(slot, s->journal + shown.offset, sizeof slot) == 0, "the slot is the journal's");
    expect(slot[0] == PAWDOKU_PLACE && slot[1] == 1 && slot[2] == 3 && slot[3] == 4, "the latest move is the placement");
}

/* The keypad in one call. An 8 that clashes with a given does not count, and the given counts no more: its key's number
 * goes up, and comes back when it is taken away. */
static void look_at_keypad(struct sitting *s)
{
    pawdoku_keypad_answer before = pawdoku_keypad(s->board);
    expect(before.refusal.number == PAWDOKU_ACCEPTED, "the keypad is answered");
    printf("digits left:");
    for (int digit = 1; digit <= 9; digit++)
        printf(" %d:%d", digit, before.left[digit - 1]);
    printf("\n");
    place(s, 1, 4, 8);
    expect(pawdoku_keypad(s->board).left[8 - 1] == before.left[8 - 1] + 1, "a digit put into a clash makes its number go up");
    undo(s);
    expect(pawdoku_digits_left(s->board, 8).left == before.left[8 - 1], "and the number comes back");
}

/* A digit that is not the solution's is accepted as a move, and a check says so. A given cannot be overwritten. */
static void check_digits(struct sitting *s)
{
    place(s, 1, 4, 2);
    expect(is_right(s, 1, 3), "4 is the solution's digit at row 1, column 3");
    expect(!is_right(s, 1, 4), "2 is not the solution's digit at row 1, column 4");
    undo(s);
    pawdoku_answer refused = pawdoku_place(s->board, s->journal, sizeof s->journal, 1, 1, 9);
    expect(refused.refusal.number == PAWDOKU_GIVEN_CELL, "a given stays");
    printf("checked two digits, one of them wrong, and took that one back\n");
}

/* Writes the record, to the file and back from it where one is named. Answers its length. */
static size_t save(const struct sitting *s, const char *path, uint8_t record[PAWDOKU_MAX_RECORD])
{
    pawdoku_written written = pawdoku_write(s->board, s->journal, sizeof s->journal, s->checks, sizeof s->checks, record, PAWDOKU_MAX_RECORD);
    expect(written.refusal.number == PAWDOKU_ACCEPTED, "the record is written");
    if (path == NULL)
        return written.length;
    FILE *out = fopen(path, "wb");
    expect(out != NULL, "the file can be written");
    expect(fwrite(record, 1, written.length, out) == written.length, "the file takes the record");
    expect(fclose(out) == 0, "the file is closed");
    memset(record, 0, PAWDOKU_MAX_RECORD);
    FILE *in = fopen(path, "rb");
    expect(in != NULL, "the file can be read");
    size_t length = fread(record, 1, PAWDOKU_MAX_RECORD, in);
    expect(fclose(in) == 0 && length == written.length, "the file gives the record back");
    return length;
}

static void reopen(struct sitting *s, const uint8_t *record, size_t length)
{
    uint8_t solution[PAWDOKU_SOLUTION_BYTES];
    read_solution(solution);
    accept(s, pawdoku_reopen(record, length, solution, sizeof solution, s->journal, sizeof s->journal, s->checks, sizeof s->checks), "reopening");
}

/* Field by field, since a struct of C may have bytes between its fields; the journal and the checks as far as they are used. */
static int are_equal(const struct sitting *a, const struct sitting *b)
{
    const pawdoku_board *p = &a->board;
    const pawdoku_board *q = &b->board;
    return memcmp(p->digits, q->digits, sizeof p->digits) == 0
        && memcmp(p->given, q->given, sizeof p->given) == 0
        && memcmp(p->notes, q->notes, sizeof p->notes) == 0
        && memcmp(p->solution, q->solution, sizeof p->solution) == 0
        && p->solved == q->solved && p->made == q->made && p->standing == q->standing && p->checks == q->checks
        && memcmp(a->journal, b->journal, p->made * PAWDOKU_SLOT_BYTES) == 0
        && memcmp(a->checks, b->checks, p->checks * PAWDOKU_CHECK_BYTES) == 0;
}

int main(int argc, char **argv)
{
    static struct sitting first;
    static struct sitting second;
    uint8_t record[PAWDOKU_MAX_RECORD];

    open_puzzle(&first);
    pencil_twice(&first);
    pencil_and_place(&first);
    look_at_latest(&first);
    look_at_keypad(&first);
    check_digits(&first);

    size_t length = save(&first, argc > 1 ? argv[1] : NULL, record);
    reopen(&second, record, length);
    expect(are_equal(&first, &second), "the reopened board is the saved one");
    redo(&second);
    expect(second.board.digits[3] == 2, "an undone move can still be redone after reopening");
    printf("saved %zu bytes and reopened them: the same board, %zu moves of which %zu stood, %zu checks\n",
           length, first.board.made, first.board.standing, first.board.checks);
    return 0;
}
