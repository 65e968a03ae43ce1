/* Puzzles that nobody here wrote: each is read from its line, opened, played to its solution, written and compared.
 *
 *     corpus COUNT       reads as many pairs from standard input, each a line of its own: 81 characters of a puzzle
 *                        with full stops for blanks, a space, and the 81 digits of its solution
 *
 * Fewer pairs than COUNT are an error. What is lent has guards (lent.h), and stands elsewhere at each call. What is
 * played is drawn by the puzzle's number: the same pairs are played in the same way. */
#define _DEFAULT_SOURCE 1
#include "pawdoku.h"

#include "lent.h"

#include <signal.h>

/* A pair as it was mailed, with a zero behind each text. */
static char puzzle[PAWDOKU_CELLS + 1], solved[PAWDOKU_CELLS + 1];
static size_t number, calls;

static void differ(const char *what)
{
    fprintf(stderr, "corpus: puzzle %zu: %s\ncorpus:   puzzle   %s\ncorpus:   solution %s\n", number, what, puzzle,
            solved);
    exit(1);
}

static void must(int holds, const char *what)
{
    if (!holds)
        differ(what);
}

/* Every call that can be refused is counted here. */
static void must_answer(pawdoku_refusal r, uint8_t expected, size_t place, const char *what)
{
    calls++;
    if (r.number == expected && r.place == place && r.inner == 0)
        return;
    char text[200];
    snprintf(text, sizeof text, "%s: refused by %d, place %zu, inner %d, where %d, place %zu is expected", what,
             r.number, r.place, r.inner, expected, place);
    differ(text);
}

/* ---- what is lent */

/* A board and its memory. */
struct sitting {
    pawdoku_board board;
    struct lent journal, checks;
};

static struct sitting first, second;
static struct lent input, output, solution;

/* A page beside what is lent was touched: by the library, whose call has not come back. */
static void touched(int signal)
{
    (void)signal;
    differ("a call touches memory that it was not lent");
}

/* What stands in memory before it is lent: nothing that a call could be expected to write. */
static uint8_t noise[LENT_MOST];

static void make_memory(void)
{
    signal(SIGSEGV, touched);
    signal(SIGBUS, touched);
    struct lent *all[] = {&input, &output, &solution, &first.journal, &first.checks, &second.journal, &second.checks};
    for (size_t i = 0; i < sizeof all / sizeof all[0]; i++)
        lent_make(all[i]);
    for (size_t i = 0; i < sizeof noise; i++)
        noise[i] = (uint8_t)(0x80 | any_byte());
}

static void lend_solution(void)
{
    uint8_t digits[PAWDOKU_CELLS];
    for (size_t i = 0; i < sizeof digits; i++)
        digits[i] = (uint8_t)(solved[i] - '0');
    lend(&solution, digits, sizeof digits);
}

static void lend_sitting(struct sitting *s)
{
    lend(&s->journal, noise, PAWDOKU_JOURNAL_BYTES);
    lend(&s->checks, noise, PAWDOKU_CHECK_MEMORY);
}

/* No call touches what lies beside the memory that it is lent. */
static void look_at_guards(const struct sitting *s)
{
    must(guards_stand(&s->journal) && guards_stand(&s->checks), "a byte beside the lent memory is changed");
}

/* ---- reading */

/* The givens of a dotted line as opening takes them: what the library is compared with. */
static size_t givens_of(const char *line, uint8_t givens[PAWDOKU_LINE_GIVENS])
{
    size_t length = 0;
    for (int i = 0; i < PAWDOKU_CELLS; i++) {
        if (line[i] == '.')
            continue;
        givens[length++] = (uint8_t)(i / 9 + 1);
        givens[length++] = (uint8_t)(i % 9 + 1);
        givens[length++] = (uint8_t)(line[i] - '0');
    }
    return length;
}

/* Lends a text and an output, and reads. */
static pawdoku_written read_text(const char *text, size_t length, size_t room)
{
    lend(&input, (const uint8_t *)text, length);
    lend(&output, noise, room);
    pawdoku_written w = pawdoku_read_line(input.pointer, input.length, output.pointer, output.length);
    must(unchanged_from(&input, 0) && guards_stand(&input), "reading changes the line");
    must(guards_stand(&output), "reading changes a byte beside the output");
    return w;
}

/* The first byte that differs is named: bytes of givens are row, column, digit. */
static void same_givens(const uint8_t *expected, size_t length, const char *what)
{
    char text[200];
    for (size_t i = 0; i < length; i++) {
        if (output.bytes[i] == expected[i])
            continue;
        snprintf(text, sizeof text, "%s: byte %zu of given %zu is %d, where %d is expected", what, i % 3 + 1, i / 3 + 1,
                 output.bytes[i], expected[i]);
        differ(text);
    }
}

/* The givens stay in the output. Answers their length. */
static size_t must_read(const char *text, size_t length, const char *dotted, const char *what)
{
    uint8_t expected[PAWDOKU_LINE_GIVENS];
    size_t bytes = givens_of(dotted, expected);
    pawdoku_written w = read_text(text, length, PAWDOKU_LINE_GIVENS + below(3));
    must_answer(w.refusal, PAWDOKU_ACCEPTED, 0, what);
    must(w.length == bytes, "reading answers another length than the givens have");
    same_givens(expected, bytes, what);
    must(unchanged_from(&output, bytes), "reading changes bytes beyond the givens");
    return bytes;
}

static void must_refuse(const char *text, size_t length, uint8_t by, size_t place, const char *what)
{
    pawdoku_written w = read_text(text, length, PAWDOKU_LINE_GIVENS + below(3));
    must_answer(w.refusal, by, place, what);
    must(w.length == 0, "a refused reading answers a length");
    must(unchanged_from(&output, 0), "a refused reading changes the output");
}

/* A blank may be mailed as 0, and a line feed may follow: the givens are the same. */
static void read_spellings(void)
{
    char zeros[PAWDOKU_CELLS + 1], mixed[PAWDOKU_CELLS + 1];
    for (int i = 0; i < PAWDOKU_CELLS; i++) {
        zeros[i] = puzzle[i] == '.' ? '0' : puzzle[i];
        mixed[i] = one_in(2) ? zeros[i] : puzzle[i];
    }
    zeros[PAWDOKU_CELLS] = mixed[PAWDOKU_CELLS] = '\n';
    must_read(zeros, PAWDOKU_CELLS, puzzle, "reading the line with zeros");
    must_read(zeros, PAWDOKU_CELLS + 1, puzzle, "reading the line with zeros and a line feed");
    must_read(mixed, PAWDOKU_CELLS + one_in(2), puzzle, "reading the line with zeros and full stops");
    char fed[PAWDOKU_CELLS + 1];
    memcpy(fed, puzzle, PAWDOKU_CELLS);
    fed[PAWDOKU_CELLS] = '\n';
    must_read(fed, sizeof fed, puzzle, "reading the line with its line feed");
}

/* Damage that leaves the length: the first character of another sort is named. */
static void read_damaged(void)
{
    char text[PAWDOKU_CELLS + 1];
    size_t at = below(PAWDOKU_CELLS), later = at + below(PAWDOKU_CELLS - at);
    memcpy(text, puzzle, sizeof text);
    text[later] = "Oo,:/ \t\r\n"[below(9)];
    text[at] = (char)((one_in(2) ? 'a' : 'A') + (int)below(26));
    must_refuse(text, PAWDOKU_CELLS, PAWDOKU_NO_LINE_CHARACTER, at + 1, "reading a line with a letter in it");
    text[PAWDOKU_CELLS] = '\n';
    must_refuse(text, PAWDOKU_CELLS + 1, PAWDOKU_NO_LINE_CHARACTER, at + 1, "reading such a line with a line feed");
    memcpy(text, puzzle, sizeof text);
    text[PAWDOKU_CELLS - 1] = '\n';
    must_refuse(text, PAWDOKU_CELLS, PAWDOKU_NO_LINE_CHARACTER, PAWDOKU_CELLS, "reading 80 characters and a line feed");
    memcpy(text, puzzle, sizeof text);
    do
        spoil((uint8_t *)text + at, 1);
    while (text[at] == '.' || (text[at] >= '0' && text[at] <= '9'));
    must_refuse(text, PAWDOKU_CELLS, PAWDOKU_NO_LINE_CHARACTER, at + 1, "reading a line with a spoilt byte");
}

/* Damage to the length, as it happens to mail. */
static void read_cut(void)
{
    char text[PAWDOKU_CELLS + 2];
    memcpy(text, puzzle, PAWDOKU_CELLS);
    must_refuse(text, PAWDOKU_CELLS - 1, PAWDOKU_NOT_A_LINE, 0, "reading a line cut by one");
    must_refuse(text, below(PAWDOKU_CELLS), PAWDOKU_NOT_A_LINE, 0, "reading a part of a line");
    text[PAWDOKU_CELLS] = '\r';
    text[PAWDOKU_CELLS + 1] = '\n';
    must_refuse(text, PAWDOKU_CELLS + 2, PAWDOKU_NOT_A_LINE, 0, "reading a line with CR LF");
    must_refuse(text, PAWDOKU_CELLS + 1, PAWDOKU_NOT_A_LINE, 0, "reading a line with CR");
    text[PAWDOKU_CELLS] = '\n';
    must_refuse(text, PAWDOKU_CELLS + 2, PAWDOKU_NOT_A_LINE, 0, "reading a line with two line feeds");
    text[PAWDOKU_CELLS] = '.';
    must_refuse(text, PAWDOKU_CELLS + 1, PAWDOKU_NOT_A_LINE, 0, "reading a line with a blank too many");
    pawdoku_written w = read_text(puzzle, PAWDOKU_CELLS, PAWDOKU_LINE_GIVENS - 1);
    must_answer(w.refusal, PAWDOKU_OUTPUT_TOO_SHORT, 0, "reading into 242 bytes");
    must(w.length == 0 && unchanged_from(&output, 0), "a reading refused by 34 changes the output");
}

/* ---- writing */

/* The line is the mailed one, whatever has been played. */
static void must_write(const pawdoku_board *board, const char *when)
{
    lend(&output, noise, PAWDOKU_LINE_BYTES + below(3));
    pawdoku_written w = pawdoku_write_line(*board, output.pointer, output.length);
    must_answer(w.refusal, PAWDOKU_ACCEPTED, 0, "writing the line");
    must(w.length == PAWDOKU_LINE_BYTES, "writing answers another length than 81");
    must(guards_stand(&output) && unchanged_from(&output, PAWDOKU_LINE_BYTES), "writing changes bytes beyond the line");
    if (memcmp(output.bytes, puzzle, PAWDOKU_LINE_BYTES) == 0)
        return;
    char text[200];
    snprintf(text, sizeof text, "another line is written after %s\ncorpus:   written  %.81s", when, output.bytes);
    differ(text);
}

static void must_not_write(const pawdoku_board *board, size_t room, uint8_t by, const char *what)
{
    lend(&output, noise, room);
    pawdoku_written w = pawdoku_write_line(*board, output.pointer, output.length);
    must_answer(w.refusal, by, 0, what);
    must(w.length == 0 && unchanged_from(&output, 0) && guards_stand(&output), "a refused writing changes the output");
}

/* Into too short an output, and from what is no board: a digit above 9. */
static void write_refused(const pawdoku_board *board)
{
    pawdoku_board none = *board;
    none.digits[below(PAWDOKU_CELLS)] = 10;
    must_not_write(board, PAWDOKU_LINE_BYTES - 1, PAWDOKU_OUTPUT_TOO_SHORT, "writing the line into 80 bytes");
    must_not_write(&none, PAWDOKU_LINE_BYTES, PAWDOKU_NOT_A_BOARD, "writing the line of no board");
    must_not_write(&none, PAWDOKU_LINE_BYTES - 1, PAWDOKU_NOT_A_BOARD, "writing the line of no board into 80 bytes");
}

/* ---- playing: every call is accepted, and leaves the line as it was */

static uint8_t row(size_t cell)
{
    return (uint8_t)(cell / 9 + 1);
}

static uint8_t column(size_t cell)
{
    return (uint8_t)(cell % 9 + 1);
}

static void took(struct sitting *s, pawdoku_answer a, const char *what)
{
    must_answer(a.refusal, PAWDOKU_ACCEPTED, 0, what);
    look_at_guards(s);
    s->board = a.board;
    must_write(&s->board, what);
}

static void place(struct sitting *s, size_t cell, uint8_t digit)
{
    took(s, pawdoku_place(s->board, s->journal.bytes, s->journal.length, row(cell), column(cell), digit), "placing");
}

static void check(struct sitting *s, size_t cell, int right)
{
    pawdoku_checked c = pawdoku_check(s->board, s->checks.bytes, s->checks.length, row(cell), column(cell));
    must(c.right == right, "a check says otherwise");
    took(s, (pawdoku_answer){c.refusal, c.board}, "checking");
}

/* The pencil in some cell where a mark can stand: one that is present is struck, one that is absent is written. */
static void pencil(struct sitting *s)
{
    size_t cell = below(PAWDOKU_CELLS);
    uint8_t digit = (uint8_t)(1 + below(9)), r = row(cell), c = column(cell);
    pawdoku_cell_answer a = pawdoku_cell(s->board, r, c);
    must_answer(a.refusal, PAWDOKU_ACCEPTED, 0, "asking for a cell");
    if (!a.shown)
        return;
    calls++;
    int present = pawdoku_note_contains(a.note, digit), mark = 1 << digit;
    took(s, pawdoku_pencil(s->board, s->journal.bytes, s->journal.length, r, c, digit),
         present ? "striking a mark" : "writing a mark");
    must(s->board.notes[cell] == (present ? a.note - mark : a.note + mark), "the pencil leaves another note");
}

/* Some moves back, and forth again. */
static void waver(struct sitting *s)
{
    size_t moves = 1 + below(4);
    if (moves > s->board.standing)
        moves = s->board.standing;
    for (size_t i = 0; i < moves; i++)
        took(s, pawdoku_undo(s->board, s->journal.bytes, s->journal.length), "undoing");
    for (size_t i = 0; i < moves; i++)
        took(s, pawdoku_redo(s->board, s->journal.bytes, s->journal.length), "redoing");
}

/* A wrong digit, which a check finds; it is undone, or erased, or the right one is placed over it. */
static void slip(struct sitting *s, size_t cell, uint8_t right)
{
    place(s, cell, (uint8_t)((right + below(8)) % 9 + 1));
    check(s, cell, 0);
    size_t r = below(3);
    if (r == 0)
        took(s, pawdoku_undo(s->board, s->journal.bytes, s->journal.length), "undoing");
    if (r == 1)
        took(s, pawdoku_erase(s->board, s->journal.bytes, s->journal.length, row(cell), column(cell)), "erasing");
}

/* ---- the cells, as they are asked for */

static pawdoku_cell_answer cell_of(const pawdoku_board *board, size_t cell)
{
    pawdoku_cell_answer a = pawdoku_cell(*board, row(cell), column(cell));
    must_answer(a.refusal, PAWDOKU_ACCEPTED, 0, "asking for a cell");
    must(a.given == (puzzle[cell] != '.'), "the givens are not the mailed line's");
    return a;
}

static int is_solved(const pawdoku_board *board)
{
    pawdoku_yes_no a = pawdoku_is_solved(*board);
    must_answer(a.refusal, PAWDOKU_ACCEPTED, 0, "asking whether it is solved");
    return a.holds;
}

/* Written as a record and reopened in other memory, the board is the same. */
static void reopen(const struct sitting *s)
{
    lend(&output, noise, PAWDOKU_MAX_RECORD);
    pawdoku_written w = pawdoku_write(s->board, s->journal.bytes, s->journal.length, s->checks.bytes, s->checks.length,
                                      output.pointer, output.length);
    must_answer(w.refusal, PAWDOKU_ACCEPTED, 0, "writing the record");
    lend(&input, output.bytes, w.length);
    lend_solution();
    lend_sitting(&second);
    took(&second, pawdoku_reopen(input.pointer, input.length, solution.bytes, solution.length, second.journal.bytes,
                                 second.journal.length, second.checks.bytes, second.checks.length), "reopening");
    for (size_t cell = 0; cell < PAWDOKU_CELLS; cell++) {
        pawdoku_cell_answer a = cell_of(&s->board, cell), b = cell_of(&second.board, cell);
        must(a.digit == b.digit && a.note == b.note, "the reopened board has another digit or note");
    }
    must(is_solved(&s->board) == is_solved(&second.board), "one of the boards is solved, the reopened or the other");
}

/* ---- a puzzle */

/* Opens with the givens that the library read. */
static void open_puzzle(struct sitting *s)
{
    size_t length = must_read(puzzle, PAWDOKU_CELLS, puzzle, "reading the mailed line");
    lend(&input, output.bytes, length);
    lend_solution();
    lend_sitting(s);
    took(s, pawdoku_open(input.pointer, input.length, solution.bytes, solution.length, s->journal.bytes,
                         s->journal.length, s->checks.bytes, s->checks.length), "opening");
}

/* The solution is a line too; a puzzle of 81 givens leaves nothing to play. */
static void open_solution(void)
{
    size_t length = must_read(solved, PAWDOKU_CELLS, solved, "reading the solution as a line");
    must(length == PAWDOKU_LINE_GIVENS, "the solution has other than 81 givens");
    lend(&input, output.bytes, length);
    lend_solution();
    lend_sitting(&second);
    pawdoku_answer a = pawdoku_open(input.pointer, input.length, solution.bytes, solution.length, second.journal.bytes,
                                    second.journal.length, second.checks.bytes, second.checks.length);
    must_answer(a.refusal, PAWDOKU_NOTHING_LEFT_TO_PLAY, 0, "opening 81 givens");
    look_at_guards(&second);
    must(is_zero(second.journal.bytes, second.journal.length) && is_zero(second.checks.bytes, second.checks.length),
         "a refused opening leaves bytes in the memory");
}

/* The blank cells in the order in which they are played: as they stand, backwards, or drawn. Answers how many. */
static size_t order_blanks(size_t cells[PAWDOKU_CELLS])
{
    size_t count = 0, sort = below(4);
    for (size_t i = 0; i < PAWDOKU_CELLS; i++) {
        size_t cell = sort == 1 ? PAWDOKU_CELLS - 1 - i : i;
        if (puzzle[cell] == '.')
            cells[count++] = cell;
    }
    for (size_t i = count; sort > 1 && i > 1; i--) {
        size_t other = below(i), cell = cells[i - 1];
        cells[i - 1] = cells[other];
        cells[other] = cell;
    }
    return count;
}

/* As a player would, to the solution. The last right digit solves the board, and nothing can be undone behind it. */
static void play(struct sitting *s)
{
    size_t cells[PAWDOKU_CELLS];
    size_t count = order_blanks(cells);
    for (size_t i = 0; i < count; i++) {
        uint8_t right = (uint8_t)(solved[cells[i]] - '0');
        must(!is_solved(&s->board), "the board is solved with cells to play");
        for (size_t marks = below(4); marks > 0; marks--)
            pencil(s);
        if (one_in(5))
            slip(s, cells[i], right);
        place(s, cells[i], right);
        if (i + 1 < count && one_in(4))
            check(s, cells[i], 1);
        if (i + 1 < count && one_in(4))
            waver(s);
        if (i == count / 2)
            reopen(s);
    }
}

static void try_pair(void)
{
    random_state = number;
    read_spellings();
    read_damaged();
    read_cut();
    open_solution();
    open_puzzle(&first);
    write_refused(&first.board);
    play(&first);
    must(is_solved(&first.board), "every cell has the solution's digit, and the board is not solved");
    for (size_t cell = 0; cell < PAWDOKU_CELLS; cell++)
        must(cell_of(&first.board, cell).digit == solved[cell] - '0', "a digit is not the solution's");
    reopen(&first);
}

/* ---- the pairs */

static size_t fewest = PAWDOKU_CELLS, most;

static void count_givens(void)
{
    uint8_t givens[PAWDOKU_LINE_GIVENS];
    size_t count = givens_of(puzzle, givens) / PAWDOKU_GIVEN_BYTES;
    fewest = count < fewest ? count : fewest;
    most = count > most ? count : most;
}

/* Whether there is another pair. What is no pair is an error of whoever made it. */
static int next_pair(void)
{
    char text[2 * PAWDOKU_CELLS + 8];
    if (fgets(text, sizeof text, stdin) == NULL)
        return 0;
    number++;
    size_t length = strspn(text, ".123456789");
    if (length != PAWDOKU_CELLS || text[length] != ' ' || strspn(text + length + 1, "123456789") != PAWDOKU_CELLS
        || strcmp(text + 2 * PAWDOKU_CELLS + 1, "\n") != 0) {
        fprintf(stderr, "corpus: line %zu of the input is no pair: %s\n", number, text);
        exit(2);
    }
    memcpy(puzzle, text, PAWDOKU_CELLS);
    memcpy(solved, text + PAWDOKU_CELLS + 1, PAWDOKU_CELLS);
    return 1;
}

int main(int argc, char **argv)
{
    size_t asked = argc == 2 ? strtoul(argv[1], NULL, 10) : 0;
    if (asked == 0) {
        fprintf(stderr, "usage: corpus COUNT <PAIRS\n");
        return 2;
    }
    make_memory();
    while (next_pair()) {
        count_givens();
        try_pair();
    }
    if (number < asked) {
        fprintf(stderr, "corpus: %zu puzzles, where %zu were asked for\n", number, asked);
        return 1;
    }
    printf("corpus: %zu puzzles of %zu to %zu givens, %zu calls, no difference\n", number, fewest, most, calls);
    return 0;
}
