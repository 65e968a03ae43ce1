/* pawdoku: the board inside a championship sudoku console, for C and for everything that links like C.
 *
 * Link with libpawdoku.a (made by `tools/archive`, in target/staticlib). The library keeps nothing
 * between calls, allocates nothing and calls nothing of the host's but memcpy, memmove and memset. All it works
 * on is lent: a board goes in by value and comes back in the answer, the journal and the check memory are the
 * caller's. Two boards never share anything, so calls on different boards may run in different threads.
 *
 * A call never fails otherwise than by a numbered refusal, whatever the bytes of the board, of the lent memory and
 * of the other arguments are. What the caller owes is what C asks of any call: that each pointer with its length
 * names memory that can be read (and written, where it is not const) for the length of the call, and that memory
 * lent to be written overlaps no other memory lent to the same call. An empty slice may be null.
 *
 * A refused call changes nothing: every field of the board comes back as it went in (two bytes of padding in front of
 * `made` are not kept), and every byte of lent memory stays, with one exception. Opening and reopening refused by
 * anything but PAWDOKU_WRONG_LENGTH leave the journal and the check memory zero, and hand back the board with every
 * field 0, for any refusal. All else that an answer has is 0 beside a refusal: verdict, length, offset, yes or no,
 * digits left, every field of a cell's answer and of a reading; only `place` and `inner` say more of the refusal.
 * Where several refusals apply, the one with the lowest number is given.
 *
 * Rows, columns and digits count from 1. Cells count from 1 to 81, row by row. Digit 0 means none.
 */
#ifndef PAWDOKU_H
#define PAWDOKU_H

#include <stddef.h>
#include <stdint.h>

#ifdef __cplusplus
extern "C" {
#define PAWDOKU_ASSERT(test, text) static_assert(test, text)
#else
#define PAWDOKU_ASSERT(test, text) _Static_assert(test, text)
#endif

/* The version of this boundary: of the names, layouts and numbers below. It is raised whenever anything in this header
 * but a comment changes, and stands here once.
 *
 * pawdoku_version() is the version of the library that is linked. It need not be asked: the library defines one
 * function with its version in the name, pawdoku_abi_4, and this header refers to the one of its own version, below.
 * So an object compiled for another version is refused by the linker, which names the function that is missing. That
 * costs the address of a function in each object, and no instruction. */
#define PAWDOKU_VERSION 4

#define PAWDOKU_JOIN_(a, b) a##b
#define PAWDOKU_JOIN(a, b) PAWDOKU_JOIN_(a, b)
#define PAWDOKU_ABI PAWDOKU_JOIN(pawdoku_abi_, PAWDOKU_VERSION)

/* A variable that is kept where nothing uses it: by the compiler, and by a linker that drops unused sections. */
#if defined(__has_attribute)
#if __has_attribute(retain)
#define PAWDOKU_KEPT __attribute__((used, retain))
#endif
#endif
#ifndef PAWDOKU_KEPT
#define PAWDOKU_KEPT __attribute__((used))
#endif

uint32_t pawdoku_version(void);
uint32_t PAWDOKU_ABI(void);
static uint32_t (*const pawdoku_abi)(void) PAWDOKU_KEPT = PAWDOKU_ABI;

/* What is lent, in bytes. */
enum {
    PAWDOKU_CELLS = 81,
    PAWDOKU_MAX_MOVES = 1024,
    PAWDOKU_MAX_CHECKS = 256,
    PAWDOKU_SLOT_BYTES = 8,                /* one move in the journal */
    PAWDOKU_CHECK_BYTES = 6,               /* one stored check */
    PAWDOKU_JOURNAL_BYTES = 8192,          /* PAWDOKU_SLOT_BYTES * PAWDOKU_MAX_MOVES */
    PAWDOKU_CHECK_MEMORY = 1536,           /* PAWDOKU_CHECK_BYTES * PAWDOKU_MAX_CHECKS */
    PAWDOKU_SOLUTION_BYTES = 81,           /* row by row; 0 for an empty cell, which opening refuses */
    PAWDOKU_GIVEN_BYTES = 3,               /* row, column, digit; givens stand in ascending order */
    PAWDOKU_MAX_RECORD = 5955,             /* no record is longer */
    PAWDOKU_CALL_BYTES = 4,                /* one call, and one answer, of pawdoku_play */
    PAWDOKU_LINE_BYTES = 81,               /* a puzzle line that is written: one character for each cell */
    PAWDOKU_LINE_GIVENS = 243              /* room for the givens of a line: PAWDOKU_GIVEN_BYTES * PAWDOKU_CELLS */
};

/* The kind of a move: the first byte of a slot and of a move in a record, and in a reading. A mark that the pencil
 * wrote and one that it struck are two kinds. */
enum {
    PAWDOKU_PLACE = 2,
    PAWDOKU_ERASE = 3,
    PAWDOKU_WRITE_MARK = 4,
    PAWDOKU_STRIKE_MARK = 5
};

/* The first byte of the other items of a record. */
enum {
    PAWDOKU_RECORD_GIVEN = 1,
    PAWDOKU_RECORD_UNDONE = 6,             /* how many moves are undone */
    PAWDOKU_RECORD_CHECK = 7
};

/* The first byte of an encoded call of pawdoku_play: which call it is. None is the kind of a move, nor will one be: a
 * list of kinds, or of the calls of versions 1 to 3, encodes no call and does nothing. */
enum {
    PAWDOKU_CALL_PLACE = 16,
    PAWDOKU_CALL_ERASE = 17,
    PAWDOKU_CALL_PENCIL = 18,
    PAWDOKU_CALL_UNDO = 19,
    PAWDOKU_CALL_REDO = 20,
    PAWDOKU_CALL_CHECK = 21
};

/* Why a call is refused. `place` and `inner` are 0 where nothing is said of them. */
enum {
    PAWDOKU_ACCEPTED = 0,
    PAWDOKU_WRONG_LENGTH = 1,              /* lent journal, check memory or solution has another length than above, or
                                            * the givens' length is no multiple of three */
    PAWDOKU_NOT_A_BOARD = 2,               /* made above 1,024, standing above made, checks above 256, a digit above 9,
                                            * a given without a digit, a note bit other than 1 to 9, a solution digit
                                            * outside 1 to 9, a flag other than 0 and 1 */
    PAWDOKU_NO_SUCH_CELL = 3,
    PAWDOKU_SOLVED = 4,
    PAWDOKU_GIVEN_CELL = 5,
    PAWDOKU_NO_PLAYERS_DIGIT = 6,
    PAWDOKU_MARKS_NOT_ACCEPTED = 7,        /* the cell holds a digit */
    PAWDOKU_DIGIT_OUT_OF_RANGE = 8,
    PAWDOKU_DIGIT_ALREADY_STANDS = 9,
    PAWDOKU_MARK_ALREADY_WRITTEN = 10,     /* this and the next: `inner` of PAWDOKU_MOVE_REFUSED, no call's number */
    PAWDOKU_MARK_NOT_THERE = 11,
    PAWDOKU_NOTHING_TO_UNDO = 12,
    PAWDOKU_NOTHING_TO_REDO = 13,
    PAWDOKU_UNSOUND_MEMORY = 14,           /* place: the slot, or with inner 1 the stored check, that no call left
                                            * there; or what it changed stands otherwise */
    PAWDOKU_TOO_MANY_MOVES = 15,
    PAWDOKU_TOO_MANY_CHECKS = 16,
    PAWDOKU_RECORD_MALFORMED = 17,         /* place: the first item that cannot stand there or is cut short */
    PAWDOKU_RECORD_TOO_LARGE = 18,
    PAWDOKU_GIVENS_NOT_ASCENDING = 19,
    PAWDOKU_TOO_MANY_UNDONE = 20,
    PAWDOKU_CHECKS_WITHOUT_MOVES = 21,
    PAWDOKU_NOTHING_LEFT_TO_PLAY = 22,     /* 81 givens or more */
    PAWDOKU_SOLUTION_NOT_FULL = 23,        /* place: the cell */
    PAWDOKU_SOLUTION_DIGIT_OUT_OF_RANGE = 24, /* place: the cell */
    PAWDOKU_SOLUTION_CONFLICT = 25,        /* place: the first cell; inner: the first peer equal to it */
    PAWDOKU_GIVEN_OFF_GRID = 26,           /* place: the given, counted from 1 */
    PAWDOKU_GIVEN_MISMATCH = 27,           /* place: the given, counted from 1 */
    PAWDOKU_MOVE_AFTER_SOLVED = 28,        /* place: the move */
    PAWDOKU_MOVE_REFUSED = 29,             /* place: the move; inner: 3 or 5 to 11. A record's marks are moves of two
                                            * kinds: PAWDOKU_WRITE_MARK is refused where the mark is present (10),
                                            * PAWDOKU_STRIKE_MARK where it is absent, or its digit none (11) */
    PAWDOKU_UNDONE_WHEN_SOLVED = 30,
    PAWDOKU_CHECK_REFUSED = 31,            /* place: the check; inner: 3, 5 or 8 */
    PAWDOKU_CHECK_AFTER_NO_MOVE = 32,      /* place: the check */
    PAWDOKU_CHECK_WOULD_SOLVE = 33,        /* place: the check: a right digit where one cell was to play */
    PAWDOKU_OUTPUT_TOO_SHORT = 34,         /* of a line: below PAWDOKU_LINE_GIVENS to read one, however few its givens,
                                            * below PAWDOKU_LINE_BYTES to write one */
    PAWDOKU_NO_SUCH_MOVE = 35,             /* a reading of move 0 or of one above made */
    PAWDOKU_NOT_A_LINE = 36,               /* neither 81 bytes nor 82 of which the last is a line feed */
    PAWDOKU_NO_LINE_CHARACTER = 37,        /* place: the first character of another sort, counted from 1 */
    PAWDOKU_NO_CALL = 255                  /* pawdoku_play: four bytes that encode no call */
};

typedef struct {
    uint8_t number;                        /* PAWDOKU_ACCEPTED, or why not */
    size_t place;
    uint8_t inner;
} pawdoku_refusal;

/* A board. Read it freely; write it only by calls. Flags are 0 or 1. */
typedef struct {
    uint8_t digits[PAWDOKU_CELLS];         /* cell n stands at n - 1 */
    uint8_t given[PAWDOKU_CELLS];
    uint16_t notes[PAWDOKU_CELLS];         /* mark d is the bit of value 1 << d; under a digit it is kept, not shown */
    uint8_t solution[PAWDOKU_CELLS];       /* for checks to compare with: who shows it shows the solution */
    uint8_t solved;
    size_t made;                           /* moves in the journal */
    size_t standing;                       /* of these, not undone */
    size_t checks;                         /* checks stored */
} pawdoku_board;

typedef struct {
    pawdoku_refusal refusal;
    pawdoku_board board;
} pawdoku_answer;

typedef struct {
    pawdoku_refusal refusal;
    uint8_t right;                         /* 1: the digit is the solution's; 0 beside a refusal */
    pawdoku_board board;
} pawdoku_checked;

typedef struct {
    pawdoku_refusal refusal;
    size_t length;                         /* of the record, the givens or the line; 0 beside a refusal */
} pawdoku_written;

/* A move that is shown: its slot stands in the journal at `offset`, and its eight bytes were copied. */
typedef struct {
    pawdoku_refusal refusal;
    size_t offset;
    size_t length;                         /* PAWDOKU_SLOT_BYTES; 0 beside a refusal */
} pawdoku_shown;

typedef struct {
    pawdoku_refusal refusal;
    uint8_t digit;
    uint8_t given;
    uint8_t conflicting;
    uint16_t note;                         /* the kept note */
    uint8_t shown;                         /* 1: the note is shown, since the cell holds no digit */
} pawdoku_cell_answer;

typedef struct {
    pawdoku_refusal refusal;
    uint8_t holds;
} pawdoku_yes_no;

typedef struct {
    pawdoku_refusal refusal;
    uint8_t left;
} pawdoku_left;

typedef struct {
    pawdoku_refusal refusal;
    uint8_t left[9];                       /* of digit 1 first, of digit 9 last */
} pawdoku_keypad_answer;

/* Move k, and the digits and notes as they stood once it and no later one had been made. */
typedef struct {
    pawdoku_refusal refusal;
    uint8_t kind;
    uint8_t row;
    uint8_t column;
    uint8_t digit;                         /* 0 for erase */
    uint8_t undone;
    size_t index;                          /* k */
    uint8_t digits[PAWDOKU_CELLS];
    uint16_t notes[PAWDOKU_CELLS];
} pawdoku_reading_answer;

typedef struct {
    uint8_t digits[9];                     /* ascending, zeros behind them */
} pawdoku_digits;

typedef struct {
    uint8_t cells[20];                     /* ascending; zeros where there is no such cell */
} pawdoku_peer_cells;

PAWDOKU_ASSERT(sizeof(size_t) == 8, "pawdoku is built for 64 bits");
PAWDOKU_ASSERT(sizeof(pawdoku_refusal) == 24, "pawdoku_refusal");
PAWDOKU_ASSERT(sizeof(pawdoku_board) == 432, "pawdoku_board");
PAWDOKU_ASSERT(sizeof(pawdoku_answer) == 456, "pawdoku_answer");
PAWDOKU_ASSERT(sizeof(pawdoku_checked) == 464, "pawdoku_checked");
PAWDOKU_ASSERT(sizeof(pawdoku_written) == 32, "pawdoku_written");
PAWDOKU_ASSERT(sizeof(pawdoku_shown) == 40, "pawdoku_shown");
PAWDOKU_ASSERT(sizeof(pawdoku_cell_answer) == 32, "pawdoku_cell_answer");
PAWDOKU_ASSERT(sizeof(pawdoku_yes_no) == 32, "pawdoku_yes_no");
PAWDOKU_ASSERT(sizeof(pawdoku_left) == 32, "pawdoku_left");
PAWDOKU_ASSERT(sizeof(pawdoku_keypad_answer) == 40, "pawdoku_keypad_answer");
PAWDOKU_ASSERT(sizeof(pawdoku_reading_answer) == 288, "pawdoku_reading_answer");
PAWDOKU_ASSERT(sizeof(pawdoku_digits) == 9, "pawdoku_digits");
PAWDOKU_ASSERT(sizeof(pawdoku_peer_cells) == 20, "pawdoku_peer_cells");

/* Opening. Givens are triples of row, column, digit, strictly ascending. Both memories become zero.
 * Refused by 1, 19, 22 to 27. */
pawdoku_answer pawdoku_open(const uint8_t *givens, size_t givens_length,
                            const uint8_t *solution, size_t solution_length,
                            uint8_t *journal, size_t journal_length,
                            uint8_t *checks, size_t checks_length);

/* The moves. A recorded move writes its one slot, behind those that stand. */

/* Sets the digit and strikes it from the note of every peer. Refused by 1 to 5, 8, 9, 15. */
pawdoku_answer pawdoku_place(pawdoku_board board, uint8_t *journal, size_t journal_length,
                             uint8_t row, uint8_t column, uint8_t digit);
/* Empties the cell and touches no note. Refused by 1 to 4, 6, 15. */
pawdoku_answer pawdoku_erase(pawdoku_board board, uint8_t *journal, size_t journal_length,
                             uint8_t row, uint8_t column);
/* The pencil key: strikes the mark where it is present, writes it where it is absent. No caller needs to know which.
 * Nor does the library know a second press from a first: a call on the board that the first one answered turns the mark
 * round again, and is a move of its own. So a key that bounces is to be held back by the host; and a host that fills in
 * marks by itself asks pawdoku_cell first which are present, or it strikes them. A call whose answer was lost is made
 * again on the board that was passed, and answers the same. Refused by 1 to 4, 7, 8, 15. */
pawdoku_answer pawdoku_pencil(pawdoku_board board, uint8_t *journal, size_t journal_length,
                              uint8_t row, uint8_t column, uint8_t digit);

/* Takes the latest standing move back: the digit before, and exactly the marks that were struck. Writes no slot.
 * Refused by 1, 2, 4, 12, 14. */
pawdoku_answer pawdoku_undo(pawdoku_board board, const uint8_t *journal, size_t journal_length);
/* Makes the next undone move again. Writes no slot. Refused by 1, 2, 4, 13, 14. */
pawdoku_answer pawdoku_redo(pawdoku_board board, const uint8_t *journal, size_t journal_length);

/* Compares a player's digit with the solution's and stores the check. Refused by 1 to 4, 6, 16. */
pawdoku_checked pawdoku_check(pawdoku_board board, uint8_t *checks, size_t checks_length,
                              uint8_t row, uint8_t column);

/* The latest standing move, and the next to redo: its slot is copied into the output, which has at least eight
 * bytes; those beyond stay. A solved board is no obstacle. Refused by 1, 2, 12 (latest) or 13 (next), 34. */
pawdoku_shown pawdoku_latest(pawdoku_board board, const uint8_t *journal, size_t journal_length,
                             uint8_t *output, size_t output_length);
pawdoku_shown pawdoku_next(pawdoku_board board, const uint8_t *journal, size_t journal_length,
                           uint8_t *output, size_t output_length);

/* Writes the record; bytes of the output beyond it stay. Refused by 1, 2, 14, 34. */
pawdoku_written pawdoku_write(pawdoku_board board, const uint8_t *journal, size_t journal_length,
                              const uint8_t *checks, size_t checks_length,
                              uint8_t *output, size_t output_length);

/* Reopens a record with the puzzle's solution. Refused by 1, 17 to 33. */
pawdoku_answer pawdoku_reopen(const uint8_t *record, size_t record_length,
                              const uint8_t *solution, size_t solution_length,
                              uint8_t *journal, size_t journal_length,
                              uint8_t *checks, size_t checks_length);

/* Puzzle lines, as setters mail them: 81 characters, row by row, '1' to '9' for a given, '.' or '0' for a blank, and at
 * most one line feed behind them. A line is no proof that its puzzle has one solution and no other; and it holds none:
 * opening takes the solution beside the givens. A given that became another digit on the way is still a line, which
 * opening refuses by 27 where the solution has another digit there; one that became a blank nothing notices. */

/* Reads a line into givens: `length` bytes of the output, which can go straight to pawdoku_open. The output has
 * PAWDOKU_LINE_GIVENS bytes or more, however few the givens are; those beyond them stay. `line_length` counts the line
 * feed where there is one, and no zero behind it. Nothing in a line is passed over: one from a file with CR LF is
 * refused by 36. Refused by 34, 36, 37. */
pawdoku_written pawdoku_read_line(const uint8_t *line, size_t line_length, uint8_t *output, size_t output_length);
/* Writes the board's givens as a line: a full stop for every other cell, whatever the player put there; no line feed
 * and no zero behind it, so it is no C string. The output has PAWDOKU_LINE_BYTES bytes or more; those beyond them stay.
 * Refused by 2, 34. */
pawdoku_written pawdoku_write_line(pawdoku_board board, uint8_t *output, size_t output_length);

/* The reading of move k, from 1 to made. Refused by 1, 2, 14, 35. */
pawdoku_reading_answer pawdoku_reading(pawdoku_board board, const uint8_t *journal, size_t journal_length, size_t k);

/* The questions. Those for a cell are refused by 2 and 3, the keypad's for one digit by 2 and 8, the others by 2. */
pawdoku_cell_answer pawdoku_cell(pawdoku_board board, uint8_t row, uint8_t column);
pawdoku_yes_no pawdoku_conflicts(pawdoku_board board, uint8_t row, uint8_t column);
pawdoku_yes_no pawdoku_accepts_marks(pawdoku_board board, uint8_t row, uint8_t column);
pawdoku_yes_no pawdoku_holds_players_digit(pawdoku_board board, uint8_t row, uint8_t column);
pawdoku_yes_no pawdoku_is_solved(pawdoku_board board);
pawdoku_yes_no pawdoku_is_full(pawdoku_board board);
pawdoku_yes_no pawdoku_is_consistent(pawdoku_board board);
pawdoku_yes_no pawdoku_can_undo(pawdoku_board board);
pawdoku_yes_no pawdoku_can_redo(pawdoku_board board);

/* Digits left for a key of the keypad: nine less the cells that hold the digit and conflict with no peer, 0 to 9. A key
 * is to be grey where none is left: exactly then each row, column and box holds the digit once. All nine are grey
 * exactly on a grid that is solved.
 * A digit that conflicts does not count, nor does the one that it conflicts with, be it a given. So a digit put into an
 * empty cell makes its key's number one less where no peer holds it; where peers do, it makes the number greater, by as
 * many of them as counted until then, which may be none. Another key's number changes only where the cell held that
 * digit before. The number does not say in how many cells the digit can still be put. The solution is not asked. */
pawdoku_left pawdoku_digits_left(pawdoku_board board, uint8_t digit);
/* The whole keypad: what pawdoku_digits_left answers for 1 to 9, in one call, which takes less time than nine.
 * Refused by 2. */
pawdoku_keypad_answer pawdoku_keypad(pawdoku_board board);

/* Runs a list of calls, four bytes each: PAWDOKU_CALL_.., row, column, digit. Bytes that a call does not use (digit for
 * an erase and a check; row, column and digit for undo and redo) are not looked at. Writes four bytes for each into the
 * answers: number, place (two bytes, low first), verdict. As many calls are run as there are whole groups of four in
 * both; answer bytes beyond the last answer stay. A list is a chain of the functions above: each call is made on the
 * board and memory that the last one left, refused or not, and answered as it is by itself. A group's number is the
 * first of these that applies: PAWDOKU_NO_CALL where its first byte encodes no call, which changes nothing and looks
 * at nothing else; 1 where the memory that this call is lent (the check memory for a check, the journal for any other)
 * has another length, whatever the other memory is; 2 where the board is none; then the call's other numbers, lowest
 * first. The list itself is never refused: the answer's refusal is 0, its board is what the last call left. Go on with
 * that board, and run no list again on the one that was passed: moves made behind an undo lie over slots that it still
 * counts. */
pawdoku_answer pawdoku_play(pawdoku_board board, uint8_t *journal, size_t journal_length,
                            uint8_t *checks, size_t checks_length,
                            const uint8_t *calls, size_t calls_length,
                            uint8_t *answers, size_t answers_length);

/* Notes: marks 1 to 9; other bits are not looked at. */
uint8_t pawdoku_note_contains(uint16_t note, uint8_t digit);
size_t pawdoku_note_len(uint16_t note);
uint8_t pawdoku_note_is_empty(uint16_t note);
pawdoku_digits pawdoku_note_digits(uint16_t note);

/* The grid. A position off the grid has cell 0; band, stack and is_peer_of answer for every byte. */
size_t pawdoku_cell_of(uint8_t row, uint8_t column);
uint8_t pawdoku_band(uint8_t row);
uint8_t pawdoku_stack(uint8_t column);
uint8_t pawdoku_is_peer_of(uint8_t row, uint8_t column, uint8_t row2, uint8_t column2);
pawdoku_peer_cells pawdoku_peers(size_t cell);

#ifdef __cplusplus
}
#endif

#endif
