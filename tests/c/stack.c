/* The stack that calls take: every exported function is called on threads with 64 kB of stack, on boards and with
 * memory that take it the longest way: a full journal, full check memory, twenty marks struck, a board about to be
 * solved, and what is refused. What each takes is read off its stack, which is lent to the thread full of a pattern.
 *
 *     stack              says what opening, reopening and the deepest call take
 *     stack each         says it of every function
 *
 * What must hold: every call ends on such a thread, and reopening takes at most 8 kB more than opening, however many
 * moves of the record are undone. What is measured lies below the thread's first function: what the call takes, with
 * the board that is passed to it and the answer that it returns. */
#define _DEFAULT_SOURCE 1
#include "pawdoku.h"

#include <pthread.h>
#include <signal.h>
#include <stdio.h>
#include <stdlib.h>
#include <string.h>
#include <sys/mman.h>
#include <unistd.h>

enum { STACK = 65536, GUARD = 65536, ALLOWED = 8192, SIGNAL_STACK = 32768, PATTERN = 0x5c };

static const char *running = "nothing";

static void fail(const char *what)
{
    fprintf(stderr, "stack: %s: %s\n", running, what);
    exit(1);
}

/* ---- a thread on a stack that is lent to it */

static uint8_t *stack;
static uint8_t signal_stack[SIGNAL_STACK];

/* Below the lent stack lies memory that cannot be touched. */
static void overflowed(int signal)
{
    static const char text[] = ": 64 kB of stack are not enough\n";
    (void)signal;
    if (write(2, "stack: ", 7) < 0 || write(2, running, strlen(running)) < 0 || write(2, text, sizeof text - 1) < 0)
        _exit(2);
    _exit(1);
}

static void make_stack(void)
{
    uint8_t *pages = mmap(NULL, GUARD + STACK, PROT_READ | PROT_WRITE, MAP_PRIVATE | MAP_ANONYMOUS, -1, 0);
    if (pages == MAP_FAILED || mprotect(pages, GUARD, PROT_NONE) != 0)
        fail("no memory");
    stack = pages + GUARD;
    struct sigaction action;
    memset(&action, 0, sizeof action);
    action.sa_handler = overflowed;
    action.sa_flags = SA_ONSTACK;
    sigaction(SIGSEGV, &action, NULL);
    sigaction(SIGBUS, &action, NULL);
}

static void (*job)(void);
static size_t depth;

static size_t untouched(void)
{
    size_t i = 0;
    while (i < STACK && stack[i] == PATTERN)
        i++;
    return i;
}

static void *thread(void *none)
{
    const stack_t other = {.ss_sp = signal_stack, .ss_flags = 0, .ss_size = sizeof signal_stack};
    sigaltstack(&other, NULL);
    job();
    depth = (size_t)((const uint8_t *)&other - stack) - untouched();
    return none;
}

static void run_thread(void)
{
    pthread_attr_t attributes;
    pthread_t id;
    memset(stack, PATTERN, STACK);
    if (pthread_attr_init(&attributes) != 0 || pthread_attr_setstack(&attributes, stack, STACK) != 0)
        fail("64 kB are no stack for a thread here");
    if (pthread_create(&id, &attributes, thread, NULL) != 0 || pthread_join(id, NULL) != 0)
        fail("no thread");
    pthread_attr_destroy(&attributes);
}

/* How many bytes of stack this takes. It is done twice: the first time the dynamic linker takes some, which looks a
 * function up where it is first called. */
static size_t taken_by(const char *name, void (*what)(void))
{
    running = name;
    job = what;
    run_thread();
    run_thread();
    return depth;
}

/* ---- sittings; all that calls work on is static, so that the frames here stay small */

struct sitting {
    pawdoku_board board;
    uint8_t journal[PAWDOKU_JOURNAL_BYTES];
    uint8_t checks[PAWDOKU_CHECK_MEMORY];
};

/* Opened; pencilled for a placement that strikes twenty marks; that placement made; the same taken back; full memory;
 * all of it undone; a cell left; solved; and a value that is no board. */
enum { OPENED, PENCILLED, STRUCK, BACK, FULL, UNDONE, NEARLY, SOLVED, NONE, SITTINGS };
static struct sitting sittings[SITTINGS], at;
static uint8_t solution[PAWDOKU_SOLUTION_BYTES], givens[PAWDOKU_GIVEN_BYTES * PAWDOKU_CELLS];
static uint8_t list[PAWDOKU_CALL_BYTES * 2 * PAWDOKU_MAX_MOVES], said[sizeof list];
static uint8_t record[PAWDOKU_MAX_RECORD], output[PAWDOKU_MAX_RECORD];
static size_t list_length, givens_length, record_length;
static pawdoku_answer answer;

static void set_puzzle(size_t count)
{
    for (size_t i = 0; i < PAWDOKU_CELLS; i++) {
        const size_t row = i / 9, column = i % 9;
        solution[i] = (uint8_t)((3 * row + row / 3 + column) % 9 + 1);
        const uint8_t given[PAWDOKU_GIVEN_BYTES] = {(uint8_t)(row + 1), (uint8_t)(column + 1), solution[i]};
        memcpy(givens + PAWDOKU_GIVEN_BYTES * i, given, sizeof given);
    }
    givens_length = PAWDOKU_GIVEN_BYTES * count;
}

static void open_at(void)
{
    answer = pawdoku_open(givens, givens_length, solution, sizeof solution, at.journal, sizeof at.journal, at.checks,
                          sizeof at.checks);
    at.board = answer.board;
}

static void reopen_at(void)
{
    answer = pawdoku_reopen(record, record_length, solution, sizeof solution, at.journal, sizeof at.journal, at.checks,
                            sizeof at.checks);
    at.board = answer.board;
}

static size_t write_at(uint8_t out[PAWDOKU_MAX_RECORD])
{
    static pawdoku_written written;
    written = pawdoku_write(at.board, at.journal, sizeof at.journal, at.checks, sizeof at.checks, out,
                            PAWDOKU_MAX_RECORD);
    return written.length;
}

static void add(uint8_t call, uint8_t row, uint8_t column, uint8_t digit)
{
    const uint8_t bytes[PAWDOKU_CALL_BYTES] = {call, row, column, digit};
    if (list_length == sizeof list)
        fail("the list is too long");
    memcpy(list + list_length, bytes, sizeof bytes);
    list_length += sizeof bytes;
}

static void play_at(void)
{
    answer = pawdoku_play(at.board, at.journal, sizeof at.journal, at.checks, sizeof at.checks, list, list_length, said,
                          sizeof said);
    at.board = answer.board;
}

/* Runs the list; every call of it has to be accepted. */
static void run_list(void)
{
    play_at();
    for (size_t i = 0; i < list_length; i += PAWDOKU_CALL_BYTES)
        if (said[i] != PAWDOKU_ACCEPTED)
            fail("a call that should be accepted is refused");
    list_length = 0;
}

/* The digit 1 into the note of each peer of row 1, column 1. */
static void add_pencilling(void)
{
    const pawdoku_peer_cells all = pawdoku_peers(1);
    for (size_t i = 0; i < sizeof all.cells; i++) {
        const int peer = all.cells[i] - 1;
        add(PAWDOKU_CALL_PENCIL, (uint8_t)(peer / 9 + 1), (uint8_t)(peer % 9 + 1), 1);
    }
}

/* As many moves as the journal holds: rounds of twenty marks, a placement that strikes them, and an erasure. */
static void fill_journal(void)
{
    const size_t round = 22;
    for (size_t i = 0; i + round <= PAWDOKU_MAX_MOVES; i += round) {
        add_pencilling();
        add(PAWDOKU_CALL_PLACE, 1, 1, 1);
        if (i == 0)
            for (size_t k = 0; k < PAWDOKU_MAX_CHECKS; k++)
                add(PAWDOKU_CALL_CHECK, 1, 1, 0);
        add(PAWDOKU_CALL_ERASE, 1, 1, 0);
    }
    for (size_t left_over = PAWDOKU_MAX_MOVES % round; left_over > 0; left_over--)
        add(PAWDOKU_CALL_PENCIL, 9, 9, 1);
    run_list();
    if (at.board.made != PAWDOKU_MAX_MOVES || at.board.checks != PAWDOKU_MAX_CHECKS)
        fail("the journal or the check memory is not full");
}

static void undo_at(size_t count)
{
    for (size_t i = 0; i < count; i++)
        add(PAWDOKU_CALL_UNDO, 0, 0, 0);
    run_list();
}

static void make_sittings(void)
{
    set_puzzle(0);
    open_at();
    sittings[OPENED] = at;
    add_pencilling();
    run_list();
    sittings[PENCILLED] = at;
    add(PAWDOKU_CALL_PLACE, 1, 1, 1);
    run_list();
    sittings[STRUCK] = at;
    undo_at(1);
    sittings[BACK] = at;
    open_at();
    fill_journal();
    sittings[FULL] = at;
    undo_at(PAWDOKU_MAX_MOVES);
    sittings[UNDONE] = at;
    set_puzzle(PAWDOKU_CELLS - 1);
    open_at();
    sittings[NEARLY] = at;
    add(PAWDOKU_CALL_PLACE, 9, 9, solution[PAWDOKU_CELLS - 1]);
    run_list();
    sittings[SOLVED] = at;
    memset(&sittings[NONE], 0xff, sizeof sittings[NONE]);
}

/* ---- every function, on every sitting */

static pawdoku_checked checked;
static pawdoku_shown shown;
static pawdoku_written written;
static pawdoku_cell_answer cell;
static pawdoku_yes_no yes_no;
static pawdoku_left left;
static pawdoku_keypad_answer keypad;
static pawdoku_reading_answer reading;
static pawdoku_digits digits;
static pawdoku_peer_cells peers;
static uint64_t number;
static uint8_t slot[PAWDOKU_SLOT_BYTES];

#define ON_EVERY(name, statement)                                                                                     \
    static void name(void)                                                                                            \
    {                                                                                                                 \
        for (size_t i = 0; i < SITTINGS; i++) {                                                                       \
            at = sittings[i];                                                                                         \
            statement;                                                                                                \
        }                                                                                                             \
    }

static void place_at(uint8_t row, uint8_t column, uint8_t digit)
{
    answer = pawdoku_place(at.board, at.journal, sizeof at.journal, row, column, digit);
}

static void pencil_at(uint8_t row, uint8_t column, uint8_t digit)
{
    answer = pawdoku_pencil(at.board, at.journal, sizeof at.journal, row, column, digit);
}

ON_EVERY(all_place, place_at(1, 1, 1); place_at(9, 9, solution[PAWDOKU_CELLS - 1]); place_at(9, 9, 1))
ON_EVERY(all_erase, answer = pawdoku_erase(at.board, at.journal, sizeof at.journal, 1, 1))
ON_EVERY(all_pencil, pencil_at(9, 9, 9); pencil_at(1, 2, 1))
ON_EVERY(all_undo, answer = pawdoku_undo(at.board, at.journal, sizeof at.journal))
ON_EVERY(all_redo, answer = pawdoku_redo(at.board, at.journal, sizeof at.journal))
ON_EVERY(all_check, checked = pawdoku_check(at.board, at.checks, sizeof at.checks, 1, 1))
ON_EVERY(all_latest, shown = pawdoku_latest(at.board, at.journal, sizeof at.journal, slot, sizeof slot))
ON_EVERY(all_next, shown = pawdoku_next(at.board, at.journal, sizeof at.journal, slot, sizeof slot))
ON_EVERY(all_write, number += write_at(output))
ON_EVERY(all_write_line, written = pawdoku_write_line(at.board, output, PAWDOKU_LINE_BYTES);
         written = pawdoku_write_line(at.board, output, PAWDOKU_LINE_BYTES - 1))
ON_EVERY(all_cell, cell = pawdoku_cell(at.board, 1, 1))
ON_EVERY(all_conflicts, yes_no = pawdoku_conflicts(at.board, 1, 1))
ON_EVERY(all_accepts_marks, yes_no = pawdoku_accepts_marks(at.board, 1, 1))
ON_EVERY(all_holds_players_digit, yes_no = pawdoku_holds_players_digit(at.board, 1, 1))
ON_EVERY(all_is_solved, yes_no = pawdoku_is_solved(at.board))
ON_EVERY(all_is_full, yes_no = pawdoku_is_full(at.board))
ON_EVERY(all_is_consistent, yes_no = pawdoku_is_consistent(at.board))
ON_EVERY(all_can_undo, yes_no = pawdoku_can_undo(at.board))
ON_EVERY(all_can_redo, yes_no = pawdoku_can_redo(at.board))
ON_EVERY(all_digits_left, left = pawdoku_digits_left(at.board, 1))
ON_EVERY(all_keypad, keypad = pawdoku_keypad(at.board))

static void all_reading(void)
{
    for (size_t i = 0; i < SITTINGS; i++) {
        at = sittings[i];
        for (size_t k = 0; k <= PAWDOKU_MAX_MOVES; k += k == 0 ? 1 : 341)
            reading = pawdoku_reading(at.board, at.journal, sizeof at.journal, k);
    }
}

/* Each call after each other, and one that is none. */
static void all_play(void)
{
    list_length = 0;
    for (uint8_t first = PAWDOKU_CALL_PLACE - 1; first <= PAWDOKU_CALL_CHECK; first++)
        for (uint8_t second = PAWDOKU_CALL_PLACE - 1; second <= PAWDOKU_CALL_CHECK; second++) {
            add(first, 1, 1, 1);
            add(second, 1, 2, 1);
        }
    for (size_t i = 0; i < SITTINGS; i++) {
        at = sittings[i];
        play_at();
    }
    list_length = 0;
}

static void all_open(void)
{
    for (size_t count = 0; count <= PAWDOKU_CELLS; count++) {
        set_puzzle(count);
        open_at();
    }
    memset(solution, 1, sizeof solution);
    open_at();
    set_puzzle(0);
}

/* The latest record whole, cut short and damaged. */
static void all_reopen(void)
{
    const size_t whole = record_length;
    for (record_length = 0; record_length <= whole; record_length += record_length < whole ? 61 : 1)
        reopen_at();
    record_length = whole;
    for (size_t i = 0; i < whole; i += 61) {
        record[i] ^= 1;
        reopen_at();
        record[i] ^= 1;
    }
}

/* A line of 81 givens, which is read and laid down in whole; the same with its last character of another sort, or too
 * short; and with too little room. */
static void all_read_line(void)
{
    static uint8_t line[PAWDOKU_LINE_BYTES];
    memset(line, '9', sizeof line);
    written = pawdoku_read_line(line, sizeof line, output, PAWDOKU_LINE_GIVENS);
    if (written.length != PAWDOKU_LINE_GIVENS)
        fail("a line of 81 givens is not read");
    written = pawdoku_read_line(line, sizeof line, output, PAWDOKU_LINE_GIVENS - 1);
    written = pawdoku_read_line(line, sizeof line - 1, output, PAWDOKU_LINE_GIVENS);
    line[PAWDOKU_LINE_BYTES - 1] = '\n';
    written = pawdoku_read_line(line, sizeof line, output, PAWDOKU_LINE_GIVENS);
}

static void all_notes_and_grid(void)
{
    number += pawdoku_note_contains(0x3fe, 9) + pawdoku_note_len(0x3fe) + pawdoku_note_is_empty(0x3fe);
    digits = pawdoku_note_digits(0x3fe);
    number += pawdoku_cell_of(9, 9) + pawdoku_band(9) + pawdoku_stack(9) + pawdoku_is_peer_of(1, 1, 9, 9);
    peers = pawdoku_peers(PAWDOKU_CELLS);
    number += pawdoku_version() + PAWDOKU_ABI();
}

static const struct {
    const char *name;
    void (*run)(void);
} CALLS[] = {
    {"open", all_open},
    {"place", all_place},
    {"erase", all_erase},
    {"pencil", all_pencil},
    {"undo", all_undo},
    {"redo", all_redo},
    {"check", all_check},
    {"latest", all_latest},
    {"next", all_next},
    {"write", all_write},
    {"reopen", all_reopen},
    {"read_line", all_read_line},
    {"write_line", all_write_line},
    {"reading", all_reading},
    {"cell", all_cell},
    {"conflicts", all_conflicts},
    {"accepts_marks", all_accepts_marks},
    {"holds_players_digit", all_holds_players_digit},
    {"is_solved", all_is_solved},
    {"is_full", all_is_full},
    {"is_consistent", all_is_consistent},
    {"can_undo", all_can_undo},
    {"can_redo", all_can_redo},
    {"digits_left", all_digits_left},
    {"keypad", all_keypad},
    {"play", all_play},
    {"notes, grid and version", all_notes_and_grid},
};

/* ---- the run */

/* The record of a full journal of which so many moves are undone. */
static void set_record(size_t undone)
{
    at = sittings[FULL];
    undo_at(undone);
    record_length = write_at(record);
    set_puzzle(0);
    if (record_length == 0)
        fail("no record to reopen");
}

static const struct {
    const char *name;
    size_t undone;
} REOPENINGS[] = {
    {"reopening, none undone", 0},
    {"reopening, 1 undone", 1},
    {"reopening, 512 undone", PAWDOKU_MAX_MOVES / 2},
    {"reopening, 1,024 undone", PAWDOKU_MAX_MOVES},
};

enum { FUNCTIONS = sizeof CALLS / sizeof *CALLS, COUNTS = sizeof REOPENINGS / sizeof *REOPENINGS };
static size_t depths[FUNCTIONS], reopened[COUNTS];

static void measure_reopening(size_t i)
{
    const size_t undone = REOPENINGS[i].undone;
    set_record(undone);
    reopened[i] = taken_by(REOPENINGS[i].name, reopen_at);
    if (answer.refusal.number != PAWDOKU_ACCEPTED || at.board.made != PAWDOKU_MAX_MOVES
        || at.board.standing != PAWDOKU_MAX_MOVES - undone)
        fail("it reopens as another");
}

int main(int argc, char **argv)
{
    const int says_each = argc > 1 && strcmp(argv[1], "each") == 0;
    make_stack();
    make_sittings();
    for (size_t i = 0; i < COUNTS; i++)
        measure_reopening(i);
    size_t most = 0;
    for (size_t i = 0; i < FUNCTIONS; i++) {
        depths[i] = taken_by(CALLS[i].name, CALLS[i].run);
        most = depths[i] > depths[most] ? i : most;
        if (says_each)
            printf("%-24s %6zu bytes\n", CALLS[i].name, depths[i]);
    }
    set_puzzle(0);
    const size_t opening = taken_by("opening", open_at);
    printf("stack: opening takes %zu bytes, reopening 1,024 moves with 0, 1, 512 and 1,024 undone %zu, %zu, %zu "
           "and %zu; the most is %zu (%s)\n",
           opening, reopened[0], reopened[1], reopened[2], reopened[3], depths[most], CALLS[most].name);
    for (size_t i = 0; i < COUNTS; i++) {
        running = REOPENINGS[i].name;
        if (reopened[i] > opening + ALLOWED)
            fail("more than 8 kB beyond what opening takes");
    }
    return 0;
}
