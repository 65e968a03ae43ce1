/* The calls, the numbers that include/pawdoku.h lists for each, and how often each was seen. */
#ifndef PAWDOKU_TESTS_COUNTED_H
#define PAWDOKU_TESTS_COUNTED_H

#include "pawdoku.h"

#include <stdio.h>
#include <stdlib.h>
#include <unistd.h>

enum call {
    OPEN, REOPEN, PLACE, ERASE, PENCIL, UNDO, REDO, CHECK, LATEST, NEXT, WRITE, READING, CELL, CONFLICTS, ACCEPTS_MARKS,
    HOLDS_PLAYERS_DIGIT, IS_SOLVED, IS_FULL, IS_CONSISTENT, CAN_UNDO, CAN_REDO, DIGITS_LEFT, KEYPAD, PLAY, NOTE_CONTAINS, NOTE_LEN,
    NOTE_IS_EMPTY, NOTE_DIGITS, CELL_OF, BAND, STACK, IS_PEER_OF, PEERS, VERSION, READ_LINE, WRITE_LINE, CALLS
};

#define N(n) ((uint64_t)1 << (n))
#define UP_TO(a, b) ((N((b) + 1) - 1) & ~(N(a) - 1))

/* The numbers that the header lists for each call, beside 0. */
static const struct {
    const char *name;
    uint64_t numbers;
} LISTED[CALLS] = {
    [OPEN] = {"open", N(1) | N(19) | UP_TO(22, 27)},
    [REOPEN] = {"reopen", N(1) | UP_TO(17, 33)},
    [PLACE] = {"place", UP_TO(1, 5) | N(8) | N(9) | N(15)},
    [ERASE] = {"erase", UP_TO(1, 4) | N(6) | N(15)},
    [PENCIL] = {"pencil", UP_TO(1, 4) | N(7) | N(8) | N(15)},
    [UNDO] = {"undo", N(1) | N(2) | N(4) | N(12) | N(14)},
    [REDO] = {"redo", N(1) | N(2) | N(4) | N(13) | N(14)},
    [CHECK] = {"check", UP_TO(1, 4) | N(6) | N(16)},
    [LATEST] = {"latest", N(1) | N(2) | N(12) | N(34)},
    [NEXT] = {"next", N(1) | N(2) | N(13) | N(34)},
    [WRITE] = {"write", N(1) | N(2) | N(14) | N(34)},
    [READING] = {"reading", N(1) | N(2) | N(14) | N(35)},
    [CELL] = {"cell", N(2) | N(3)},
    [CONFLICTS] = {"conflicts", N(2) | N(3)},
    [ACCEPTS_MARKS] = {"accepts_marks", N(2) | N(3)},
    [HOLDS_PLAYERS_DIGIT] = {"holds_players_digit", N(2) | N(3)},
    [IS_SOLVED] = {"is_solved", N(2)},
    [IS_FULL] = {"is_full", N(2)},
    [IS_CONSISTENT] = {"is_consistent", N(2)},
    [CAN_UNDO] = {"can_undo", N(2)},
    [CAN_REDO] = {"can_redo", N(2)},
    [DIGITS_LEFT] = {"digits_left", N(2) | N(8)},
    [KEYPAD] = {"keypad", N(2)},
    [PLAY] = {"play", 0},
    [NOTE_CONTAINS] = {"note_contains", 0},
    [NOTE_LEN] = {"note_len", 0},
    [NOTE_IS_EMPTY] = {"note_is_empty", 0},
    [NOTE_DIGITS] = {"note_digits", 0},
    [CELL_OF] = {"cell_of", 0},
    [BAND] = {"band", 0},
    [STACK] = {"stack", 0},
    [IS_PEER_OF] = {"is_peer_of", 0},
    [PEERS] = {"peers", 0},
    [VERSION] = {"version", 0},
    [READ_LINE] = {"read_line", N(34) | N(36) | N(37)},
    [WRITE_LINE] = {"write_line", N(2) | N(34)},
};

static uint64_t seed;
static uint64_t made_calls;
static uint64_t calls_of[CALLS], accepted_of[CALLS], refusals_by[256];
/* How often each number was the inner one of 29. */
static uint64_t moves_refused_by[256];

static void fail(enum call call, const char *what)
{
    fprintf(stderr, "fuzz: %s: %s (seed %llu, call %llu)\n", LISTED[call].name, what, (unsigned long long)seed, (unsigned long long)made_calls);
    exit(1);
}

static void must(int holds, enum call call, const char *what)
{
    if (!holds)
        fail(call, what);
}

/* A page beside a lent slice was touched, or something else that is no business of the library's. */
static void faulted(int signal)
{
    static const char text[] = "fuzz: a byte outside of all lent memory was touched\n";
    (void)signal;
    if (write(2, text, sizeof text - 1) < 0)
        _exit(2);
    _exit(1);
}

/* 10 and 11: why a record's move is refused, and no call. */
static int is_of_a_mark(uint8_t number)
{
    return number == PAWDOKU_MARK_ALREADY_WRITTEN || number == PAWDOKU_MARK_NOT_THERE;
}

/* What the header says of the inner number. So 10 and 11 stand beside 29, and beside 25, where they are cells. */
static int is_inner(uint8_t number, uint8_t inner)
{
    switch (number) {
    case PAWDOKU_UNSOUND_MEMORY: return inner <= 1;
    case PAWDOKU_SOLUTION_CONFLICT: return inner >= 1 && inner <= PAWDOKU_CELLS;
    case PAWDOKU_MOVE_REFUSED: return inner == 3 || (inner >= 5 && inner <= 11);
    case PAWDOKU_CHECK_REFUSED: return inner == 3 || inner == 5 || inner == 8;
    default: return inner == 0;
    }
}

/* Every refusal that a call answers comes by here. */
static void count(enum call call, pawdoku_refusal r)
{
    made_calls++;
    calls_of[call]++;
    refusals_by[r.number]++;
    moves_refused_by[r.inner] += r.number == PAWDOKU_MOVE_REFUSED;
    if (r.number == PAWDOKU_ACCEPTED)
        accepted_of[call]++;
    must(!is_of_a_mark(r.number), call, "10 or 11, which no call answers");
    must(r.number == 0 || (r.number < 64 && (LISTED[call].numbers & N(r.number)) != 0), call, "a number that is not listed for it");
    uint64_t placed = N(14) | N(17) | UP_TO(23, 29) | UP_TO(31, 33) | N(37);
    must(((placed & N(r.number)) != 0) == (r.place != 0), call, "a place where none is said, or none where one is");
    must(is_inner(r.number, r.inner), call, "an inner number that is not said of the number");
}

/* The answers of a list, also where it is not run again call by call: a number of the six calls that it can hold, or
 * that of no call. */
static void look_at_answers(const uint8_t *list_answers, size_t groups)
{
    uint64_t numbers = N(PAWDOKU_ACCEPTED);
    for (int call = PLACE; call <= CHECK; call++)
        numbers |= LISTED[call].numbers;
    for (size_t i = 0; i < groups; i++) {
        const uint8_t number = list_answers[4 * i];
        must(!is_of_a_mark(number), PLAY, "10 or 11, which no call answers");
        const int listed = number < 64 && (numbers & N(number)) != 0;
        must(listed || number == PAWDOKU_NO_CALL, PLAY, "a number that is listed for no call of a list");
    }
}

static void count_plain(enum call call)
{
    made_calls++;
    calls_of[call]++;
    accepted_of[call]++;
}

#endif
