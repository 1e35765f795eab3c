/* How much stack the functions of the header take, against what the header says.
 *
 * The stack below is painted, the function is called, and what is no longer paint was touched. At every side, with no cell
 * marked, half of them and all; the most of these counts. The replay at the sides that have captures: with no cell marked and
 * with all the capture of a board that follows the rule, which is the longest that does; with half of them the longest capture
 * there may be, all slots of all cells full. Each call is made once before, so that what the linker does at a first call is
 * not counted. For x86-64, as the archive is.
 *
 * Compiled with -DALL_ENTRIES it prints the table of `make stack`: those functions, and the entries that are in no archive but
 * the one that tests/stack makes for it. */
#include "otis.h"

#include <stdio.h>

enum { ROOM = 1 << 20, PAINT = 0xa5, MAX_SIDE = 8, CAPTURED_SIDE = 3, LONGEST_CAPTURE = 65536, LONGEST_LINE = 27 };

static size_t side, step; /* the board, and of how many cells one is marked; 0: no cell is */
static uint32_t words[OTIS_MAX_CELLS], spare_words[OTIS_MAX_CELLS];
static uint8_t marks[OTIS_MAX_CELLS], spare_marks[OTIS_MAX_CELLS], codes[OTIS_MAX_MOVES];
static uint16_t aims[OTIS_MAX_CELLS], spare_aims[OTIS_MAX_CELLS], moved[OTIS_MAX_MOVES];
static struct otis_answer answer;
static uint8_t capture[LONGEST_CAPTURE];
static size_t captured;

static struct otis_front front(void)
{
    struct otis_front lanes = {.words = words, .marks = marks, .aims = aims, .cells = OTIS_CELLS(side)};
    return lanes;
}

static struct otis_spare spare(void)
{
    struct otis_spare lanes = {.words = spare_words, .marks = spare_marks, .aims = spare_aims, .cells = OTIS_CELLS(side)};
    return lanes;
}

static struct otis_log logs(void)
{
    struct otis_log log = {.codes = codes, .moved = moved, .moves = OTIS_MAX_MOVES};
    return log;
}

/* Every cell that a step leads to is marked, and aimed at its rank. */
static void mark_by_steps(void)
{
    for (size_t cell = 0; cell < OTIS_CELLS(side); cell++) {
        marks[cell] = step && cell % step == 0;
        aims[cell] = marks[cell] ? (uint16_t)(cell / step) : 0;
    }
}

/* As many cells in front are marked, and aimed at those. */
static void mark_front(void)
{
    for (size_t cell = 0; cell < OTIS_CELLS(side); cell++) {
        marks[cell] = step && cell * step < OTIS_CELLS(side);
        aims[cell] = marks[cell] ? (uint16_t)(cell * step) : 0;
    }
}

static void call_rank(void)
{
    mark_by_steps();
    answer = otis_rank_board(side, front(), logs());
}

static void call_concentrate(void)
{
    mark_by_steps();
    answer = otis_concentrate_board(side, front(), spare(), logs());
}

static void call_distribute(void)
{
    mark_front();
    answer = otis_distribute_board(side, front(), spare(), logs());
}

static void call_plain_rank(void)
{
    mark_by_steps();
    answer = otis_plain_rank_board(side, front());
}

static void call_plain_concentrate(void)
{
    mark_by_steps();
    answer = otis_plain_concentrate_board(side, front(), spare());
}

static void call_plain_distribute(void)
{
    mark_front();
    answer = otis_plain_distribute_board(side, front(), spare());
}

/* Puts a number and what ends it behind the capture. A function of the C library might take more stack than the replay does. */
static void put_number(size_t number, char end)
{
    uint8_t digits[20];
    size_t count = 0;
    do
        digits[count++] = (uint8_t)('0' + number % 10);
    while (number /= 10);
    while (count > 0)
        capture[captured++] = digits[--count];
    capture[captured++] = (uint8_t)end;
}

/* Puts a line of so many numbers there; 0 where the longest one might have no room. */
static int put_line(const size_t numbers[], size_t count)
{
    if (captured + LONGEST_LINE > LONGEST_CAPTURE)
        return 0;
    for (size_t at = 0; at < count; at++)
        put_number(numbers[at], at + 1 < count ? '\t' : '\n');
    return 1;
}

/* The records of a full board after a move. None moves but in the swaps: between these every cell has its partner's. */
static int put_full_board(int swapped)
{
    size_t groups = side * side;
    for (size_t cell = 0; cell < OTIS_CELLS(side); cell++) {
        size_t from = swapped ? cell % groups * groups + cell / groups : cell;
        size_t record[] = {cell, 0, words[from], from};
        if (!put_line(record, 4))
            return 0;
    }
    return 1;
}

/* A record in every slot, its line as long as one can be. */
static int put_all_slots(void)
{
    for (size_t slot = 0; slot < 2 * OTIS_CELLS(side); slot++) {
        size_t record[] = {slot / 2, slot % 2, UINT32_MAX, UINT32_MAX};
        if (!put_line(record, 4))
            return 0;
    }
    return 1;
}

static void write_capture(void)
{
    static const uint8_t runs[] = {
        OTIS_RIGHT, OTIS_LEFT, OTIS_UP, OTIS_DOWN, OTIS_SWAP, OTIS_RIGHT, OTIS_LEFT, OTIS_UP, OTIS_SWAP};
    int swapped = 0, room = 1;
    size_t line[] = {1, 0};
    captured = 0;
    for (size_t run = 0; run < sizeof runs; run++)
        for (size_t left = runs[run] == OTIS_SWAP ? 1 : side - 1; room && left > 0; left--) {
            swapped ^= runs[run] == OTIS_SWAP;
            line[1] = runs[run];
            room = put_line(line, 2) && (step == 0 || (step == 1 ? put_full_board(swapped) : put_all_slots()));
            line[0]++;
        }
}

/* The capture of half a board has other records than the rule. */
static void call_replay(void)
{
    mark_by_steps();
    for (size_t cell = 0; cell < OTIS_CELLS(side); cell++)
        words[cell] = UINT32_MAX - (uint32_t)cell;
    write_capture();
    struct otis_replayed found = otis_replay(
        side, words, OTIS_CELLS(side), marks, OTIS_CELLS(side), aims, OTIS_CELLS(side), capture, captured);
    int as_wanted = step == 2 ? found.outcome == OTIS_DIFFERS && found.move == 1 : found.outcome == OTIS_AGREES;
    answer.number = as_wanted ? OTIS_ACCEPTED : OTIS_BAD_CAPTURE;
    answer.place = found.place;
}

/* How far below this function's own stack a call reaches. */
__attribute__((noinline)) static size_t reach(void (*call)(void))
{
    volatile unsigned char *here, *lowest;
    call();
    __asm__ volatile("mov %%rsp, %0" : "=r"(here));
    for (lowest = here - ROOM; lowest < here; lowest++)
        *lowest = PAINT;
    call();
    for (lowest = here - ROOM; lowest < here && *lowest == PAINT; lowest++)
        ;
    return (size_t)(here - lowest);
}

static const struct function {
    const char *name;
    void (*call)(void);
    size_t said; /* by the header, 0 where it says nothing */
    size_t last; /* the last side that it has */
} functions[] = {
    {"rank", call_rank, OTIS_RANK_STACK, MAX_SIDE},
    {"concentrate", call_concentrate, OTIS_CONCENTRATE_STACK, MAX_SIDE},
    {"distribute", call_distribute, OTIS_DISTRIBUTE_STACK, MAX_SIDE},
    {"plain rank", call_plain_rank, OTIS_PLAIN_STACK, MAX_SIDE},
    {"plain concentrate", call_plain_concentrate, OTIS_PLAIN_STACK, MAX_SIDE},
    {"plain distribute", call_plain_distribute, OTIS_PLAIN_STACK, MAX_SIDE},
    {"replay", call_replay, OTIS_REPLAY_STACK, CAPTURED_SIDE},
};

/* The most that a call takes at the side, of the three ways to mark it; 0 where one is refused. */
static size_t most_here(const struct function *function)
{
    size_t most = 0;
    for (step = 0; step <= 2; step++) {
        size_t here = reach(function->call);
        most = here > most ? here : most;
        if (answer.number != OTIS_ACCEPTED) {
            printf("%s: refused, number %zu, place %zu\n", function->name, answer.number, answer.place);
            return 0;
        }
    }
    return most;
}

#ifdef ALL_ENTRIES
#include "stack_entries.h"

int main(void)
{
    printf("| entry | bytes of stack at side 8 |\n|---|---|\n");
    return print_rows(functions, sizeof functions / sizeof *functions) && print_rows(others, sizeof others / sizeof *others) ? 0 : 1;
}
#else
/* Whether a function keeps to what the header says, at every side that it has. */
static int keeps_to(const struct function *function)
{
    size_t most = 0;
    for (side = 1; side <= function->last; side++) {
        size_t here = most_here(function);
        if (here == 0)
            return 0;
        most = here > most ? here : most;
    }
    printf("%s: %zu bytes of stack, and the header says at most %zu\n", function->name, most, function->said);
    return most <= function->said;
}

int main(void)
{
    int all = 1;
    for (size_t at = 0; at < sizeof functions / sizeof *functions; at++)
        all &= keeps_to(&functions[at]);
    return all ? 0 : 1;
}
#endif
