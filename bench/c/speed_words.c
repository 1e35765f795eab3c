/* Measures the plain operations on words against C functions of the same by two compilers, against the stepping ones, and against
 * a copy of the lane, and prints a Markdown table. As c/speed.c does it: the lane filled anew before every timed call, small boards
 * in batches that make 4,096 cells, all by turns. A call that is refused, or that answers or leaves something else than the plain
 * one, ends the program. */
#include "speed_words.h"

#include "plain_words.h"
#include "timing.h"

#include <stdbool.h>
#include <stdio.h>
#include <stdlib.h>
#include <string.h>

/* More than any operation on words has, and for a batch of the smallest board. */
#define MOVES(side) (8 * ((side) - 1) + 2)
enum { MOST_LOG = 4096 };

/* The C functions under the names that tests/speed gives them, one set for each compiler. */
plain_broadcast_function gcc_straight_broadcast, clang_straight_broadcast;
plain_sum_function gcc_straight_data_sum, clang_straight_data_sum, gcc_straight_prefix_sum, clang_straight_prefix_sum;
plain_shift_function gcc_straight_shift, clang_straight_shift;

/* As many lanes as make 4,096 cells, one behind the other, and their logs. Lanes begin on a line of the cache, wherever the linker
 * puts the batch. */
struct batch {
    uint32_t words[OTIS_MAX_CELLS];
    uint8_t codes[MOST_LOG];
} __attribute__((aligned(64)));

static struct batch fresh, used, left;

/* Who makes an operation: one of these is given, or none for a copy of the lane. */
struct callee {
    plain_broadcast_function *plain_broadcast;
    plain_sum_function *plain_sum;
    plain_shift_function *plain_shift;
    broadcast_function *broadcast;
    sum_function *sum;
    shift_function *shift;
};

/* An operation, and who makes it. A shift goes by so many sides and so many cells more. */
struct task {
    const char *name;
    struct callee callees[CALLEES];
    enum axis axis;
    enum edge edge;
    int32_t sides, more;
};

#define SHIFTS \
    {{.plain_shift = measured_plain_shift}, {.plain_shift = gcc_straight_shift}, {.plain_shift = clang_straight_shift}, \
     {.shift = measured_shift}, {0}}

static const struct task tasks[] = {
    {.name = "plain broadcast",
     .callees = {{.plain_broadcast = measured_plain_broadcast}, {.plain_broadcast = gcc_straight_broadcast},
                 {.plain_broadcast = clang_straight_broadcast}, {.broadcast = measured_broadcast}}},
    {.name = "plain data sum",
     .callees = {{.plain_sum = measured_plain_data_sum}, {.plain_sum = gcc_straight_data_sum},
                 {.plain_sum = clang_straight_data_sum}, {.sum = measured_data_sum}}},
    {.name = "plain prefix sum",
     .callees = {{.plain_sum = measured_plain_prefix_sum}, {.plain_sum = gcc_straight_prefix_sum},
                 {.plain_sum = clang_straight_prefix_sum}, {.sum = measured_prefix_sum}}},
    {"plain shift, mesh row, zero fill by 1", SHIFTS, MESH_ROW, ZERO_FILL, 0, 1},
    {"plain shift, mesh column, circular by 1", SHIFTS, MESH_COLUMN, CIRCULAR, 0, 1},
    {"plain shift, group row, zero fill by -1", SHIFTS, GROUP_ROW, ZERO_FILL, 0, -1},
    {"plain shift, group column, circular by s - 1", SHIFTS, GROUP_COLUMN, CIRCULAR, 1, -1},
};
enum { TASKS = sizeof tasks / sizeof *tasks };

static void fail(const char *why, const struct task *task, size_t side)
{
    fprintf(stderr, "%s: %s, side %zu\n", why, task->name, side);
    exit(1);
}

static void fill_with_garbage(struct batch *batch)
{
    uint64_t dice = 0x5EED;
    unsigned char *bytes = (unsigned char *)batch;
    for (size_t at = 0; at < sizeof *batch; at++)
        bytes[at] = (unsigned char)roll(&dice);
}

/* ---- calls */

static struct otis_answer call(const struct task *task, int number, size_t side, struct batch *batch, size_t frame)
{
    static const struct otis_answer copied = {0, 0, 0, 0};
    const struct callee *callee = &task->callees[number];
    size_t cells = OTIS_CELLS(side), moves = MOVES(side), cell = cells / 3;
    uint32_t *words = batch->words + frame * cells;
    uint8_t *codes = batch->codes + frame * moves;
    int32_t k = task->sides * (int32_t)side + task->more;
    if (callee->plain_broadcast)
        return callee->plain_broadcast(side, cell, words, cells);
    if (callee->plain_sum)
        return callee->plain_sum(side, words, cells);
    if (callee->plain_shift)
        return callee->plain_shift(side, task->axis, task->edge, k, words, cells);
    if (callee->broadcast)
        return callee->broadcast(side, cell, words, cells, codes, moves);
    if (callee->sum)
        return callee->sum(side, words, cells, codes, moves);
    if (callee->shift)
        return callee->shift(side, task->axis, task->edge, k, words, cells, codes, moves);
    memcpy(words, fresh.words + frame * cells, cells * sizeof *words);
    return copied;
}

/* How many of the calls on a batch are refused: none may be, for a refusal is quick and proves nothing. */
static size_t call_all(const struct task *task, int callee, size_t side, struct batch *batch)
{
    size_t refused = 0;
    for (size_t frame = 0; frame < OTIS_MAX_CELLS / OTIS_CELLS(side); frame++)
        refused += call(task, callee, side, batch, frame).number != 0;
    return refused;
}

static bool answers_alike(const struct task *task, int callee, size_t side)
{
    struct otis_answer plain, other;
    left = used = fresh;
    plain = call(task, ARCHIVE, side, &left, 0);
    other = call(task, callee, side, &used, 0);
    return plain.number == other.number && plain.place == other.place && plain.electronic == other.electronic
        && plain.swaps == other.swaps;
}

/* Of a stepping function the lanes alone, since it writes its logs too. */
static bool leaves_alike(const struct task *task, int callee, size_t side)
{
    left = used = fresh;
    call_all(task, ARCHIVE, side, &left);
    call_all(task, callee, side, &used);
    return memcmp(&used, &left, callee == STEPPING ? sizeof used.words : sizeof used) == 0;
}

/* That all do the same but who copies the lane, so that the times are those of the same work. */
static void compare(const struct task *task, size_t side)
{
    for (int callee = GCC; callee < COPY; callee++) {
        if (!answers_alike(task, callee, side))
            fail("what it is measured against answers something else", task, side);
        if (!leaves_alike(task, callee, side))
            fail("what it is measured against leaves something else", task, side);
    }
}

/* ---- times */

/* The time of one call, over a batch. */
static double timed(const struct task *task, int callee, size_t side)
{
    double before, spent;
    size_t refused;
    used = fresh;
    before = nanoseconds();
    refused = call_all(task, callee, side, &used);
    spent = nanoseconds() - before;
    if (refused)
        fail("a call is refused", task, side);
    return spent / (double)(OTIS_MAX_CELLS / OTIS_CELLS(side));
}

static struct times measure(const struct task *task, size_t side)
{
    static double rounds[CALLEES][ROUNDS];
    compare(task, side);
    for (int round = 0; round < ROUNDS; round++)
        for (int callee = 0; callee < CALLEES; callee++)
            rounds[callee][round] = timed(task, callee, side);
    return medians(rounds, CALLEES);
}

void print_words(void)
{
    puts("\nThe plain engine on words, out of an archive made for this alone; what stands beside it is as in the table before.\n");
    puts("| operation | side | plain | C, gcc | C, clang | ratio | stepping | ratio | copy | ratio |");
    puts("|---|--:|--:|--:|--:|--:|--:|--:|--:|--:|");
    fill_with_garbage(&fresh);
    for (size_t task = 0; task < TASKS; task++)
        for (size_t side = 2; side <= 8; side *= 2) {
            struct times times = measure(&tasks[task], side);
            printf("| %s | %zu |", tasks[task].name, side);
            print_plain_times(&times);
        }
}
