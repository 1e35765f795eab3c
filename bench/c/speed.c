/* Measures the archive's stepping functions against the C stepper, and its plain ones against C functions without moves, both
 * compiled by two compilers, and prints Markdown tables. Beside a plain function stand the archive's stepping one and a copy of
 * the lanes that it is lent: what it costs to touch them all. The operations on words are measured in c/speed_words.c.
 *
 * Before every timed call the lanes and logs are filled anew, so they are warm, and the spare lanes hold garbage. Small boards
 * are timed in batches of as many frames, each different, as make 4,096 cells: the processor then guesses the marks no better
 * than on a large board. All take turns; a time is the median of the rounds, and a ratio is the archive's time over that of
 * the faster compiler's function. A call that is refused, or that leaves something else than the archive, ends the program. */
#include "otis.h"
#include "speed_words.h"
#include "timing.h"

#include <stdbool.h>
#include <stddef.h>
#include <stdio.h>
#include <stdlib.h>
#include <string.h>

enum { MOST_LOG = 8192 };

typedef struct otis_answer rank_function(
    size_t, const uint8_t *, size_t, uint16_t *, size_t, uint8_t *, size_t);

typedef struct otis_answer run_function(
    size_t, uint32_t *, size_t, uint8_t *, size_t, uint16_t *, size_t, uint32_t *, size_t, uint8_t *, size_t,
    uint16_t *, size_t, uint8_t *, size_t, uint16_t *, size_t);

typedef struct otis_answer plain_rank_function(size_t, const uint8_t *, size_t, uint16_t *, size_t);

typedef struct otis_answer plain_run_function(
    size_t, uint32_t *, size_t, uint8_t *, size_t, uint16_t *, size_t, uint32_t *, size_t, uint8_t *, size_t,
    uint16_t *, size_t);

/* The C functions under the names that tests/speed gives them, one set for each compiler. */
rank_function gcc_rank, clang_rank, gcc_shortest_rank, clang_shortest_rank;
run_function gcc_concentrate, clang_concentrate, gcc_distribute, clang_distribute;
plain_rank_function gcc_straight_rank, clang_straight_rank;
plain_run_function gcc_straight_concentrate, clang_straight_concentrate, gcc_straight_distribute, clang_straight_distribute;

/* One cell in so many is marked. */
static const struct kind {
    const char *name;
    size_t one_in;
} kinds[] = {{"sparse", 24}, {"half", 2}, {"full", 1}};
enum { KINDS = sizeof kinds / sizeof *kinds, HALF = 1 };

/* As many frames as make 4,096 cells, one behind the other. Lanes begin on a line of the cache, wherever the linker puts the
 * batch. */
struct batch {
    uint32_t words[OTIS_MAX_CELLS];
    uint8_t marks[OTIS_MAX_CELLS];
    uint16_t aims[OTIS_MAX_CELLS];
    uint32_t spare_words[OTIS_MAX_CELLS];
    uint8_t spare_marks[OTIS_MAX_CELLS];
    uint16_t spare_aims[OTIS_MAX_CELLS];
    uint8_t codes[MOST_LOG];
    uint16_t moved[MOST_LOG];
} __attribute__((aligned(64)));

static struct batch fresh, used, left;

/* Copies of so many cells from one on, out of the fresh batch: of the lanes that rank is lent, or of all six. */
static void copy_ranked(struct batch *batch, size_t at, size_t cells)
{
    memcpy(batch->marks + at, fresh.marks + at, cells * sizeof *batch->marks);
    memcpy(batch->aims + at, fresh.aims + at, cells * sizeof *batch->aims);
}

static void copy_lanes(struct batch *batch, size_t at, size_t cells)
{
    copy_ranked(batch, at, cells);
    memcpy(batch->words + at, fresh.words + at, cells * sizeof *batch->words);
    memcpy(batch->spare_words + at, fresh.spare_words + at, cells * sizeof *batch->spare_words);
    memcpy(batch->spare_marks + at, fresh.spare_marks + at, cells * sizeof *batch->spare_marks);
    memcpy(batch->spare_aims + at, fresh.spare_aims + at, cells * sizeof *batch->spare_aims);
}

/* Who makes an operation: one of these is given. */
struct callee {
    plain_rank_function *plain_rank;
    plain_run_function *plain_run;
    rank_function *rank;
    run_function *run;
    void (*copy)(struct batch *batch, size_t at, size_t cells);
};

/* An operation, and so many who make it. */
struct task {
    const char *name;
    struct callee callees[CALLEES];
    int count;
    bool back;
};

static const struct task tasks[] = {
    {"rank", {{.rank = otis_rank}, {.rank = gcc_rank}, {.rank = clang_rank}}, STEPPING, false},
    {"rank, counted without the moves",
     {{.rank = otis_rank}, {.rank = gcc_shortest_rank}, {.rank = clang_shortest_rank}}, STEPPING, false},
    {"concentrate", {{.run = otis_concentrate}, {.run = gcc_concentrate}, {.run = clang_concentrate}}, STEPPING, false},
    {"distribute", {{.run = otis_distribute}, {.run = gcc_distribute}, {.run = clang_distribute}}, STEPPING, true},
};
enum { TASKS = sizeof tasks / sizeof *tasks, CONCENTRATE = 2 };

static const struct task plain_tasks[] = {
    {"plain rank",
     {{.plain_rank = otis_plain_rank}, {.plain_rank = gcc_straight_rank}, {.plain_rank = clang_straight_rank},
      {.rank = otis_rank}, {.copy = copy_ranked}}, CALLEES, false},
    {"plain concentrate",
     {{.plain_run = otis_plain_concentrate}, {.plain_run = gcc_straight_concentrate},
      {.plain_run = clang_straight_concentrate}, {.run = otis_concentrate}, {.copy = copy_lanes}}, CALLEES, false},
    {"plain distribute",
     {{.plain_run = otis_plain_distribute}, {.plain_run = gcc_straight_distribute},
      {.plain_run = clang_straight_distribute}, {.run = otis_distribute}, {.copy = copy_lanes}}, CALLEES, true},
};
enum { PLAIN_TASKS = sizeof plain_tasks / sizeof *plain_tasks };

static void fail(const char *why, const struct task *task, size_t side)
{
    fprintf(stderr, "%s: %s, side %zu\n", why, task->name, side);
    exit(1);
}

/* ---- frames */

static void fill_with_garbage(struct batch *batch, uint64_t *dice)
{
    unsigned char *bytes = (unsigned char *)batch;
    for (size_t at = 0; at < sizeof *batch; at++)
        bytes[at] = (unsigned char)roll(dice);
}

/* Marks cells and aims them at their ranks; or, to go back, marks the first cells and aims them at cells drawn alike. */
static void mark(size_t cells, const struct kind *kind, bool back, uint8_t *marks, uint16_t *aims, uint64_t *dice)
{
    size_t rank = 0;
    memset(marks, 0, cells);
    for (size_t cell = 0; cell < cells; cell++)
        if (roll(dice) % kind->one_in == 0) {
            marks[back ? rank : cell] = 1;
            aims[back ? rank : cell] = (uint16_t)(back ? cell : rank);
            rank++;
        }
}

static void fill(struct batch *batch, size_t cells, const struct kind *kind, bool back)
{
    uint64_t dice = 0x5EED;
    fill_with_garbage(batch, &dice);
    for (size_t start = 0; start + cells <= OTIS_MAX_CELLS; start += cells)
        mark(cells, kind, back, batch->marks + start, batch->aims + start, &dice);
}

/* ---- calls */

static struct otis_answer call(const struct callee *callee, size_t side, struct batch *batch, size_t frame)
{
    static const struct otis_answer copied = {0, 0, 0, 0};
    size_t cells = OTIS_CELLS(side), moves = OTIS_MOVES(side), at = frame * cells, log = frame * moves;
    if (callee->plain_rank)
        return callee->plain_rank(side, batch->marks + at, cells, batch->aims + at, cells);
    if (callee->plain_run)
        return callee->plain_run(
            side, batch->words + at, cells, batch->marks + at, cells, batch->aims + at, cells,
            batch->spare_words + at, cells, batch->spare_marks + at, cells, batch->spare_aims + at, cells);
    if (callee->rank)
        return callee->rank(side, batch->marks + at, cells, batch->aims + at, cells, batch->codes + log, moves);
    if (callee->run)
        return callee->run(
            side, batch->words + at, cells, batch->marks + at, cells, batch->aims + at, cells,
            batch->spare_words + at, cells, batch->spare_marks + at, cells, batch->spare_aims + at, cells,
            batch->codes + log, moves, batch->moved + log, moves);
    callee->copy(batch, at, cells);
    return copied;
}

/* How many of the calls on a batch are refused: none may be, for a refusal is quick and proves nothing. */
static size_t call_all(const struct task *task, int callee, size_t side, struct batch *batch)
{
    size_t refused = 0;
    for (size_t frame = 0; frame < OTIS_MAX_CELLS / OTIS_CELLS(side); frame++)
        refused += call(&task->callees[callee], side, batch, frame).number != 0;
    return refused;
}

/* How much of the batch has to be the same: all of it, but of a stepping function beside a plain one the lanes, since it writes
 * its logs, and of a copy nothing. */
static size_t compared(int callee)
{
    return callee == COPY ? 0 : callee == STEPPING ? offsetof(struct batch, codes) : sizeof(struct batch);
}

/* That all leave the same, so that the times are those of the same work. */
static void compare(const struct task *task, size_t side)
{
    left = fresh;
    call_all(task, ARCHIVE, side, &left);
    for (int callee = GCC; callee < task->count; callee++) {
        used = fresh;
        call_all(task, callee, side, &used);
        if (memcmp(&used, &left, compared(callee)) != 0)
            fail("what it is measured against leaves something else than the archive", task, side);
    }
}

/* ---- times */

/* The time of one call, over a batch. */
static double timed(const struct task *task, int callee, size_t side)
{
    double before, spent;
    size_t refused;
    used = fresh;
    before = nanoseconds();
    refused = call_all(task, callee, side, &used);
    spent = nanoseconds() - before;
    if (refused)
        fail("a call is refused", task, side);
    return spent / (double)(OTIS_MAX_CELLS / OTIS_CELLS(side));
}

static struct times measure(const struct task *task, size_t side, const struct kind *kind)
{
    static double rounds[CALLEES][ROUNDS];
    fill(&fresh, OTIS_CELLS(side), kind, task->back);
    compare(task, side);
    for (int round = 0; round < ROUNDS; round++)
        for (int callee = 0; callee < task->count; callee++)
            rounds[callee][round] = timed(task, callee, side);
    return medians(rounds, task->count);
}

/* ---- tables */

static void print_operations(void)
{
    puts("| operation | side | frame | archive | C stepper, gcc | C stepper, clang | ratio |");
    puts("|---|--:|---|--:|--:|--:|--:|");
    for (size_t task = 0; task < TASKS; task++)
        for (size_t side = 2; side <= 8; side *= 2)
            for (size_t kind = 0; kind < KINDS; kind++) {
                struct times times = measure(&tasks[task], side, &kinds[kind]);
                printf(
                    "| %s | %zu | %s | %.0f | %.0f | %.0f | %.2f |\n", tasks[task].name, side, kinds[kind].name,
                    times.of[ARCHIVE], times.of[GCC], times.of[CLANG], times.of[ARCHIVE] / times.yardstick);
                fflush(stdout);
            }
}

static void print_plain_row(const struct task *task, size_t side, const struct kind *kind)
{
    struct times times = measure(task, side, kind);
    printf("| %s | %zu | %s |", task->name, side, kind->name);
    print_plain_times(&times);
}

static void print_plain(void)
{
    puts("\nThe plain engine, against C functions without moves, the archive's stepping function, and one copy of the lanes");
    puts("lent. A ratio is the archive's plain function over what stands before it; the first over the faster C function.\n");
    puts("| operation | side | frame | archive | C, gcc | C, clang | ratio | stepping | ratio | copy | ratio |");
    puts("|---|--:|---|--:|--:|--:|--:|--:|--:|--:|--:|");
    for (size_t task = 0; task < PLAIN_TASKS; task++)
        for (size_t side = 2; side <= 8; side *= 2)
            for (size_t kind = 0; kind < KINDS; kind++)
                print_plain_row(&plain_tasks[task], side, &kinds[kind]);
}

/* If the time for a cell and move stays level, the time grows as cells times moves, and with nothing else. */
static void print_growth(void)
{
    puts("\nHow time grows with the side: concentrate, half of the cells marked, against the faster stepper.\n");
    puts("| side | cells | moves | archive | C stepper | ratio | archive for a cell and move | C stepper for a cell and move |");
    puts("|--:|--:|--:|--:|--:|--:|--:|--:|");
    for (size_t side = 1; side <= 8; side++) {
        struct times times = measure(&tasks[CONCENTRATE], side, &kinds[HALF]);
        double archive = times.of[ARCHIVE], steps = (double)(OTIS_CELLS(side) * OTIS_MOVES(side));
        printf(
            "| %zu | %zu | %zu | %.0f | %.0f | %.2f | %.3f | %.3f |\n", side, OTIS_CELLS(side), OTIS_MOVES(side),
            archive, times.yardstick, archive / times.yardstick, archive / steps, times.yardstick / steps);
    }
}

/* speed TEXT: the text says how what is measured was made. */
int main(int count, char **words)
{
    printf("%s\n\n", count > 1 ? words[1] : "How archive and C functions were compiled is not told.");
    printf("One call in nanoseconds, median of %d rounds, all by turns. Lanes filled anew before each call, spare lanes full\n", ROUNDS);
    puts("of garbage. sparse: 1 cell in 24 marked; half: 1 in 2. The ratio is against the faster stepper.\n");
    print_operations();
    print_growth();
    print_plain();
    print_words();
    return 0;
}
