/* Calls rank, concentrate and distribute of otis.h, of both engines, for a program at the other end of its pipes: pipes.h says
 * how. It is linked with the archive, or with C functions under the same names. */
#include "otis.h"
#include "pipes.h"

enum operation {
    RANK = 1,
    CONCENTRATE = 2,
    DISTRIBUTE = 3,
    PLAIN_RANK = 4,
    PLAIN_CONCENTRATE = 5,
    PLAIN_DISTRIBUTE = 6,
    OPERATIONS
};

static struct otis_answer rank(size_t side, const struct slice s[])
{
    return otis_rank(
        side, entries(&s[0]), s[0].length, entries(&s[1]), s[1].length, entries(&s[2]), s[2].length);
}

static struct otis_answer concentrate(size_t side, const struct slice s[])
{
    return otis_concentrate(
        side, entries(&s[0]), s[0].length, entries(&s[1]), s[1].length, entries(&s[2]), s[2].length,
        entries(&s[3]), s[3].length, entries(&s[4]), s[4].length, entries(&s[5]), s[5].length,
        entries(&s[6]), s[6].length, entries(&s[7]), s[7].length);
}

static struct otis_answer distribute(size_t side, const struct slice s[])
{
    return otis_distribute(
        side, entries(&s[0]), s[0].length, entries(&s[1]), s[1].length, entries(&s[2]), s[2].length,
        entries(&s[3]), s[3].length, entries(&s[4]), s[4].length, entries(&s[5]), s[5].length,
        entries(&s[6]), s[6].length, entries(&s[7]), s[7].length);
}

static struct otis_answer plain_rank(size_t side, const struct slice s[])
{
    return otis_plain_rank(side, entries(&s[0]), s[0].length, entries(&s[1]), s[1].length);
}

static struct otis_answer plain_concentrate(size_t side, const struct slice s[])
{
    return otis_plain_concentrate(
        side, entries(&s[0]), s[0].length, entries(&s[1]), s[1].length, entries(&s[2]), s[2].length,
        entries(&s[3]), s[3].length, entries(&s[4]), s[4].length, entries(&s[5]), s[5].length);
}

static struct otis_answer plain_distribute(size_t side, const struct slice s[])
{
    return otis_plain_distribute(
        side, entries(&s[0]), s[0].length, entries(&s[1]), s[1].length, entries(&s[2]), s[2].length,
        entries(&s[3]), s[3].length, entries(&s[4]), s[4].length, entries(&s[5]), s[5].length);
}

/* What an operation is called by, and the bytes of an entry of each of its slices. */
struct function {
    struct otis_answer (*call)(size_t side, const struct slice slices[]);
    size_t slices;
    size_t widths[MOST_SLICES];
};

static const struct function functions[] = {
    [RANK] = {rank, 3, {1, 2, 1}},
    [CONCENTRATE] = {concentrate, 8, {4, 1, 2, 4, 1, 2, 1, 2}},
    [DISTRIBUTE] = {distribute, 8, {4, 1, 2, 4, 1, 2, 1, 2}},
    [PLAIN_RANK] = {plain_rank, 2, {1, 2}},
    [PLAIN_CONCENTRATE] = {plain_concentrate, 6, {4, 1, 2, 4, 1, 2}},
    [PLAIN_DISTRIBUTE] = {plain_distribute, 6, {4, 1, 2, 4, 1, 2}},
};

static void serve(uint64_t operation)
{
    static struct slice slices[MOST_SLICES];
    if (operation >= OPERATIONS)
        fail("there is no such operation");
    const struct function *function = &functions[operation];
    size_t side = take_call(slices, function->slices, function->widths);
    struct otis_answer answer = function->call(side, slices);
    uint64_t numbers[] = {answer.number, answer.place, answer.electronic, answer.swaps};
    give_answer(numbers, slices, function->slices);
}

int main(void)
{
    return serve_all(serve);
}
