/* Calls otis_replay of the archive for a program at the other end of its pipes: pipes.h says how. It is a server of its own,
 * since the C functions that server.c is linked with too have no replay. */
#include "otis.h"
#include "pipes.h"

enum { REPLAY = 1, SLICES = 4 };

static void serve(uint64_t operation)
{
    static const size_t widths[SLICES] = {4, 1, 2, 1};
    static struct slice s[SLICES];
    if (operation != REPLAY)
        fail("there is no such operation");
    size_t side = take_call(s, SLICES, widths);
    struct otis_replayed replayed = otis_replay(
        side, entries(&s[0]), s[0].length, entries(&s[1]), s[1].length, entries(&s[2]), s[2].length,
        entries(&s[3]), s[3].length);
    uint64_t numbers[] = {replayed.outcome, replayed.move, replayed.number, replayed.place};
    give_answer(numbers, s, SLICES);
}

int main(void)
{
    return serve_all(serve);
}
