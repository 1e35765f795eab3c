/* A frame of the line camera, as bench software treats it: rank the marked cells, concentrate them, print the front,
 * distribute them back, and compare with what the camera gave. Each time the plain function, which makes no moves, is asked
 * for the same frame. A refusal ends it, with a line that says which.
 *
 *     make lib
 *     gcc -O2 -Iinclude bench/c/frame.c target/lib/libotis.a -o frame && ./frame
 *
 * Its expected output, frame.stdout, is worked out by hand from the scope: the frame is that of its example job, so both
 * columns of moved counts stand there, and so does what a damaged mark is answered. The plain functions have to give the
 * same counts, the same frames and the same refusal. */
#include "otis.h"

#include <stdio.h>
#include <stdlib.h>
#include <string.h>

#define SIDE 2
#define CELLS OTIS_CELLS(SIDE)
#define MOVES OTIS_MOVES(SIDE)

struct frame {
    uint32_t words[CELLS];
    uint8_t marks[CELLS];
    uint16_t aims[CELLS];
};

struct log {
    uint8_t codes[MOVES];
    uint16_t moved[MOVES];
};

static struct otis_front front_of(struct frame *frame)
{
    struct otis_front front = {.words = frame->words, .marks = frame->marks, .aims = frame->aims, .cells = CELLS};
    return front;
}

static struct otis_spare spare_of(struct frame *frame)
{
    struct otis_spare spare = {.words = frame->words, .marks = frame->marks, .aims = frame->aims, .cells = CELLS};
    return spare;
}

static struct otis_log log_of(struct log *log)
{
    struct otis_log lent = {.codes = log->codes, .moved = log->moved, .moves = MOVES};
    return lent;
}

/* What the camera gave: every spot has a reading, three are suspect. */
static void read_camera(struct frame *frame)
{
    memset(frame, 0, sizeof *frame);
    for (size_t cell = 0; cell < CELLS; cell++)
        frame->words[cell] = 10;
    frame->words[1] = 70;
    frame->words[6] = 71;
    frame->words[11] = 72;
    frame->marks[1] = frame->marks[6] = frame->marks[11] = 1;
}

static struct otis_answer rank(struct frame *frame)
{
    struct log log;
    return otis_rank_board(SIDE, front_of(frame), log_of(&log));
}

/* The spare lanes need no clearing: what they held before is never looked at. */
static struct otis_answer concentrate(struct frame *frame, struct log *log)
{
    struct frame spare;
    return otis_concentrate_board(SIDE, front_of(frame), spare_of(&spare), log_of(log));
}

static struct otis_answer distribute(struct frame *frame, struct log *log)
{
    struct frame spare;
    return otis_distribute_board(SIDE, front_of(frame), spare_of(&spare), log_of(log));
}

/* The same for a host that wants the frame and not the moves: no log is lent. */
static struct otis_answer plain_rank(struct frame *frame)
{
    return otis_plain_rank_board(SIDE, front_of(frame));
}

static struct otis_answer plain_concentrate(struct frame *frame)
{
    struct frame spare;
    return otis_plain_concentrate_board(SIDE, front_of(frame), spare_of(&spare));
}

static struct otis_answer plain_distribute(struct frame *frame)
{
    struct frame spare;
    return otis_plain_distribute_board(SIDE, front_of(frame), spare_of(&spare));
}

static void print_answer(const char *name, struct otis_answer answer)
{
    if (answer.number != OTIS_ACCEPTED)
        printf("%s: refused, number %zu, place %zu\n", name, answer.number, answer.place);
    else
        printf("%s: %zu electronic moves, %zu swaps\n", name, answer.electronic, answer.swaps);
}

/* What a refused call was to write is not there: nothing after it may go on. */
static void must_accept(const char *name, struct otis_answer answer)
{
    print_answer(name, answer);
    if (answer.number != OTIS_ACCEPTED)
        exit(1);
}

/* A header and an archive of two versions may agree on no parameter, so nothing else is called before. */
static void must_be_one_version(void)
{
    uint32_t version = otis_version();
    if (version == OTIS_VERSION)
        return;
    printf("otis.h is version %d, the archive version %u\n", OTIS_VERSION, (unsigned)version);
    exit(1);
}

static void print_log(const struct log *log)
{
    static const char *const names[] = {"swap", "right", "left", "up", "down"};
    for (size_t move = 0; move < MOVES; move++)
        printf("  %-5s %u\n", names[log->codes[move]], (unsigned)log->moved[move]);
}

static void print_marked(const struct frame *frame)
{
    for (size_t cell = 0; cell < CELLS; cell++)
        if (frame->marks[cell])
            printf("  cell %zu: word %u, aim %u\n", cell, (unsigned)frame->words[cell], (unsigned)frame->aims[cell]);
}

static int is_same(const struct frame *one, const struct frame *other)
{
    return memcmp(one->words, other->words, sizeof one->words) == 0
        && memcmp(one->marks, other->marks, sizeof one->marks) == 0
        && memcmp(one->aims, other->aims, sizeof one->aims) == 0;
}

/* Whether a plain function makes of the frame before what the moves made of it. */
static int at_once(
    const char *name, struct otis_answer (*plain)(struct frame *), struct frame before, const struct frame *after)
{
    int same;
    must_accept(name, plain(&before));
    same = is_same(&before, after);
    printf("  same: %s\n", same ? "yes" : "no");
    return same;
}

/* Which cells were marked, rank by rank: where distribute has to take the records back to. */
static void aim_back(const struct frame *camera, struct frame *front)
{
    for (size_t cell = 0; cell < CELLS; cell++)
        if (camera->marks[cell])
            front->aims[camera->aims[cell]] = (uint16_t)cell;
}

/* Whether every suspect spot is again where the camera saw it, and nothing else is left. */
static int is_back(const struct frame *camera, const struct frame *frame)
{
    for (size_t cell = 0; cell < CELLS; cell++) {
        uint32_t word = camera->marks[cell] ? camera->words[cell] : 0;
        if (frame->marks[cell] != camera->marks[cell] || frame->words[cell] != word)
            return 0;
    }
    return 1;
}

/* A broken camera is told by the cell, and the frame stays as it was. */
static int try_damaged(const struct frame *camera)
{
    struct frame damaged = *camera, frame;
    struct log log;
    struct otis_answer answer, plain;
    damaged.marks[6] = 3;
    frame = damaged;
    answer = concentrate(&frame, &log);
    print_answer("damaged", answer);
    plain = plain_concentrate(&frame);
    print_answer("damaged, plain", plain);
    return answer.number == OTIS_BAD_MARK && plain.number == OTIS_BAD_MARK && is_same(&frame, &damaged);
}

int main(void)
{
    struct frame camera, before, frame;
    struct log log;
    int same, back, kept;
    must_be_one_version();
    read_camera(&camera);
    before = camera;
    must_accept("rank", rank(&camera));
    print_marked(&camera);
    same = at_once("plain rank", plain_rank, before, &camera);
    frame = camera;
    must_accept("concentrate", concentrate(&frame, &log));
    print_log(&log);
    print_marked(&frame);
    same &= at_once("plain concentrate", plain_concentrate, camera, &frame);
    aim_back(&camera, &frame);
    before = frame;
    must_accept("distribute", distribute(&frame, &log));
    print_log(&log);
    print_marked(&frame);
    same &= at_once("plain distribute", plain_distribute, before, &frame);
    back = is_back(&camera, &frame);
    printf("back: %s\n", back ? "yes" : "no");
    kept = try_damaged(&camera);
    printf("kept: %s\n", kept ? "yes" : "no");
    return same && back && kept ? 0 : 1;
}
