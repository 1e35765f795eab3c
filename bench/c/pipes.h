/* What the servers share: a program that calls functions of otis.h for one at the other end of its pipes, so that the archive,
 * which is for x86-64, can be tried from any machine.
 *
 * A REQUEST is a row of numbers of 64 bits: the operation, the side, and the length of each slice in the order of otis.h. Then
 * come the slices, each whole: FENCE entries before it, its own, and FENCE behind it. AN ANSWER is the four numbers of the
 * function's answer and all slices whole, as they are after the call. What stands in the fences is the client's affair: a store
 * outside a slice comes back as a fence that has changed. A slice of no entries is passed as a null pointer. Numbers have
 * their low byte first, as memory has on every machine that this runs on.
 *
 * Answers wait in a buffer until SEND comes, a request of its one number, which has no answer. The end of the requests ends
 * the program. */
#ifndef PIPES_H
#define PIPES_H

#include <stddef.h>
#include <stdint.h>
#include <stdio.h>
#include <stdlib.h>

enum { FENCE = 16, MOST_SLICES = 8, BUFFER = 1 << 18, SEND = 0 };

/* One slice of a call, in memory that is kept from request to request and grows as it has to. */
struct slice {
    size_t width;
    size_t length;
    size_t room;
    unsigned char *whole;
};

static inline void fail(const char *why)
{
    fprintf(stderr, "server: %s\n", why);
    exit(2);
}

static inline void take(void *to, size_t size)
{
    if (fread(to, 1, size, stdin) != size)
        fail("a request breaks off");
}

static inline void give(const void *from, size_t size)
{
    if (fwrite(from, 1, size, stdout) != size)
        fail("an answer cannot be written");
}

static inline size_t whole_size(const struct slice *slice)
{
    return (slice->length + 2 * FENCE) * slice->width;
}

static inline void take_slice(struct slice *slice)
{
    size_t size = whole_size(slice);
    if (slice->room < size) {
        free(slice->whole);
        slice->whole = malloc(size);
        slice->room = size;
    }
    if (!slice->whole)
        fail("there is no memory");
    take(slice->whole, size);
}

/* The side of a request, and its slices, whose entries have so many bytes each. */
static inline size_t take_call(struct slice slices[], size_t count, const size_t widths[])
{
    uint64_t side, lengths[MOST_SLICES];
    take(&side, sizeof side);
    take(lengths, count * sizeof *lengths);
    for (size_t at = 0; at < count; at++) {
        slices[at].width = widths[at];
        slices[at].length = lengths[at];
        take_slice(&slices[at]);
    }
    return side;
}

static inline void give_answer(const uint64_t numbers[4], const struct slice slices[], size_t count)
{
    give(numbers, 4 * sizeof *numbers);
    for (size_t at = 0; at < count; at++)
        give(slices[at].whole, whole_size(&slices[at]));
}

/* The first entry, or null where there is none, as a C caller may well pass it. */
static inline void *entries(const struct slice *slice)
{
    return slice->length ? slice->whole + FENCE * slice->width : NULL;
}

/* Serves every operation that is asked for until there are no more. */
static inline int serve_all(void (*serve)(uint64_t operation))
{
    uint64_t operation;
    setvbuf(stdin, NULL, _IOFBF, BUFFER);
    setvbuf(stdout, NULL, _IOFBF, BUFFER);
    while (fread(&operation, sizeof operation, 1, stdin) == 1) {
        if (operation == SEND)
            fflush(stdout);
        else
            serve(operation);
    }
    return 0;
}

#endif
