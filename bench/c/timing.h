/* What the two files that measure share: dice, a clock, the median of the rounds and the rows of the plain engine. */
#ifndef TIMING_H
#define TIMING_H

#include <stdint.h>

enum { ROUNDS = 151 };

/* Who is measured on one operation, in this order: the proved function, the C function by two compilers, and for a plain operation
 * also the stepping function and who copies the lanes. */
enum { ARCHIVE, GCC, CLANG, STEPPING, COPY, CALLEES };

struct times {
    double of[CALLEES];
    double yardstick; /* the faster of the two compilers' */
};

/* The medians of so many, out of all their rounds. */
struct times medians(double rounds[CALLEES][ROUNDS], int callees);

/* The end of a table's row: the plain function, then each that it is measured against with the ratio to it. */
void print_plain_times(const struct times *times);

uint64_t roll(uint64_t *state);

double nanoseconds(void);

#endif
