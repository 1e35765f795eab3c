#define _POSIX_C_SOURCE 199309L

#include "timing.h"

#include <stdio.h>
#include <stdlib.h>
#include <time.h>

/* Splitmix64: small, and the same numbers everywhere. */
uint64_t roll(uint64_t *state)
{
    uint64_t mixed = *state += 0x9E3779B97F4A7C15;
    mixed = (mixed ^ (mixed >> 30)) * 0xBF58476D1CE4E5B9;
    mixed = (mixed ^ (mixed >> 27)) * 0x94D049BB133111EB;
    return mixed ^ (mixed >> 31);
}

double nanoseconds(void)
{
    struct timespec now;
    clock_gettime(CLOCK_MONOTONIC, &now);
    return (double)now.tv_sec * 1e9 + (double)now.tv_nsec;
}

static int rising(const void *one, const void *other)
{
    double a = *(const double *)one, b = *(const double *)other;
    return (a > b) - (a < b);
}

struct times medians(double rounds[CALLEES][ROUNDS], int callees)
{
    struct times times;
    for (int callee = 0; callee < callees; callee++) {
        qsort(rounds[callee], ROUNDS, sizeof *rounds[callee], rising);
        times.of[callee] = rounds[callee][ROUNDS / 2];
    }
    times.yardstick = times.of[GCC] < times.of[CLANG] ? times.of[GCC] : times.of[CLANG];
    return times;
}

void print_plain_times(const struct times *times)
{
    double plain = times->of[ARCHIVE];
    printf(
        " %.0f | %.0f | %.0f | %.2f | %.0f | %.3f | %.0f | %.2f |\n", plain, times->of[GCC], times->of[CLANG],
        plain / times->yardstick, times->of[STEPPING], plain / times->of[STEPPING], times->of[COPY],
        plain / times->of[COPY]);
    fflush(stdout);
}
