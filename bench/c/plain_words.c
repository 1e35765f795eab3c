/* Broadcast, data sum, prefix sum and the shifts without their moves: the arguments are judged, then the final lane is written in
 * place. Written for speed in the ordinary way, from documents 01 and 02, and proved by nobody; c/speed_words.c holds it to the proved
 * engines where it measures them. */
#include "plain_words.h"

#include <string.h>

enum { MOST_SIDE = 8, BAD_ARGUMENT = 4 };

static struct otis_answer refused(size_t number)
{
    struct otis_answer answer = {number, 0, 0, 0};
    return answer;
}

/* What the moves would have been. */
static struct otis_answer accepted(size_t electronic, size_t swaps)
{
    struct otis_answer answer = {0, 0, electronic, swaps};
    return answer;
}

/* The number of the refusal of a side or a lane, or 0. */
static size_t judge(size_t side, size_t length)
{
    if (side < 1 || side > MOST_SIDE)
        return OTIS_BAD_SIDE;
    return length == OTIS_CELLS(side) ? OTIS_ACCEPTED : OTIS_BAD_LANE;
}

static void fill(size_t cells, uint32_t *words, uint32_t word)
{
    for (size_t cell = 0; cell < cells; cell++)
        words[cell] = word;
}

struct otis_answer straight_broadcast(size_t side, size_t cell, uint32_t *words, size_t words_length)
{
    size_t number = judge(side, words_length);
    if (number)
        return refused(number);
    if (cell >= words_length)
        return refused(BAD_ARGUMENT);
    fill(words_length, words, words[cell]);
    return accepted(4 * (side - 1), 1);
}

struct otis_answer straight_data_sum(size_t side, uint32_t *words, size_t words_length)
{
    uint32_t sum = 0;
    size_t number = judge(side, words_length);
    if (number)
        return refused(number);
    for (size_t cell = 0; cell < words_length; cell++)
        sum += words[cell];
    fill(words_length, words, sum);
    return accepted(8 * (side - 1), 1);
}

struct otis_answer straight_prefix_sum(size_t side, uint32_t *words, size_t words_length)
{
    uint32_t sum = 0;
    size_t number = judge(side, words_length);
    if (number)
        return refused(number);
    for (size_t cell = 0; cell < words_length; cell++)
        words[cell] = sum += words[cell];
    return accepted(7 * (side - 1), 2);
}

/* ---- shifts
 *
 * Along every axis the lane is a row of blocks, and a block a row of s strips of equal length, which a shift takes from one to
 * another: a strip is a cell, a row of cells, a group, a row of groups. The whole lane is moved at once, and then what came over
 * the edge of a block is mended: by block, or in lines of few cells by the place in the line, since a call for a cell or two would
 * take longer than the line. */

static size_t strip_along(size_t side, size_t axis)
{
    switch (axis) {
    case MESH_ROW:
        return 1;
    case MESH_COLUMN:
        return side;
    case GROUP_ROW:
        return side * side;
    default:
        return side * side * side;
    }
}

/* Clears so many words from one place of each block on. */
static void clear_each(size_t cells, size_t block, size_t at, size_t by, uint32_t *words)
{
    if (block > MOST_SIDE)
        for (size_t cell = at; cell < cells; cell += block)
            memset(words + cell, 0, by * sizeof *words);
    else
        for (size_t place = at; place < at + by; place++)
            for (size_t cell = place; cell < cells; cell += block)
                words[cell] = 0;
}

/* Gives each block but the last the first words of the next one. */
static void pull_each(size_t cells, size_t block, size_t by, uint32_t *words)
{
    if (block > MOST_SIDE)
        for (size_t cell = block; cell < cells; cell += block)
            memcpy(words + (cell - block), words + cell, by * sizeof *words);
    else
        for (size_t place = 0; place < by; place++)
            for (size_t cell = block + place; cell < cells; cell += block)
                words[cell - block] = words[cell];
}

static void shift_forth(size_t cells, size_t block, size_t by, uint32_t *words)
{
    memmove(words + by, words, (cells - by) * sizeof *words);
    clear_each(cells, block, 0, by, words);
}

static void shift_back(size_t cells, size_t block, size_t by, uint32_t *words)
{
    memmove(words, words + by, (cells - by) * sizeof *words);
    clear_each(cells, block, block - by, by, words);
}

/* Each block's last words have gone to the front of the next block, and belong to the front of their own. */
static void shift_round(size_t cells, size_t block, size_t by, uint32_t *words)
{
    uint32_t last[OTIS_MAX_CELLS];
    memcpy(last, words + (cells - by), by * sizeof *words);
    memmove(words + by, words, (cells - by) * sizeof *words);
    pull_each(cells, block, by, words);
    memcpy(words + (cells - block), last, by * sizeof *words);
}

struct otis_answer straight_shift(size_t side, size_t axis, size_t edge, int32_t k, uint32_t *words, size_t words_length)
{
    size_t number = judge(side, words_length), swaps = axis == MESH_ROW || axis == MESH_COLUMN ? 0 : 2, strip, steps;
    if (number)
        return refused(number);
    if (k <= -(int32_t)side || k >= (int32_t)side)
        return refused(BAD_ARGUMENT);
    strip = strip_along(side, axis);
    if (edge != ZERO_FILL) {
        shift_round(words_length, side * strip, (k < 0 ? side + (size_t)k : (size_t)k) * strip, words);
        return accepted(k ? side : 0, swaps);
    }
    steps = k < 0 ? (size_t)-k : (size_t)k;
    (k < 0 ? shift_back : shift_forth)(words_length, side * strip, steps * strip, words);
    return accepted(steps, swaps);
}
