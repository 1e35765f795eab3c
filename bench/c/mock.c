/* The C stepper, and the C functions without moves, under the names of otis.h, so that the differential tests can call them as
 * they call the archive. RANK says which of the stepper's two ranks. */
#include "plain.h"
#include "stepper.h"

#ifndef RANK
#define RANK stepper_rank
#endif

struct otis_answer otis_rank(
    size_t side,
    const uint8_t *marks, size_t marks_length,
    uint16_t *aims, size_t aims_length,
    uint8_t *codes, size_t codes_length)
{
    return RANK(side, marks, marks_length, aims, aims_length, codes, codes_length);
}

struct otis_answer otis_concentrate(
    size_t side,
    uint32_t *words, size_t words_length,
    uint8_t *marks, size_t marks_length,
    uint16_t *aims, size_t aims_length,
    uint32_t *spare_words, size_t spare_words_length,
    uint8_t *spare_marks, size_t spare_marks_length,
    uint16_t *spare_aims, size_t spare_aims_length,
    uint8_t *codes, size_t codes_length,
    uint16_t *moved, size_t moved_length)
{
    return stepper_concentrate(
        side, words, words_length, marks, marks_length, aims, aims_length, spare_words, spare_words_length,
        spare_marks, spare_marks_length, spare_aims, spare_aims_length, codes, codes_length, moved, moved_length);
}

struct otis_answer otis_distribute(
    size_t side,
    uint32_t *words, size_t words_length,
    uint8_t *marks, size_t marks_length,
    uint16_t *aims, size_t aims_length,
    uint32_t *spare_words, size_t spare_words_length,
    uint8_t *spare_marks, size_t spare_marks_length,
    uint16_t *spare_aims, size_t spare_aims_length,
    uint8_t *codes, size_t codes_length,
    uint16_t *moved, size_t moved_length)
{
    return stepper_distribute(
        side, words, words_length, marks, marks_length, aims, aims_length, spare_words, spare_words_length,
        spare_marks, spare_marks_length, spare_aims, spare_aims_length, codes, codes_length, moved, moved_length);
}

struct otis_answer otis_plain_rank(
    size_t side,
    const uint8_t *marks, size_t marks_length,
    uint16_t *aims, size_t aims_length)
{
    return straight_rank(side, marks, marks_length, aims, aims_length);
}

struct otis_answer otis_plain_concentrate(
    size_t side,
    uint32_t *words, size_t words_length,
    uint8_t *marks, size_t marks_length,
    uint16_t *aims, size_t aims_length,
    uint32_t *spare_words, size_t spare_words_length,
    uint8_t *spare_marks, size_t spare_marks_length,
    uint16_t *spare_aims, size_t spare_aims_length)
{
    return straight_concentrate(
        side, words, words_length, marks, marks_length, aims, aims_length, spare_words, spare_words_length,
        spare_marks, spare_marks_length, spare_aims, spare_aims_length);
}

struct otis_answer otis_plain_distribute(
    size_t side,
    uint32_t *words, size_t words_length,
    uint8_t *marks, size_t marks_length,
    uint16_t *aims, size_t aims_length,
    uint32_t *spare_words, size_t spare_words_length,
    uint8_t *spare_marks, size_t spare_marks_length,
    uint16_t *spare_aims, size_t spare_aims_length)
{
    return straight_distribute(
        side, words, words_length, marks, marks_length, aims, aims_length, spare_words, spare_words_length,
        spare_marks, spare_marks_length, spare_aims, spare_aims_length);
}
