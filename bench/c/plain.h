/* The three operations without their moves, in straightforward C: what the archive's plain functions are measured against.
 * Parameters as in otis.h. */
#ifndef PLAIN_H
#define PLAIN_H

#include "otis.h"

struct otis_answer straight_rank(
    size_t side,
    const uint8_t *marks, size_t marks_length,
    uint16_t *aims, size_t aims_length);

struct otis_answer straight_concentrate(
    size_t side,
    uint32_t *words, size_t words_length,
    uint8_t *marks, size_t marks_length,
    uint16_t *aims, size_t aims_length,
    uint32_t *spare_words, size_t spare_words_length,
    uint8_t *spare_marks, size_t spare_marks_length,
    uint16_t *spare_aims, size_t spare_aims_length);

struct otis_answer straight_distribute(
    size_t side,
    uint32_t *words, size_t words_length,
    uint8_t *marks, size_t marks_length,
    uint16_t *aims, size_t aims_length,
    uint32_t *spare_words, size_t spare_words_length,
    uint8_t *spare_marks, size_t spare_marks_length,
    uint16_t *spare_aims, size_t spare_aims_length);

#endif
