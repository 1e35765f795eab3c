/* An ordinary C stepper of the same three operations, and a rank that makes no moves: what the archive is measured against.
 * Parameters as in otis.h. */
#ifndef STEPPER_H
#define STEPPER_H

#include "otis.h"

struct otis_answer stepper_rank(
    size_t side,
    const uint8_t *marks, size_t marks_length,
    uint16_t *aims, size_t aims_length,
    uint8_t *codes, size_t codes_length);

struct otis_answer shortest_rank(
    size_t side,
    const uint8_t *marks, size_t marks_length,
    uint16_t *aims, size_t aims_length,
    uint8_t *codes, size_t codes_length);

struct otis_answer stepper_concentrate(
    size_t side,
    uint32_t *words, size_t words_length,
    uint8_t *marks, size_t marks_length,
    uint16_t *aims, size_t aims_length,
    uint32_t *spare_words, size_t spare_words_length,
    uint8_t *spare_marks, size_t spare_marks_length,
    uint16_t *spare_aims, size_t spare_aims_length,
    uint8_t *codes, size_t codes_length,
    uint16_t *moved, size_t moved_length);

struct otis_answer stepper_distribute(
    size_t side,
    uint32_t *words, size_t words_length,
    uint8_t *marks, size_t marks_length,
    uint16_t *aims, size_t aims_length,
    uint32_t *spare_words, size_t spare_words_length,
    uint8_t *spare_marks, size_t spare_marks_length,
    uint16_t *spare_aims, size_t spare_aims_length,
    uint8_t *codes, size_t codes_length,
    uint16_t *moved, size_t moved_length);

#endif
