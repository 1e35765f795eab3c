/* The four operations on words without their moves, in straightforward C: what the plain ones are measured against. They are not
 * in the archive, so nothing here is from otis.h but the answer. */
#ifndef PLAIN_WORDS_H
#define PLAIN_WORDS_H

#include "otis.h"

/* What a shift changes: the column or the row of a place, or of a group. */
enum axis { MESH_ROW, MESH_COLUMN, GROUP_ROW, GROUP_COLUMN };

/* What becomes of a word that a shift takes over the edge. */
enum edge { ZERO_FILL, CIRCULAR };

struct otis_answer straight_broadcast(size_t side, size_t cell, uint32_t *words, size_t words_length);

struct otis_answer straight_data_sum(size_t side, uint32_t *words, size_t words_length);

struct otis_answer straight_prefix_sum(size_t side, uint32_t *words, size_t words_length);

/* Takes a number for its axis and its edge, and any other for the last. */
struct otis_answer straight_shift(size_t side, size_t axis, size_t edge, int32_t k, uint32_t *words, size_t words_length);

#endif
