/* The times of the operations on words. They are in no archive but one that tests/speed makes for the measuring, out of
 * bench/rattle/measured.txt; it has the functions that are declared here. */
#ifndef SPEED_WORDS_H
#define SPEED_WORDS_H

#include "otis.h"

typedef struct otis_answer broadcast_function(size_t, size_t, uint32_t *, size_t, uint8_t *, size_t);
typedef struct otis_answer sum_function(size_t, uint32_t *, size_t, uint8_t *, size_t);
typedef struct otis_answer shift_function(size_t, size_t, size_t, int32_t, uint32_t *, size_t, uint8_t *, size_t);
typedef struct otis_answer plain_broadcast_function(size_t, size_t, uint32_t *, size_t);
typedef struct otis_answer plain_sum_function(size_t, uint32_t *, size_t);
typedef struct otis_answer plain_shift_function(size_t, size_t, size_t, int32_t, uint32_t *, size_t);

broadcast_function measured_broadcast;
sum_function measured_data_sum, measured_prefix_sum;
shift_function measured_shift;
plain_broadcast_function measured_plain_broadcast;
plain_sum_function measured_plain_data_sum, measured_plain_prefix_sum;
plain_shift_function measured_plain_shift;

/* Measures them, and prints their table. */
void print_words(void);

#endif
