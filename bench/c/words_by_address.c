/* The operations on words over their module compiled for another machine than x86-64: as by_address.c has those of otis.h. */
#include "speed_words.h"

struct otis_answer *module_broadcast(
    struct otis_answer *answer, size_t side, size_t cell, uint32_t *words, size_t words_length, uint8_t *codes,
    size_t codes_length);

typedef struct otis_answer *sum_by_address(
    struct otis_answer *answer, size_t side, uint32_t *words, size_t words_length, uint8_t *codes, size_t codes_length);

sum_by_address module_data_sum, module_prefix_sum;

struct otis_answer *module_shift(
    struct otis_answer *answer, size_t side, size_t axis, size_t edge, int32_t k, uint32_t *words, size_t words_length,
    uint8_t *codes, size_t codes_length);

struct otis_answer *module_plain_broadcast(
    struct otis_answer *answer, size_t side, size_t cell, uint32_t *words, size_t words_length);

typedef struct otis_answer *plain_sum_by_address(
    struct otis_answer *answer, size_t side, uint32_t *words, size_t words_length);

plain_sum_by_address module_plain_data_sum, module_plain_prefix_sum;

struct otis_answer *module_plain_shift(
    struct otis_answer *answer, size_t side, size_t axis, size_t edge, int32_t k, uint32_t *words, size_t words_length);

struct otis_answer measured_broadcast(
    size_t side, size_t cell, uint32_t *words, size_t words_length, uint8_t *codes, size_t codes_length)
{
    struct otis_answer answer;
    return *module_broadcast(&answer, side, cell, words, words_length, codes, codes_length);
}

struct otis_answer measured_data_sum(
    size_t side, uint32_t *words, size_t words_length, uint8_t *codes, size_t codes_length)
{
    struct otis_answer answer;
    return *module_data_sum(&answer, side, words, words_length, codes, codes_length);
}

struct otis_answer measured_prefix_sum(
    size_t side, uint32_t *words, size_t words_length, uint8_t *codes, size_t codes_length)
{
    struct otis_answer answer;
    return *module_prefix_sum(&answer, side, words, words_length, codes, codes_length);
}

struct otis_answer measured_shift(
    size_t side, size_t axis, size_t edge, int32_t k, uint32_t *words, size_t words_length, uint8_t *codes,
    size_t codes_length)
{
    struct otis_answer answer;
    return *module_shift(&answer, side, axis, edge, k, words, words_length, codes, codes_length);
}

struct otis_answer measured_plain_broadcast(size_t side, size_t cell, uint32_t *words, size_t words_length)
{
    struct otis_answer answer;
    return *module_plain_broadcast(&answer, side, cell, words, words_length);
}

struct otis_answer measured_plain_data_sum(size_t side, uint32_t *words, size_t words_length)
{
    struct otis_answer answer;
    return *module_plain_data_sum(&answer, side, words, words_length);
}

struct otis_answer measured_plain_prefix_sum(size_t side, uint32_t *words, size_t words_length)
{
    struct otis_answer answer;
    return *module_plain_prefix_sum(&answer, side, words, words_length);
}

struct otis_answer measured_plain_shift(
    size_t side, size_t axis, size_t edge, int32_t k, uint32_t *words, size_t words_length)
{
    struct otis_answer answer;
    return *module_plain_shift(&answer, side, axis, edge, k, words, words_length);
}
