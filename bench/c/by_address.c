/* The functions of otis.h over the archive's module compiled for another machine than x86-64. The module is made for x86-64,
 * where an answer of this size goes by its address, the first argument; so it does in the module on every machine.
 * tests/speed gives its functions these names. */
#include "otis.h"

struct otis_answer *module_rank(
    struct otis_answer *answer, size_t side, const uint8_t *marks, size_t marks_length, uint16_t *aims, size_t aims_length,
    uint8_t *codes, size_t codes_length);

typedef struct otis_answer *run_by_address(
    struct otis_answer *answer, size_t side, uint32_t *words, size_t words_length, uint8_t *marks, size_t marks_length,
    uint16_t *aims, size_t aims_length, uint32_t *spare_words, size_t spare_words_length, uint8_t *spare_marks,
    size_t spare_marks_length, uint16_t *spare_aims, size_t spare_aims_length, uint8_t *codes, size_t codes_length,
    uint16_t *moved, size_t moved_length);

run_by_address module_concentrate, module_distribute;

struct otis_answer *module_plain_rank(
    struct otis_answer *answer, size_t side, const uint8_t *marks, size_t marks_length, uint16_t *aims, size_t aims_length);

typedef struct otis_answer *plain_run_by_address(
    struct otis_answer *answer, size_t side, uint32_t *words, size_t words_length, uint8_t *marks, size_t marks_length,
    uint16_t *aims, size_t aims_length, uint32_t *spare_words, size_t spare_words_length, uint8_t *spare_marks,
    size_t spare_marks_length, uint16_t *spare_aims, size_t spare_aims_length);

plain_run_by_address module_plain_concentrate, module_plain_distribute;

struct otis_answer otis_rank(
    size_t side,
    const uint8_t *marks, size_t marks_length,
    uint16_t *aims, size_t aims_length,
    uint8_t *codes, size_t codes_length)
{
    struct otis_answer answer;
    return *module_rank(&answer, side, marks, marks_length, aims, aims_length, codes, codes_length);
}

struct otis_answer otis_concentrate(
    size_t side,
    uint32_t *words, size_t words_length,
    uint8_t *marks, size_t marks_length,
    uint16_t *aims, size_t aims_length,
    uint32_t *spare_words, size_t spare_words_length,
    uint8_t *spare_marks, size_t spare_marks_length,
    uint16_t *spare_aims, size_t spare_aims_length,
    uint8_t *codes, size_t codes_length,
    uint16_t *moved, size_t moved_length)
{
    struct otis_answer answer;
    return *module_concentrate(
        &answer, side, words, words_length, marks, marks_length, aims, aims_length, spare_words, spare_words_length,
        spare_marks, spare_marks_length, spare_aims, spare_aims_length, codes, codes_length, moved, moved_length);
}

struct otis_answer otis_distribute(
    size_t side,
    uint32_t *words, size_t words_length,
    uint8_t *marks, size_t marks_length,
    uint16_t *aims, size_t aims_length,
    uint32_t *spare_words, size_t spare_words_length,
    uint8_t *spare_marks, size_t spare_marks_length,
    uint16_t *spare_aims, size_t spare_aims_length,
    uint8_t *codes, size_t codes_length,
    uint16_t *moved, size_t moved_length)
{
    struct otis_answer answer;
    return *module_distribute(
        &answer, side, words, words_length, marks, marks_length, aims, aims_length, spare_words, spare_words_length,
        spare_marks, spare_marks_length, spare_aims, spare_aims_length, codes, codes_length, moved, moved_length);
}

struct otis_answer otis_plain_rank(
    size_t side,
    const uint8_t *marks, size_t marks_length,
    uint16_t *aims, size_t aims_length)
{
    struct otis_answer answer;
    return *module_plain_rank(&answer, side, marks, marks_length, aims, aims_length);
}

struct otis_answer otis_plain_concentrate(
    size_t side,
    uint32_t *words, size_t words_length,
    uint8_t *marks, size_t marks_length,
    uint16_t *aims, size_t aims_length,
    uint32_t *spare_words, size_t spare_words_length,
    uint8_t *spare_marks, size_t spare_marks_length,
    uint16_t *spare_aims, size_t spare_aims_length)
{
    struct otis_answer answer;
    return *module_plain_concentrate(
        &answer, side, words, words_length, marks, marks_length, aims, aims_length, spare_words, spare_words_length,
        spare_marks, spare_marks_length, spare_aims, spare_aims_length);
}

struct otis_answer otis_plain_distribute(
    size_t side,
    uint32_t *words, size_t words_length,
    uint8_t *marks, size_t marks_length,
    uint16_t *aims, size_t aims_length,
    uint32_t *spare_words, size_t spare_words_length,
    uint8_t *spare_marks, size_t spare_marks_length,
    uint16_t *spare_aims, size_t spare_aims_length)
{
    struct otis_answer answer;
    return *module_plain_distribute(
        &answer, side, words, words_length, marks, marks_length, aims, aims_length, spare_words, spare_words_length,
        spare_marks, spare_marks_length, spare_aims, spare_aims_length);
}
