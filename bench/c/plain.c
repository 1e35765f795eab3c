/* Rank, concentrate and distribute without their moves: all is judged, then the final table is written in place. Written for
 * speed in the ordinary way, and proved by nobody. No branch in a loop over good lanes hangs on a mark: what is wrong is joined
 * over the whole lane first, and only where something is, the first such cell is looked for. The differential tests hold it to
 * the second model. */
#include "plain.h"

#include <stdbool.h>
#include <string.h>

enum { MOST_SIDE = 8, LANES = 6 };

static const struct otis_answer good = {0, 0, 0, 0};

static struct otis_answer refused(size_t number, size_t place)
{
    struct otis_answer answer = {number, place, 0, 0};
    return answer;
}

/* What the moves would have been. */
static struct otis_answer accepted(size_t side)
{
    struct otis_answer answer = {0, 0, 7 * (side - 1), 2};
    return answer;
}

static struct otis_answer judge_lengths(size_t side, const size_t lengths[], size_t lanes)
{
    if (side < 1 || side > MOST_SIDE)
        return refused(OTIS_BAD_SIDE, 0);
    for (size_t lane = 0; lane < lanes; lane++)
        if (lengths[lane] != OTIS_CELLS(side))
            return refused(OTIS_BAD_LANE, 0);
    return good;
}

static struct otis_answer judge_marks(size_t cells, const uint8_t *marks)
{
    uint8_t joined = 0;
    size_t cell = 0;
    for (size_t each = 0; each < cells; each++)
        joined |= marks[each];
    if (joined <= 1)
        return good;
    while (marks[cell] <= 1)
        cell++;
    return refused(OTIS_BAD_MARK, cell);
}

/* ---- rank */

static void rank_marked(size_t cells, const uint8_t *restrict marks, uint16_t *restrict aims)
{
    uint16_t rank = 0;
    for (size_t cell = 0; cell < cells; cell++) {
        aims[cell] = (uint16_t)(marks[cell] * rank);
        rank += marks[cell];
    }
}

struct otis_answer straight_rank(
    size_t side,
    const uint8_t *marks, size_t marks_length,
    uint16_t *aims, size_t aims_length)
{
    size_t lengths[] = {marks_length, aims_length};
    struct otis_answer judged = judge_lengths(side, lengths, 2);
    if (!judged.number)
        judged = judge_marks(marks_length, marks);
    if (judged.number)
        return judged;
    rank_marked(marks_length, marks, aims);
    return accepted(side);
}

/* ---- concentrate and distribute */

struct lanes {
    uint32_t *words;
    uint8_t *marks;
    uint16_t *aims;
};

static void clear(struct lanes lanes, size_t from, size_t cells)
{
    memset(lanes.words + from, 0, (cells - from) * sizeof *lanes.words);
    memset(lanes.marks + from, 0, (cells - from) * sizeof *lanes.marks);
    memset(lanes.aims + from, 0, (cells - from) * sizeof *lanes.aims);
}

static size_t first_off_rank(struct lanes front)
{
    size_t cell = 0, rank = 0;
    while (!front.marks[cell] || front.aims[cell] == rank)
        rank += front.marks[cell++];
    return cell;
}

/* Whether every record is aimed at its rank; how many there are. */
static struct otis_answer judge_ranks(size_t cells, struct lanes front, size_t *records)
{
    uint16_t rank = 0;
    uint16_t off = 0;
    for (size_t cell = 0; cell < cells; cell++) {
        off |= (uint16_t)(front.aims[cell] ^ rank) & (uint16_t)-front.marks[cell];
        rank += front.marks[cell];
    }
    *records = rank;
    return off ? refused(OTIS_BAD_AIM, first_off_rank(front)) : good;
}

/* Of records in front: the first whose aim is not above the one before it, or not on the board. */
static size_t first_off_board(size_t cells, const uint16_t *aims)
{
    size_t cell = 0, least = 0;
    for (; aims[cell] >= least && aims[cell] < cells; cell++)
        least = (size_t)aims[cell] + 1;
    return cell;
}

/* Whether the aims of records in front rise and stay on the board. */
static bool rise(size_t cells, size_t records, const uint16_t *aims)
{
    bool rising = records == 0 || aims[records - 1] < cells;
    for (size_t cell = 1; cell < records; cell++)
        rising &= aims[cell - 1] < aims[cell];
    return rising;
}

/* Whether the records stand in front, their aims on the board and rising; how many there are. */
static struct otis_answer judge_aims(size_t cells, struct lanes front, size_t *records)
{
    const uint8_t *gap = memchr(front.marks, 0, cells), *behind;
    *records = gap ? (size_t)(gap - front.marks) : cells;
    if (!rise(cells, *records, front.aims))
        return refused(OTIS_BAD_AIM, first_off_board(cells, front.aims));
    behind = memchr(front.marks + *records, 1, cells - *records);
    return behind ? refused(OTIS_BAD_AIM, (size_t)(behind - front.marks)) : good;
}

/* Every word is laid where the next record belongs, which is never behind the cell that it comes from; that of an unmarked
 * cell is overwritten by the next, or cleared. */
static void gather(size_t cells, const uint8_t *restrict marks, uint32_t *restrict words)
{
    size_t rank = 0;
    for (size_t cell = 0; cell < cells; cell++) {
        words[rank] = words[cell];
        rank += marks[cell];
    }
}

static void number_records(size_t records, uint16_t *aims)
{
    for (size_t rank = 0; rank < records; rank++)
        aims[rank] = (uint16_t)rank;
}

/* From the last record down: no aim lies before its record, so the cell that it names is free by then. Where one names its own
 * cell, so do all before it. */
static void scatter(size_t records, uint32_t *restrict words, uint8_t *restrict marks, uint16_t *restrict aims)
{
    for (size_t cell = records; cell-- > 0 && aims[cell] != cell;) {
        uint32_t word = words[cell];
        uint16_t aim = aims[cell];
        words[cell] = 0;
        marks[cell] = 0;
        aims[cell] = 0;
        words[aim] = word;
        marks[aim] = 1;
        aims[aim] = aim;
    }
}

struct otis_answer straight_concentrate(
    size_t side,
    uint32_t *words, size_t words_length,
    uint8_t *marks, size_t marks_length,
    uint16_t *aims, size_t aims_length,
    uint32_t *spare_words, size_t spare_words_length,
    uint8_t *spare_marks, size_t spare_marks_length,
    uint16_t *spare_aims, size_t spare_aims_length)
{
    size_t lengths[LANES] = {
        words_length, marks_length, aims_length, spare_words_length, spare_marks_length, spare_aims_length};
    struct lanes front = {words, marks, aims}, spare = {spare_words, spare_marks, spare_aims};
    size_t records = 0;
    struct otis_answer judged = judge_lengths(side, lengths, LANES);
    if (!judged.number)
        judged = judge_marks(marks_length, marks);
    if (!judged.number)
        judged = judge_ranks(marks_length, front, &records);
    if (judged.number)
        return judged;
    gather(marks_length, marks, words);
    memset(marks, 1, records);
    number_records(records, aims);
    clear(front, records, marks_length);
    clear(spare, 0, marks_length);
    return accepted(side);
}

struct otis_answer straight_distribute(
    size_t side,
    uint32_t *words, size_t words_length,
    uint8_t *marks, size_t marks_length,
    uint16_t *aims, size_t aims_length,
    uint32_t *spare_words, size_t spare_words_length,
    uint8_t *spare_marks, size_t spare_marks_length,
    uint16_t *spare_aims, size_t spare_aims_length)
{
    size_t lengths[LANES] = {
        words_length, marks_length, aims_length, spare_words_length, spare_marks_length, spare_aims_length};
    struct lanes front = {words, marks, aims}, spare = {spare_words, spare_marks, spare_aims};
    size_t records = 0;
    struct otis_answer judged = judge_lengths(side, lengths, LANES);
    if (!judged.number)
        judged = judge_marks(marks_length, marks);
    if (!judged.number)
        judged = judge_aims(marks_length, front, &records);
    if (judged.number)
        return judged;
    clear(front, records, marks_length);
    clear(spare, 0, marks_length);
    scatter(records, words, marks, aims);
    return accepted(side);
}
