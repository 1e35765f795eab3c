/* An ordinary C stepper of rank, concentrate and distribute: the same lanes and the same moves as the archive, written for
 * speed in the ordinary way and proved by nobody; and a rank that makes no moves, beside which the moves' cost is seen. The
 * differential tests hold both to the second model. */
#include "stepper.h"

#include <stdbool.h>
#include <string.h>

enum { MOST_SIDE = 8, MOST_PLACES = 64, RUNS = 9, LANES = 6, LOGS = 2 };

static const struct otis_answer accepted = {0, 0, 0, 0};

static struct otis_answer refused(size_t number, size_t place)
{
    struct otis_answer answer = {number, place, 0, 0};
    return answer;
}

static size_t run_length(size_t side, uint8_t code)
{
    return code == OTIS_SWAP ? 1 : side - 1;
}

/* Writes the codes of the runs, and counts them. */
static struct otis_answer write_codes(size_t side, const uint8_t runs[RUNS], uint8_t *codes)
{
    struct otis_answer answer = {0, 0, 7 * (side - 1), 2};
    for (size_t run = 0; run < RUNS; run++) {
        size_t length = run_length(side, runs[run]);
        memset(codes, runs[run], length);
        codes += length;
    }
    return answer;
}

static struct otis_answer judge_marks(const uint8_t *marks, size_t cells)
{
    for (size_t cell = 0; cell < cells; cell++)
        if (marks[cell] > 1)
            return refused(OTIS_BAD_MARK, cell);
    return accepted;
}

/* ---- rank */

/* The lanes of the prefix sum, named as in its nine steps. They are lanes of words, as on the board. */
struct sums {
    uint32_t r[OTIS_MAX_CELLS]; /* the marked cells of the row, up to this one */
    uint32_t c[OTIS_MAX_CELLS]; /* r down the column */
    uint32_t a[OTIS_MAX_CELLS]; /* what came by light */
    uint32_t y[OTIS_MAX_CELLS]; /* a along the row, up to this cell */
    uint32_t z[OTIS_MAX_CELLS]; /* y down the column; later what is before the cell */
};

/* Right: in each move the next column of every group adds what it receives. */
static void add_right(size_t side, size_t cells, uint32_t *lane)
{
    for (size_t column = 1; column < side; column++)
        for (size_t cell = column; cell < cells; cell += side)
            lane[cell] += lane[cell - 1];
}

/* Down: in each move the next row of every group adds what it receives. */
static void add_down(size_t side, size_t cells, uint32_t *lane)
{
    for (size_t row = 1; row < side; row++)
        for (size_t start = row * side; start < cells; start += side * side)
            for (size_t cell = start; cell < start + side; cell++)
                lane[cell] += lane[cell - side];
}

/* Left: in each move the next column of every group takes what it receives. */
static void copy_left(size_t side, size_t cells, uint32_t *lane)
{
    for (size_t column = side - 1; column-- > 0;)
        for (size_t cell = column; cell < cells; cell += side)
            lane[cell] = lane[cell + 1];
}

/* Up: in each move the next row of every group takes what it receives. */
static void copy_up(size_t side, size_t cells, uint32_t *lane)
{
    for (size_t row = side - 1; row-- > 0;)
        for (size_t start = row * side; start < cells; start += side * side)
            for (size_t cell = start; cell < start + side; cell++)
                lane[cell] = lane[cell + side];
}

static void swap_words(size_t places, uint32_t *lane)
{
    for (size_t group = 0; group < places; group++)
        for (size_t place = group + 1; place < places; place++) {
            uint32_t word = lane[group * places + place];
            lane[group * places + place] = lane[place * places + group];
            lane[place * places + group] = word;
        }
}

/* What a cell does by itself. */
static void take(size_t cells, uint32_t *restrict lane, const uint32_t *restrict other)
{
    memcpy(lane, other, cells * sizeof *lane);
}

static void add(size_t cells, uint32_t *restrict lane, const uint32_t *restrict other)
{
    for (size_t cell = 0; cell < cells; cell++)
        lane[cell] += other[cell];
}

static void subtract(size_t cells, uint32_t *restrict lane, const uint32_t *restrict other)
{
    for (size_t cell = 0; cell < cells; cell++)
        lane[cell] -= other[cell];
}

/* Steps 1 to 3: the sums of the rows, theirs down the columns, and these by light. */
static void sum_groups(size_t side, size_t cells, struct sums *sums)
{
    add_right(side, cells, sums->r);
    take(cells, sums->c, sums->r);
    add_down(side, cells, sums->c);
    take(cells, sums->a, sums->c);
    swap_words(side * side, sums->a);
}

/* Steps 4 and 5: the sums of what came, without what came to the cell itself, and these back by light. */
static void sum_over_groups(size_t side, size_t cells, struct sums *sums)
{
    take(cells, sums->y, sums->a);
    add_right(side, cells, sums->y);
    take(cells, sums->z, sums->y);
    add_down(side, cells, sums->z);
    subtract(cells, sums->z, sums->y);
    copy_left(side, cells, sums->z);
    add(cells, sums->z, sums->y);
    subtract(cells, sums->z, sums->a);
    swap_words(side * side, sums->z);
}

/* Steps 6 to 9: up the columns, and with the rows above along each row. */
static void spread_sums(size_t side, size_t cells, struct sums *sums)
{
    copy_up(side, cells, sums->z);
    add(cells, sums->z, sums->c);
    subtract(cells, sums->z, sums->r);
    copy_left(side, cells, sums->z);
    add(cells, sums->r, sums->z);
}

/* All moves of the prefix sum, in all groups. */
static void rank_by_moves(size_t side, const uint8_t *restrict marks, uint16_t *restrict aims)
{
    struct sums sums;
    size_t cells = OTIS_CELLS(side);
    for (size_t cell = 0; cell < cells; cell++)
        sums.r[cell] = marks[cell];
    sum_groups(side, cells, &sums);
    sum_over_groups(side, cells, &sums);
    spread_sums(side, cells, &sums);
    for (size_t cell = 0; cell < cells; cell++) {
        uint16_t rank = (uint16_t)(sums.r[cell] - 1);
        aims[cell] = marks[cell] ? rank : 0;
    }
}

/* Judges what is lent to rank, ranks, and writes the list. */
static struct otis_answer rank_by(
    void (*rank_cells)(size_t side, const uint8_t *marks, uint16_t *aims),
    size_t side,
    const uint8_t *marks, size_t marks_length,
    uint16_t *aims, size_t aims_length,
    uint8_t *codes, size_t codes_length)
{
    static const uint8_t runs[RUNS] = {
        OTIS_RIGHT, OTIS_DOWN, OTIS_SWAP, OTIS_RIGHT, OTIS_DOWN, OTIS_LEFT, OTIS_SWAP, OTIS_UP, OTIS_LEFT};
    struct otis_answer judged;
    if (side < 1 || side > MOST_SIDE)
        return refused(OTIS_BAD_SIDE, 0);
    if (marks_length != OTIS_CELLS(side) || aims_length != OTIS_CELLS(side))
        return refused(OTIS_BAD_LANE, 0);
    if (codes_length < OTIS_MOVES(side))
        return refused(OTIS_SHORT_LOG, 0);
    judged = judge_marks(marks, marks_length);
    if (judged.number)
        return judged;
    rank_cells(side, marks, aims);
    return write_codes(side, runs, codes);
}

struct otis_answer stepper_rank(
    size_t side,
    const uint8_t *marks, size_t marks_length,
    uint16_t *aims, size_t aims_length,
    uint8_t *codes, size_t codes_length)
{
    return rank_by(rank_by_moves, side, marks, marks_length, aims, aims_length, codes, codes_length);
}

/* ---- rank once more, counted without making the moves: the row sums are kept aside, only one group works between the swaps,
 * and nothing is swapped */

/* One number for each row of each group. */
struct row_sums {
    uint16_t upto[MOST_PLACES][MOST_SIDE];   /* the rows of the group down to this one */
    uint16_t before[MOST_PLACES][MOST_SIDE]; /* all marked cells before this row */
};

static void count_rows(size_t side, size_t rows, uint16_t *sums)
{
    for (size_t column = 1; column < side; column++)
        for (size_t row = 0; row < rows; row++)
            sums[row * side + column] += sums[row * side + column - 1];
}

static void count_down(size_t side, const uint16_t *sums, uint16_t upto[])
{
    upto[0] = sums[side - 1];
    for (size_t row = 1; row < side; row++)
        upto[row] = upto[row - 1] + sums[row * side + side - 1];
}

/* Makes of every group's sum the number of marked cells before the group. */
static void count_before_groups(size_t side, uint16_t totals[])
{
    uint16_t own[MOST_PLACES];
    uint16_t upto[MOST_SIDE];
    memcpy(own, totals, sizeof own);
    count_rows(side, side, totals);
    count_down(side, totals, upto);
    for (size_t row = 0; row < side; row++) {
        uint16_t above = upto[row] - totals[row * side + side - 1];
        for (size_t column = side; column-- > 0;)
            totals[row * side + column] += above - own[row * side + column];
    }
}

static void count_before_rows(
    size_t side, uint16_t before_group, const uint16_t *sums, const uint16_t upto[], uint16_t before[])
{
    for (size_t row = side; row-- > 0;)
        before[row] = before_group + upto[row] - sums[row * side + side - 1];
}

/* Every cell of a row adds the row's number, and a marked cell takes itself off. */
static void add_before_rows(size_t side, const uint8_t *marks, const uint16_t before[], uint16_t *sums)
{
    for (size_t row = 0; row < side; row++)
        for (size_t column = side; column-- > 0;) {
            size_t cell = row * side + column;
            sums[cell] = marks[cell] ? sums[cell] + before[row] - 1 : 0;
        }
}

static void rank_by_count(size_t side, const uint8_t *marks, uint16_t *aims)
{
    size_t places = side * side;
    struct row_sums rows;
    uint16_t totals[MOST_PLACES] = {0};
    for (size_t cell = 0; cell < places * places; cell++)
        aims[cell] = marks[cell];
    count_rows(side, places * side, aims);
    for (size_t group = 0; group < places; group++) {
        count_down(side, aims + group * places, rows.upto[group]);
        totals[group] = rows.upto[group][side - 1];
    }
    count_before_groups(side, totals);
    for (size_t group = 0; group < places; group++)
        count_before_rows(side, totals[group], aims + group * places, rows.upto[group], rows.before[group]);
    for (size_t group = 0; group < places; group++)
        add_before_rows(side, marks + group * places, rows.before[group], aims + group * places);
}

struct otis_answer shortest_rank(
    size_t side,
    const uint8_t *marks, size_t marks_length,
    uint16_t *aims, size_t aims_length,
    uint8_t *codes, size_t codes_length)
{
    return rank_by(rank_by_count, side, marks, marks_length, aims, aims_length, codes, codes_length);
}

/* ---- concentrate and distribute */

struct table {
    size_t side;
    size_t places;
    size_t cells;
    uint32_t *words;
    uint8_t *marks;
    uint16_t *aims;
    uint32_t *spare_words;
    uint8_t *spare_marks;
    uint16_t *spare_aims;
};

struct record {
    uint32_t word;
    uint16_t aim;
};

/* Where the record of an aim heads inside its group. Looked up, since dividing for every record in every move costs more
 * than the move. */
struct headings {
    uint8_t row[OTIS_MAX_CELLS];
    uint8_t column[OTIS_MAX_CELLS];
};

/* Outside the swaps a record heads for its aim's place in a group, between them for its aim's group. */
static void head_for_places(size_t side, struct headings *headings)
{
    size_t aim = 0;
    for (size_t group = 0; group < side * side; group++)
        for (size_t row = 0; row < side; row++)
            for (size_t column = 0; column < side; column++, aim++) {
                headings->row[aim] = (uint8_t)row;
                headings->column[aim] = (uint8_t)column;
            }
}

static void head_for_groups(size_t side, struct headings *headings)
{
    size_t aim = 0;
    for (size_t row = 0; row < side; row++)
        for (size_t column = 0; column < side; column++) {
            memset(headings->row + aim, (int)row, side * side);
            memset(headings->column + aim, (int)column, side * side);
            aim += side * side;
        }
}

static inline void take_spare(const struct table *table, size_t cell)
{
    table->spare_words[cell] = 0;
    table->spare_marks[cell] = 0;
    table->spare_aims[cell] = 0;
}

/* A second record moves up to the front. */
static inline void take_front(const struct table *table, size_t cell)
{
    table->words[cell] = table->spare_words[cell];
    table->marks[cell] = table->spare_marks[cell];
    table->aims[cell] = table->spare_aims[cell];
    take_spare(table, cell);
}

static inline void put_front(const struct table *table, size_t cell, struct record record)
{
    table->words[cell] = record.word;
    table->marks[cell] = 1;
    table->aims[cell] = record.aim;
}

static inline void put_spare(const struct table *table, size_t cell, struct record record)
{
    table->spare_words[cell] = record.word;
    table->spare_marks[cell] = 1;
    table->spare_aims[cell] = record.aim;
}

/* The smaller aim stands in front. */
static inline void put(const struct table *table, size_t cell, struct record record)
{
    if (table->marks[cell] && table->aims[cell] < record.aim) {
        put_spare(table, cell, record);
        return;
    }
    if (table->marks[cell]) {
        struct record waiting = {table->words[cell], table->aims[cell]};
        put_spare(table, cell, waiting);
    }
    put_front(table, cell, record);
}

/* Whether a record has `due` steps or more to go, towards higher coordinates or lower ones. */
static inline bool goes(size_t heading, size_t position, size_t due, bool higher)
{
    return higher ? heading >= position + due : heading + due <= position;
}

/* Hands on the one record of a cell that goes. There is never a second one, and the cell that it goes to has handed on
 * its own already, since the cells are walked from the far end back. */
static inline size_t hand_on(
    const struct table *table, const uint8_t *heading,
    size_t from, size_t to, size_t position, size_t due, bool higher)
{
    if (!table->marks[from])
        return 0;
    if (goes(heading[table->aims[from]], position, due, higher)) {
        struct record record = {table->words[from], table->aims[from]};
        take_front(table, from);
        put(table, to, record);
        return 1;
    }
    if (table->spare_marks[from] && goes(heading[table->spare_aims[from]], position, due, higher)) {
        struct record record = {table->spare_words[from], table->spare_aims[from]};
        take_spare(table, from);
        put(table, to, record);
        return 1;
    }
    return 0;
}

static size_t step_right(const struct table *table, const struct headings *headings, size_t due)
{
    size_t moved = 0;
    for (size_t row = 0; row < table->cells; row += table->side)
        for (size_t column = table->side - 1; column-- > 0;)
            moved += hand_on(table, headings->column, row + column, row + column + 1, column, due, true);
    return moved;
}

static size_t step_left(const struct table *table, const struct headings *headings, size_t due)
{
    size_t moved = 0;
    for (size_t row = 0; row < table->cells; row += table->side)
        for (size_t column = 1; column < table->side; column++)
            moved += hand_on(table, headings->column, row + column, row + column - 1, column, due, false);
    return moved;
}

static size_t step_up(const struct table *table, const struct headings *headings, size_t due)
{
    size_t moved = 0, side = table->side;
    for (size_t group = 0; group < table->cells; group += table->places)
        for (size_t row = 1; row < side; row++)
            for (size_t cell = group + row * side; cell < group + (row + 1) * side; cell++)
                moved += hand_on(table, headings->row, cell, cell - side, row, due, false);
    return moved;
}

static size_t step_down(const struct table *table, const struct headings *headings, size_t due)
{
    size_t moved = 0, side = table->side;
    for (size_t group = 0; group < table->cells; group += table->places)
        for (size_t row = side - 1; row-- > 0;)
            for (size_t cell = group + row * side; cell < group + (row + 1) * side; cell++)
                moved += hand_on(table, headings->row, cell, cell + side, row, due, true);
    return moved;
}

static inline void exchange(const struct table *table, size_t one, size_t other)
{
    struct record record = {table->words[one], table->aims[one]};
    uint8_t mark = table->marks[one];
    table->words[one] = table->words[other];
    table->marks[one] = table->marks[other];
    table->aims[one] = table->aims[other];
    table->words[other] = record.word;
    table->marks[other] = mark;
    table->aims[other] = record.aim;
}

/* At a swap every record stands by itself, so the spare lanes hold nothing. */
static size_t step_swap(const struct table *table)
{
    size_t moved = 0, places = table->places;
    for (size_t group = 0; group < places; group++)
        for (size_t place = group + 1; place < places; place++) {
            size_t one = group * places + place, other = place * places + group;
            size_t going = (size_t)table->marks[one] + table->marks[other];
            if (going)
                exchange(table, one, other);
            moved += going;
        }
    return moved;
}

static size_t step(const struct table *table, const struct headings *headings, uint8_t code, size_t due)
{
    switch (code) {
    case OTIS_RIGHT:
        return step_right(table, headings, due);
    case OTIS_LEFT:
        return step_left(table, headings, due);
    case OTIS_UP:
        return step_up(table, headings, due);
    case OTIS_DOWN:
        return step_down(table, headings, due);
    default:
        return step_swap(table);
    }
}

static void clear_unmarked(const struct table *table)
{
    for (size_t cell = 0; cell < table->cells; cell++)
        if (!table->marks[cell]) {
            table->words[cell] = 0;
            table->aims[cell] = 0;
        }
    memset(table->spare_words, 0, table->cells * sizeof *table->spare_words);
    memset(table->spare_marks, 0, table->cells * sizeof *table->spare_marks);
    memset(table->spare_aims, 0, table->cells * sizeof *table->spare_aims);
}

/* Makes the runs. Going to the front a record goes as soon as it can; going back it goes as late as it can, since then the
 * states come in the opposite order. */
static void make_moves(const struct table *table, const uint8_t runs[RUNS], bool back, uint16_t *moved)
{
    struct headings headings;
    size_t swaps = 0;
    for (size_t run = 0; run < RUNS; run++) {
        bool starts = run == 0 || runs[run - 1] == OTIS_SWAP;
        if (starts && swaps == 1)
            head_for_groups(table->side, &headings);
        else if (starts && runs[run] != OTIS_SWAP)
            head_for_places(table->side, &headings);
        for (size_t left = run_length(table->side, runs[run]); left > 0; left--)
            *moved++ = (uint16_t)step(table, &headings, runs[run], back ? left : 1);
        swaps += runs[run] == OTIS_SWAP;
    }
}

static struct otis_answer judge_ranks(const struct table *table)
{
    size_t rank = 0;
    for (size_t cell = 0; cell < table->cells; cell++)
        if (table->marks[cell] && table->aims[cell] != rank++)
            return refused(OTIS_BAD_AIM, cell);
    return accepted;
}

static struct otis_answer judge_aims(const struct table *table)
{
    size_t least = 0;
    bool unmarked = false;
    for (size_t cell = 0; cell < table->cells; cell++) {
        if (!table->marks[cell]) {
            unmarked = true;
            continue;
        }
        if (unmarked || table->aims[cell] < least || table->aims[cell] >= table->cells)
            return refused(OTIS_BAD_AIM, cell);
        least = (size_t)table->aims[cell] + 1;
    }
    return accepted;
}

static struct otis_answer judge_lengths(size_t side, const size_t lanes[LANES], const size_t logs[LOGS])
{
    if (side < 1 || side > MOST_SIDE)
        return refused(OTIS_BAD_SIDE, 0);
    for (size_t lane = 0; lane < LANES; lane++)
        if (lanes[lane] != OTIS_CELLS(side))
            return refused(OTIS_BAD_LANE, 0);
    for (size_t log = 0; log < LOGS; log++)
        if (logs[log] < OTIS_MOVES(side))
            return refused(OTIS_SHORT_LOG, 0);
    return accepted;
}

/* Judges the records, and makes the moves of concentrate, or back. */
static struct otis_answer make_run(const struct table *table, bool back, uint8_t *codes, uint16_t *moved)
{
    static const uint8_t to_front[RUNS] = {
        OTIS_RIGHT, OTIS_LEFT, OTIS_UP, OTIS_DOWN, OTIS_SWAP, OTIS_RIGHT, OTIS_LEFT, OTIS_UP, OTIS_SWAP};
    static const uint8_t to_aims[RUNS] = {
        OTIS_SWAP, OTIS_DOWN, OTIS_RIGHT, OTIS_LEFT, OTIS_SWAP, OTIS_UP, OTIS_DOWN, OTIS_RIGHT, OTIS_LEFT};
    const uint8_t *runs = back ? to_aims : to_front;
    struct otis_answer judged = judge_marks(table->marks, table->cells);
    if (!judged.number)
        judged = back ? judge_aims(table) : judge_ranks(table);
    if (judged.number)
        return judged;
    clear_unmarked(table);
    make_moves(table, runs, back, moved);
    return write_codes(table->side, runs, codes);
}

struct otis_answer stepper_concentrate(
    size_t side,
    uint32_t *words, size_t words_length,
    uint8_t *marks, size_t marks_length,
    uint16_t *aims, size_t aims_length,
    uint32_t *spare_words, size_t spare_words_length,
    uint8_t *spare_marks, size_t spare_marks_length,
    uint16_t *spare_aims, size_t spare_aims_length,
    uint8_t *codes, size_t codes_length,
    uint16_t *moved, size_t moved_length)
{
    size_t lanes[LANES] = {
        words_length, marks_length, aims_length, spare_words_length, spare_marks_length, spare_aims_length};
    size_t logs[LOGS] = {codes_length, moved_length};
    struct table table = {
        side, side * side, OTIS_CELLS(side), words, marks, aims, spare_words, spare_marks, spare_aims};
    struct otis_answer judged = judge_lengths(side, lanes, logs);
    return judged.number ? judged : make_run(&table, false, codes, moved);
}

struct otis_answer stepper_distribute(
    size_t side,
    uint32_t *words, size_t words_length,
    uint8_t *marks, size_t marks_length,
    uint16_t *aims, size_t aims_length,
    uint32_t *spare_words, size_t spare_words_length,
    uint8_t *spare_marks, size_t spare_marks_length,
    uint16_t *spare_aims, size_t spare_aims_length,
    uint8_t *codes, size_t codes_length,
    uint16_t *moved, size_t moved_length)
{
    size_t lanes[LANES] = {
        words_length, marks_length, aims_length, spare_words_length, spare_marks_length, spare_aims_length};
    size_t logs[LOGS] = {codes_length, moved_length};
    struct table table = {
        side, side * side, OTIS_CELLS(side), words, marks, aims, spare_words, spare_marks, spare_aims};
    struct otis_answer judged = judge_lengths(side, lanes, logs);
    return judged.number ? judged : make_run(&table, true, codes, moved);
}
