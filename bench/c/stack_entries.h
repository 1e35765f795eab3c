/* For c/stack.c alone: the entries that are in no archive but the one that tests/stack makes of rattle/measured.txt, and the rows of
 * the table. A replay has captures at side 3 at most, so its row is that of side 3. */
#include "speed_words.h"

enum { MOST_JOB = 1 << 17, MOST_OUT = 196608, MOST_CODES = 64 };

typedef struct otis_answer cut_function(
    size_t, size_t, uint32_t *, size_t, uint8_t *, size_t, uint16_t *, size_t, uint32_t *, size_t, uint8_t *, size_t, uint16_t *,
    size_t);

cut_function measured_concentrate_cut, measured_distribute_cut;
size_t measured_job(const uint8_t *text, size_t length, uint8_t *out);
size_t measured_replay(const uint8_t *job, size_t job_length, const uint8_t *text, size_t length, uint8_t *out);

static uint8_t job[MOST_JOB], out[MOST_OUT], all_codes[MOST_CODES]; /* the list of data sum is longer than those of the header */

static void call_broadcast(void)
{
    answer = measured_broadcast(side, OTIS_CELLS(side) / 3, words, OTIS_CELLS(side), all_codes, sizeof all_codes);
}

static void call_data_sum(void)
{
    answer = measured_data_sum(side, words, OTIS_CELLS(side), all_codes, sizeof all_codes);
}

static void call_prefix_sum(void)
{
    answer = measured_prefix_sum(side, words, OTIS_CELLS(side), all_codes, sizeof all_codes);
}

/* Along every axis, with either edge, up to one that is refused. */
static void call_shift(void)
{
    answer.number = OTIS_ACCEPTED;
    for (size_t which = 0; which < 8 && answer.number == OTIS_ACCEPTED; which++)
        answer = measured_shift(side, which / 2, which % 2, 1, words, OTIS_CELLS(side), all_codes, sizeof all_codes);
}

static void call_plain_broadcast(void)
{
    answer = measured_plain_broadcast(side, OTIS_CELLS(side) / 3, words, OTIS_CELLS(side));
}

static void call_plain_data_sum(void)
{
    answer = measured_plain_data_sum(side, words, OTIS_CELLS(side));
}

static void call_plain_prefix_sum(void)
{
    answer = measured_plain_prefix_sum(side, words, OTIS_CELLS(side));
}

static void call_plain_shift(void)
{
    answer.number = OTIS_ACCEPTED;
    for (size_t which = 0; which < 8 && answer.number == OTIS_ACCEPTED; which++)
        answer = measured_plain_shift(side, which / 2, which % 2, 1, words, OTIS_CELLS(side));
}

static void cut_by(cut_function *cut)
{
    size_t cells = OTIS_CELLS(side);
    answer = cut(
        side, OTIS_MOVES(side), words, cells, marks, cells, aims, cells, spare_words, cells, spare_marks, cells, spare_aims, cells);
}

static void call_concentrate_cut(void)
{
    mark_by_steps();
    cut_by(measured_concentrate_cut);
}

static void call_distribute_cut(void)
{
    mark_front();
    cut_by(measured_distribute_cut);
}

/* The job text of the marked cells; it is written where captures are, and copied, so that there is one writer. */
static size_t write_job(void)
{
    size_t length;
    captured = 0;
    for (const char *word = "side\t"; *word; word++)
        capture[captured++] = (uint8_t)*word;
    put_number(side, '\n');
    for (size_t cell = 0; cell < OTIS_CELLS(side); cell++)
        if (marks[cell]) {
            put_number(cell, '\t');
            put_number(words[cell], '\n');
        }
    for (length = 0; length < captured; length++)
        job[length] = capture[length];
    return length;
}

static void fill_words(void)
{
    for (size_t cell = 0; cell < OTIS_CELLS(side); cell++)
        words[cell] = (uint32_t)cell;
}

/* An answer begins with the heading of the moves, a refusal with another letter. */
static void call_job(void)
{
    mark_by_steps();
    fill_words();
    answer.number = measured_job(job, write_job(), out) > 0 && out[0] == 'm' ? OTIS_ACCEPTED : OTIS_BAD_CAPTURE;
}

/* As in call_replay: agrees, or differs where half of the cells are marked. */
static void call_replay_line(void)
{
    size_t length;
    mark_by_steps();
    fill_words();
    length = write_job();
    write_capture();
    size_t written = measured_replay(job, length, capture, captured, out);
    answer.number = written > 0 && out[0] == (step == 2 ? 'd' : 'a') ? OTIS_ACCEPTED : OTIS_BAD_CAPTURE;
}

static const struct function others[] = {
    {"concentrate up to a cut", call_concentrate_cut, 0, MAX_SIDE},
    {"distribute up to a cut", call_distribute_cut, 0, MAX_SIDE},
    {"broadcast", call_broadcast, 0, MAX_SIDE},
    {"data sum", call_data_sum, 0, MAX_SIDE},
    {"prefix sum", call_prefix_sum, 0, MAX_SIDE},
    {"shift", call_shift, 0, MAX_SIDE},
    {"plain broadcast", call_plain_broadcast, 0, MAX_SIDE},
    {"plain data sum", call_plain_data_sum, 0, MAX_SIDE},
    {"plain prefix sum", call_plain_prefix_sum, 0, MAX_SIDE},
    {"plain shift", call_plain_shift, 0, MAX_SIDE},
    {"a job's text", call_job, 0, MAX_SIDE},
    {"a replay's texts", call_replay_line, 0, CAPTURED_SIDE},
};

static int print_rows(const struct function rows[], size_t count)
{
    for (size_t at = 0; at < count; at++) {
        side = rows[at].last;
        size_t most = most_here(&rows[at]);
        if (most == 0)
            return 0;
        printf("| %s%s | %zu |\n", rows[at].name, side == MAX_SIDE ? "" : ", at side 3", most);
    }
    return 1;
}
