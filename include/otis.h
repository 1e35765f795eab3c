/* Rank, concentrate and distribute of a synchronous SIMD OTIS-Mesh of side 1 to 8, and the replay of what a real board did in
 * concentrate.
 *
 * The functions are in the archive libotis.a, which `make lib` writes. It is for x86-64 Linux and no other machine. They keep
 * nothing between two calls, take no memory and write no file; calls on tables that do not overlap may run at the same time.
 * This file is for C99 and later, and for C++.
 *
 * START HERE. Compare otis_version() with OTIS_VERSION. Put the arrays into struct otis_front, otis_spare and otis_log, and
 * call otis_rank_board, otis_concentrate_board and otis_distribute_board, or the plain three (otis_plain_rank_board and so
 * on). Look at the answer's number: 0 is accepted. bench/c/frame.c does all of it. docs/MODEL.md tells of the board and its
 * moves. For a capture of the logic analyser call otis_replay, and look at its outcome.
 *
 * TWO ENGINES. Each operation is there twice, with the same table and the same answer at the end. The replay is there once.
 *     stepping    otis_rank, otis_concentrate, otis_distribute make every move of the board and write the move list: for who
 *                 wants the list, which is loaded into the board's sequencer.
 *     plain       otis_plain_rank, otis_plain_concentrate, otis_plain_distribute give the final table at once, make no moves
 *                 and take no log: for who wants the table alone.
 *
 * THE BOARD. Side s has s * s groups of s * s cells, s * s * s * s cells in all (OTIS_CELLS). Cell P of group G has the
 * index G * s * s + P, and place P lies at row P / s, column P % s.
 *
 * LANES. A lane is an array with one entry for each cell, in the order of the index: its length is exactly OTIS_CELLS(s).
 *     words       0 to 4294967295
 *     marks       0 or 1: whether the cell holds a record
 *     aims        a cell number: where the record goes
 *     spare_*     the same three for a cell's second record during a run. Whatever they hold before a call is never looked
 *                 at; after an accepted call they hold 0 in every entry. The plain functions take them as well, the replay
 *                 does not.
 *
 * LOGS, of the stepping functions alone. A log has one entry for each move, OTIS_MOVES(s) of them. It may be longer; its tail
 * then stays as it was.
 *     codes       the move: OTIS_SWAP, OTIS_RIGHT, OTIS_LEFT, OTIS_UP or OTIS_DOWN
 *     moved       how many records changed cell in the move
 *
 * SLICES. Each array is passed as a pointer and its number of entries. The caller owns all of it, before, during and after
 * the call; nothing is kept. A pointer may be null only where its length is 0. No two arrays of one call may overlap, and
 * nobody else may write them (or read those that the call writes) until it returns.
 *
 * ANSWERS. An accepted call has number 0, place 0 and the numbers of electronic moves and of swaps on the operation's move
 * list, made or not: 7 * (s - 1) and 2. A refused call has its number and place, and both counts 0. The replay answers with an
 * outcome, and has numbers and places where that is a refusal. A REFUSAL CHANGES NOTHING in any array. Where more than one
 * applies, the lowest number is given:
 *
 *     number               given exactly when                                              place
 *     OTIS_BAD_SIDE    1   side is not 1 to 8                                              0
 *     OTIS_BAD_LANE    2   a lane, front or spare, is not exactly OTIS_CELLS(side) long    0
 *     OTIS_SHORT_LOG   3   a log is shorter than OTIS_MOVES(side) (the plain ones never)   0
 *     OTIS_BAD_MARK    5   an entry of marks is neither 0 nor 1                            first such cell
 *     OTIS_BAD_AIM     6   the aims do not fit: see each function (rank never)             first such cell
 *     OTIS_BAD_CAPTURE 10  the capture is none: see otis_replay (no other function)        first bad line, or 0
 *
 * (4, 7 and 8 belong to operations and texts that are not offered here; no call answers 9.)
 *
 * WHAT IS TRUSTED. The functions are proved to do what is said here on every side and on every array that is as long as its
 * length says. Nothing proves this file: that these declarations name the same parameters, in the same order and of the
 * same widths as the archive, that a length is true and that arrays do not overlap. A wrong declaration, here or in
 * another language, is seen by no compiler and no linker. The differential tests in bench/ would notice one in this file,
 * and otis_version() tells of an archive that belongs to another one.
 */
#ifndef OTIS_H
#define OTIS_H

#include <stddef.h>
#include <stdint.h>

#ifdef __cplusplus
extern "C" {
#endif

/* The version of this file: another number means other functions, other parameters or another answer. No linker notices a
 * change of the last two, so compare it with otis_version(), which is the archive's own, before any other call. */
#define OTIS_VERSION 3
uint32_t otis_version(void);

/* How many cells a board of that side has: the length of every lane. Only for sides 1 to 8. */
#define OTIS_CELLS(side) ((size_t)(side) * (size_t)(side) * (size_t)(side) * (size_t)(side))

/* How many moves each of the three operations makes: the least length of every log, and the most moves of a capture. Only for
 * sides 1 to 8. */
#define OTIS_MOVES(side) (7 * ((size_t)(side) - 1) + 2)

/* The greatest of them, those of side 8: for arrays that serve every side. */
#define OTIS_MAX_CELLS 4096
#define OTIS_MAX_MOVES 51

/* How many bytes of stack a call takes at most, at any side: for the size of a thread's stack. Measured by painting the stack
 * (bench/c/stack.c): rank takes some 66,000, concentrate and distribute some 2,000, the replay some 8,000. The plain
 * number is for each of the plain functions, which keep no table. The tests hold the archive to these numbers; they are those of
 * the archive that this header came with, and an older one took more. */
#define OTIS_RANK_STACK 73728
#define OTIS_CONCENTRATE_STACK 4096
#define OTIS_DISTRIBUTE_STACK 4096
#define OTIS_PLAIN_STACK 1024
#define OTIS_REPLAY_STACK 24576

/* The entries of codes. */
enum otis_code {
    OTIS_SWAP = 0,
    OTIS_RIGHT = 1,
    OTIS_LEFT = 2,
    OTIS_UP = 3,
    OTIS_DOWN = 4
};

/* The numbers of an answer. */
enum otis_number {
    OTIS_ACCEPTED = 0,
    OTIS_BAD_SIDE = 1,
    OTIS_BAD_LANE = 2,
    OTIS_SHORT_LOG = 3,
    OTIS_BAD_MARK = 5,
    OTIS_BAD_AIM = 6,
    OTIS_BAD_CAPTURE = 10
};

struct otis_answer {
    size_t number;     /* 0, or the number of the refusal */
    size_t place;      /* the cell that a refusal names, else 0 */
    size_t electronic; /* electronic moves on the list */
    size_t swaps;      /* swaps on the list */
};

/* Ranks the marked cells.
 *
 *     marks   lane, read
 *     aims    lane, written: in a marked cell the number of marked cells of smaller index, so ranks start at 0;
 *             in any other cell 0. Its entries before are never looked at.
 *     codes   log, written: right, down, swap, right, down, left, swap, up, left, each run s - 1 moves and a swap one
 *
 * Refusals: 1, 2, 3, 5.
 */
struct otis_answer otis_rank(
    size_t side,
    const uint8_t *marks, size_t marks_length,
    uint16_t *aims, size_t aims_length,
    uint8_t *codes, size_t codes_length);

/* Concentrates the marked cells to the front of the board. Every marked cell's aim must be its rank, as otis_rank gives it.
 *
 *     words, marks, aims   lanes, read and written. With b cells marked, afterwards cell r, r < b, holds the word of rank
 *                          r, mark 1 and aim r, and every other cell 0 in all three. Words and aims of unmarked cells are
 *                          ignored and cleared.
 *     spare_words, spare_marks, spare_aims   lanes, written: 0 afterwards
 *     codes   log, written: right, left, up, down, swap, right, left, up, swap, each run s - 1 moves and a swap one
 *     moved   log, written
 *
 * Refusals: 1, 2, 3, 5; 6 at the first marked cell whose aim is not its rank.
 */
struct otis_answer otis_concentrate(
    size_t side,
    uint32_t *words, size_t words_length,
    uint8_t *marks, size_t marks_length,
    uint16_t *aims, size_t aims_length,
    uint32_t *spare_words, size_t spare_words_length,
    uint8_t *spare_marks, size_t spare_marks_length,
    uint16_t *spare_aims, size_t spare_aims_length,
    uint8_t *codes, size_t codes_length,
    uint16_t *moved, size_t moved_length);

/* Takes the records in the first cells to the cells that their aims name: concentrate backwards, state by state.
 *
 *     words, marks, aims   lanes, read and written. The marks must be 1 exactly in the cells 0 to b - 1 for some b, their
 *                          aims strictly rising and below OTIS_CELLS(side). Afterwards the cell that an aim names holds
 *                          that record's word, mark 1 and the same aim, and every other cell 0 in all three. Words and
 *                          aims of unmarked cells are ignored and cleared.
 *     spare_words, spare_marks, spare_aims   lanes, written: 0 afterwards
 *     codes   log, written: swap, down, right, left, swap, up, down, right, left, each run s - 1 moves and a swap one
 *     moved   log, written
 *
 * Refusals: 1, 2, 3, 5; 6 at the first cell that is marked after an unmarked one, or whose marked aim is not below
 * OTIS_CELLS(side), or not above the aim of the cell before it.
 */
struct otis_answer otis_distribute(
    size_t side,
    uint32_t *words, size_t words_length,
    uint8_t *marks, size_t marks_length,
    uint16_t *aims, size_t aims_length,
    uint32_t *spare_words, size_t spare_words_length,
    uint8_t *spare_marks, size_t spare_marks_length,
    uint16_t *spare_aims, size_t spare_aims_length,
    uint8_t *codes, size_t codes_length,
    uint16_t *moved, size_t moved_length);

/* The plain functions. Each takes the lanes of the stepping function of its name and no log. The answer and all lanes
 * afterwards, spare ones too, are what that function gives where its logs are long enough: so refusal 3 never comes. */

/* The final table of otis_rank. Refusals: 1, 2, 5. */
struct otis_answer otis_plain_rank(
    size_t side,
    const uint8_t *marks, size_t marks_length,
    uint16_t *aims, size_t aims_length);

/* The final table of otis_concentrate. Refusals: 1, 2, 5, 6. */
struct otis_answer otis_plain_concentrate(
    size_t side,
    uint32_t *words, size_t words_length,
    uint8_t *marks, size_t marks_length,
    uint16_t *aims, size_t aims_length,
    uint32_t *spare_words, size_t spare_words_length,
    uint8_t *spare_marks, size_t spare_marks_length,
    uint16_t *spare_aims, size_t spare_aims_length);

/* The final table of otis_distribute. Refusals: 1, 2, 5, 6. */
struct otis_answer otis_plain_distribute(
    size_t side,
    uint32_t *words, size_t words_length,
    uint8_t *marks, size_t marks_length,
    uint16_t *aims, size_t aims_length,
    uint32_t *spare_words, size_t spare_words_length,
    uint8_t *spare_marks, size_t spare_marks_length,
    uint16_t *spare_aims, size_t spare_aims_length);

/* What a replay found. */
enum otis_outcome {
    OTIS_AGREES = 0,  /* the capture has every move of the list, and nothing in it is not the rule's */
    OTIS_DIFFERS = 1, /* the board left the rule */
    OTIS_EARLY = 2,   /* nothing in the capture is not the rule's, but moves of the list are missing at its end */
    OTIS_REFUSED = 3  /* the table or the capture is refused, whatever else it holds */
};

struct otis_replayed {
    size_t outcome; /* one of otis_outcome */
    size_t move;    /* the move that differs, or the last one of a capture that ends early; else 0 */
    size_t number;  /* the number of the refusal, else 0 */
    size_t place;   /* the cell or the line that a refusal names, else 0 */
};

/* Holds what a board did in concentrate to the move rule, from the table that it started with. Everything is only read.
 *
 *     words, marks, aims   lanes, read: the table before the first move. Every marked cell's aim must be its rank, as otis_rank
 *                          gives it. Words and aims of unmarked cells are ignored.
 *     capture              bytes, read: the text that the logic analyser exports. Any length is taken, 0 too.
 *
 * A capture is lines, each ended by LF, its fields parted by one tab. A line of two fields is a move: its number, from 1, and
 * its code. A line of four is a record after that move: cell, slot (0 front, 1 spare), word and aim; the records of a move
 * stand in rising order of cell and slot. A number is decimal, has no leading zero and is at most 4294967295.
 *
 * A move differs where its code is not that of the list of otis_concentrate, or where the records after it are not those of
 * the rule: each with its cell, slot, word and aim, and no others. Of a cell's two records that of the smaller aim is in front.
 *
 *     outcome         given where the capture is not refused and                         move
 *     OTIS_DIFFERS    a move differs                                                     the first such move
 *     OTIS_EARLY      none does, and it has fewer moves than the list                    its last move, 0 if it is empty
 *     OTIS_AGREES     none does, and it has all moves of the list                        0
 *
 * Refusals: 1, 2, 5; 6 at the first marked cell whose aim is not its rank; 10 at line 0 where the capture has more than
 * 65536 bytes or the side is above 3; else 10 at the first line, counted from 1, that
 *     - has neither two fields nor four, or a field that is no such number, or no LF at its end;
 *     - is a move whose number is not one more than that of the move before it, not 1 for the first one, or past the list;
 *     - is a record before any move, of a cell or a slot that there is not, or of a cell and slot not above those of the
 *       record before it in its move.
 * A refusal anywhere in the capture comes before a difference anywhere in it. Any number is a good code, word and aim: one
 * that the rule does not have is a difference.
 */
struct otis_replayed otis_replay(
    size_t side,
    const uint32_t *words, size_t words_length,
    const uint8_t *marks, size_t marks_length,
    const uint16_t *aims, size_t aims_length,
    const uint8_t *capture, size_t capture_length);

/* Rank, concentrate and distribute of both engines over arrays put together by name, so that no two of them can be exchanged
 * unseen: front and spare lanes have types of their own. Lengths, refusals and results are those of the functions above. */

/* The records, and during a run the front one of each cell: each array has so many cells. */
struct otis_front {
    uint32_t *words;
    uint8_t *marks;
    uint16_t *aims;
    size_t cells;
};

/* The second record of each cell during a run: each array has so many cells. */
struct otis_spare {
    uint32_t *words;
    uint8_t *marks;
    uint16_t *aims;
    size_t cells;
};

/* The logs: each array has room for so many moves. */
struct otis_log {
    uint8_t *codes;
    uint16_t *moved;
    size_t moves;
};

/* Reads front.marks; writes front.aims and log.codes, and nothing else: the other pointers may be null. */
static inline struct otis_answer otis_rank_board(size_t side, struct otis_front front, struct otis_log log)
{
    return otis_rank(side, front.marks, front.cells, front.aims, front.cells, log.codes, log.moves);
}

static inline struct otis_answer otis_concentrate_board(
    size_t side, struct otis_front front, struct otis_spare spare, struct otis_log log)
{
    return otis_concentrate(
        side, front.words, front.cells, front.marks, front.cells, front.aims, front.cells, spare.words, spare.cells,
        spare.marks, spare.cells, spare.aims, spare.cells, log.codes, log.moves, log.moved, log.moves);
}

static inline struct otis_answer otis_distribute_board(
    size_t side, struct otis_front front, struct otis_spare spare, struct otis_log log)
{
    return otis_distribute(
        side, front.words, front.cells, front.marks, front.cells, front.aims, front.cells, spare.words, spare.cells,
        spare.marks, spare.cells, spare.aims, spare.cells, log.codes, log.moves, log.moved, log.moves);
}

/* Reads front.marks; writes front.aims and nothing else: front.words may be null. */
static inline struct otis_answer otis_plain_rank_board(size_t side, struct otis_front front)
{
    return otis_plain_rank(side, front.marks, front.cells, front.aims, front.cells);
}

static inline struct otis_answer otis_plain_concentrate_board(
    size_t side, struct otis_front front, struct otis_spare spare)
{
    return otis_plain_concentrate(
        side, front.words, front.cells, front.marks, front.cells, front.aims, front.cells, spare.words, spare.cells,
        spare.marks, spare.cells, spare.aims, spare.cells);
}

static inline struct otis_answer otis_plain_distribute_board(
    size_t side, struct otis_front front, struct otis_spare spare)
{
    return otis_plain_distribute(
        side, front.words, front.cells, front.marks, front.cells, front.aims, front.cells, spare.words, spare.cells,
        spare.marks, spare.cells, spare.aims, spare.cells);
}

#ifdef __cplusplus
}
#endif

#endif
