//! The bench cases of document 01, starred and not, on the second model; and the sentences around them, and of document 02, that
//! can be run. Full runs are made by the model that steps, after its plain fellow was held to it.

use otis_bench::frames::{self, Dice, KINDS};
use otis_bench::model::answers::Answer;
use otis_bench::model::board::Board;
use otis_bench::model::cases;
use otis_bench::model::job;
use otis_bench::model::moves::{self, Edge, Line, DOWN, LEFT, RIGHT, SWAP, UP};
use otis_bench::model::plain;
use otis_bench::model::records::{self, Lanes, Lent, Operation};
use otis_bench::model::words;

const EXAMPLE: &str = "side\t2\n1\t70\n6\t71\n11\t72\n";

const EXAMPLE_PRINTED: &str = "move\tkind\tway\tmoved
1\tE\tright\t1
2\tE\tleft\t2
3\tE\tup\t1
4\tE\tdown\t0
5\tO\tswap\t0
6\tE\tright\t0
7\tE\tleft\t1
8\tE\tup\t1
9\tO\tswap\t2
all\t7\t2\t8
0\t70
1\t71
2\t72
";

fn accepted(electronic: usize, swaps: usize) -> Answer {
    Answer { number: 0, place: 0, electronic, swaps }
}

fn refused(number: usize, place: usize) -> Answer {
    Answer { number, place, electronic: 0, swaps: 0 }
}

fn log_length(side: usize) -> usize {
    7 * (side - 1) + 2
}

/// Records at these cells, each aimed at its rank, the word 100 + rank; other words, aims and the spare lanes not 0.
fn ranked(side: usize, marked: &[usize]) -> Lent {
    let cells = side.pow(4);
    let waste = Lanes { words: vec![9; cells], marks: vec![0; cells], aims: vec![9; cells] };
    let mut front = waste.clone();
    for (rank, &cell) in marked.iter().enumerate() {
        front.words[cell] = 100 + rank as u32;
        front.marks[cell] = 1;
        front.aims[cell] = rank as u16;
    }
    let spare = Lanes { marks: vec![9; cells], ..waste };
    Lent { front, spare, codes: vec![9; log_length(side)], moved: vec![9; log_length(side)] }
}

/// Records in the first cells, aimed at these.
fn aimed(side: usize, aims: &[usize]) -> Lent {
    let mut lent = ranked(side, &(0..aims.len()).collect::<Vec<_>>());
    for (cell, &aim) in aims.iter().enumerate() {
        lent.front.aims[cell] = aim as u16;
    }
    lent
}

/// The lanes with the words 100, 101, .. at these cells, each aimed as told, and 0 elsewhere.
fn standing(side: usize, cells: &[usize], aims: &[usize]) -> Lanes {
    let mut lanes = Lanes::empty(side.pow(4));
    for (rank, &cell) in cells.iter().enumerate() {
        lanes.words[cell] = 100 + rank as u32;
        lanes.marks[cell] = 1;
        lanes.aims[cell] = aims[rank] as u16;
    }
    lanes
}

fn upto(count: usize) -> Vec<usize> {
    (0..count).collect()
}

// ---- stepped, after the plain model was held to it

/// A log that is long enough for every list.
const LONG: usize = 64;

const LINES: [Line; 4] = [Line::MeshRow, Line::MeshColumn, Line::GroupRow, Line::GroupColumn];
const EDGES: [Edge; 2] = [Edge::ZeroFill, Edge::Circular];

/// An operation on words: plain leaves and answers what stepping does where the log is long enough.
fn on_words(
    words: &mut [u32],
    codes: &mut [u8],
    stepping: impl Fn(&mut [u32], &mut [u8]) -> Answer,
    plain: impl Fn(&mut [u32]) -> Answer,
) -> Answer {
    let (mut at_once, mut stepped) = (words.to_vec(), words.to_vec());
    assert_eq!(plain(&mut at_once), stepping(&mut stepped, &mut [9; LONG]));
    assert_eq!(at_once, stepped);
    stepping(words, codes)
}

fn broadcast(side: usize, words: &mut [u32], codes: &mut [u8], cell: usize) -> Answer {
    let stepping = |words: &mut [u32], codes: &mut [u8]| words::broadcast(side, words, codes, cell);
    on_words(words, codes, stepping, |words| plain::broadcast(side, words, cell))
}

fn data_sum(side: usize, words: &mut [u32], codes: &mut [u8]) -> Answer {
    let stepping = |words: &mut [u32], codes: &mut [u8]| words::data_sum(side, words, codes);
    on_words(words, codes, stepping, |words| plain::data_sum(side, words))
}

fn prefix_sum(side: usize, words: &mut [u32], codes: &mut [u8]) -> Answer {
    let stepping = |words: &mut [u32], codes: &mut [u8]| words::prefix_sum(side, words, codes);
    on_words(words, codes, stepping, |words| plain::prefix_sum(side, words))
}

fn shift(side: usize, words: &mut [u32], codes: &mut [u8], line: Line, edge: Edge, by: i32) -> Answer {
    let stepping = |words: &mut [u32], codes: &mut [u8]| words::shift(side, words, codes, line, edge, by);
    on_words(words, codes, stepping, |words| plain::shift(side, words, line, edge, by))
}

fn rank(side: usize, marks: &[u8], aims: &mut [u16], codes: &mut [u8]) -> Answer {
    let (mut at_once, mut stepped) = (aims.to_vec(), aims.to_vec());
    let answer = words::rank(side, marks, &mut stepped, &mut [9; LONG]);
    assert_eq!(plain::rank(side, marks, &mut at_once), answer);
    assert_eq!(at_once, stepped);
    words::rank(side, marks, aims, codes)
}

fn concentrate(side: usize, lent: &mut Lent) -> Answer {
    full(Operation::Concentrate, side, lent)
}

fn distribute(side: usize, lent: &mut Lent) -> Answer {
    full(Operation::Distribute, side, lent)
}

fn full(operation: Operation, side: usize, lent: &mut Lent) -> Answer {
    let (mut front, mut spare) = (lent.front.clone(), lent.spare.clone());
    let mut stepped = Lent { codes: vec![9; LONG], moved: vec![9; LONG], ..lent.clone() };
    let answer = records::full(operation, side, &mut stepped);
    assert_eq!(plain::at_once(operation, side, &mut front, &mut spare), answer);
    assert_eq!((front, spare), (stepped.front, stepped.spare));
    records::full(operation, side, lent)
}

// ---- the bench cases

#[test]
fn side_1_with_its_one_cell_marked() {
    let mut lent = ranked(1, &[0]);
    assert_eq!(concentrate(1, &mut lent), accepted(0, 2));
    assert_eq!(lent.moved, [0, 0]);
    assert_eq!(lent.codes, [0, 0]);
    assert_eq!(lent.front, standing(1, &[0], &[0]));
    assert_eq!(lent.spare, Lanes::empty(1));
}

#[test]
fn side_2_marks_at_0_4_5_meet_in_cell_5() {
    let start = ranked(2, &[0, 4, 5]);
    let (mut front, mut spare) = (start.front.clone(), start.spare.clone());
    assert_eq!(records::cut(Operation::Concentrate, 2, &mut front, &mut spare, 1), accepted(1, 0));
    assert_eq!((front.words[5], front.marks[5], front.aims[5]), (101, 1, 1));
    assert_eq!((spare.words[5], spare.marks[5], spare.aims[5]), (102, 1, 2));
    assert_eq!(front.marks.iter().sum::<u8>(), 2);
    assert_eq!(spare.marks.iter().sum::<u8>(), 1);

    let mut lent = start;
    assert_eq!(concentrate(2, &mut lent), accepted(7, 2));
    assert_eq!(lent.front, standing(2, &[0, 1, 2], &[0, 1, 2]));
    assert_eq!(lent.spare, Lanes::empty(16));
}

#[test]
fn the_example_job_byte_for_byte() {
    assert_eq!(job::printed(EXAMPLE.as_bytes()), EXAMPLE_PRINTED);
}

#[test]
fn the_nine_moved_counts_of_the_example_job() {
    let mut lent = ranked(2, &[1, 6, 11]);
    assert_eq!(concentrate(2, &mut lent), accepted(7, 2));
    assert_eq!(lent.moved, [1, 2, 1, 0, 0, 0, 1, 1, 2]);
    assert_eq!(lent.codes, [1, 2, 3, 4, 0, 1, 2, 3, 0]);
}

#[test]
fn distribute_at_side_2_to_1_6_11() {
    let mut lent = aimed(2, &[1, 6, 11]);
    assert_eq!(distribute(2, &mut lent), accepted(7, 2));
    assert_eq!(lent.moved, [2, 1, 1, 0, 0, 0, 1, 2, 1]);
    assert_eq!(lent.codes, [0, 4, 1, 2, 0, 3, 4, 1, 2]);
    assert_eq!(lent.front, standing(2, &[1, 6, 11], &[1, 6, 11]));
    assert_eq!(lent.spare, Lanes::empty(16));
}

#[test]
fn side_2_all_marked_moves_12_in_each_swap() {
    let mut lent = ranked(2, &upto(16));
    assert_eq!(concentrate(2, &mut lent), accepted(7, 2));
    assert_eq!(lent.moved, [0, 0, 0, 0, 12, 0, 0, 0, 12]);
    assert_eq!(lent.front, standing(2, &upto(16), &upto(16)));
}

#[test]
fn side_2_none_marked() {
    let mut lent = ranked(2, &[]);
    assert_eq!(concentrate(2, &mut lent), accepted(7, 2));
    assert_eq!(lent.moved, [0; 9]);
    assert_eq!(lent.front, Lanes::empty(16));
    assert_eq!(lent.spare, Lanes::empty(16));
}

#[test]
fn sums_wrap() {
    let mut start = vec![0; 16];
    start[0] = 4_294_967_295;
    start[1] = 2;
    let mut codes = vec![9; 9];
    let mut sums = start.clone();
    assert_eq!(prefix_sum(2, &mut sums, &mut codes), accepted(7, 2));
    assert_eq!(sums[0], 4_294_967_295);
    assert_eq!(sums[1..], [1; 15]);
    assert_eq!(codes, [1, 4, 0, 1, 4, 2, 0, 3, 2]);
    let mut sums = start;
    assert_eq!(data_sum(2, &mut sums, &mut codes), accepted(8, 1));
    assert_eq!(sums, [1; 16]);
    assert_eq!(codes, [1, 2, 4, 3, 0, 1, 2, 4, 3]);
}

#[test]
fn mesh_row_shift_by_1_zero_fill() {
    let mut lane: Vec<u32> = (0..16).collect();
    let mut codes = vec![9; 2];
    assert_eq!(shift(2, &mut lane, &mut codes, Line::MeshRow, Edge::ZeroFill, 1), accepted(1, 0));
    assert_eq!(lane[..6], [0, 0, 0, 2, 0, 4]);
    assert_eq!(codes, [1, 9]);
}

#[test]
fn group_column_circular_shift_by_1() {
    let mut lane: Vec<u32> = (0..16).collect();
    let mut codes = vec![9; 4];
    assert_eq!(shift(2, &mut lane, &mut codes, Line::GroupColumn, Edge::Circular, 1), accepted(2, 2));
    assert_eq!(lane[0], 8);
    assert_eq!(lane, [8, 9, 10, 11, 12, 13, 14, 15, 0, 1, 2, 3, 4, 5, 6, 7]);
    assert_eq!(codes, [0, 4, 3, 0]);
}

#[test]
fn side_8_all_marked_moves_4032_in_each_swap() {
    let mut lent = ranked(8, &upto(4096));
    assert_eq!(concentrate(8, &mut lent), accepted(49, 2));
    let swaps = (0..51).filter(|&k| lent.codes[k] == 0).map(|k| lent.moved[k]);
    assert_eq!(swaps.collect::<Vec<_>>(), [4032, 4032]);
    assert_eq!(lent.moved.iter().map(|&moved| moved as u32).sum::<u32>(), 8064);
}

#[test]
fn side_8_is_accepted_and_9_and_0_are_refused() {
    for (side, number) in [(8, 0), (9, 1), (0, 1), (usize::MAX, 1)] {
        let mut lent = ranked(8, &[3, 77]);
        let before = lent.clone();
        assert_eq!(concentrate(side, &mut lent).number, number);
        assert_eq!(lent == before, number != 0);
    }
}

#[test]
fn distance_7_is_accepted_at_side_8_and_8_refused() {
    for line in [Line::MeshRow, Line::MeshColumn, Line::GroupRow, Line::GroupColumn] {
        for edge in [Edge::ZeroFill, Edge::Circular] {
            for (by, number) in [(7, 0), (8, 4), (-7, 0), (-8, 4), (i32::MIN, 4), (i32::MAX, 4)] {
                let mut lane: Vec<u32> = (0..4096).collect();
                let answer = shift(8, &mut lane, &mut [9; 10], line, edge, by);
                assert_eq!(answer.number, number);
            }
        }
    }
}

#[test]
fn cut_51_is_accepted_at_side_8_and_52_refused() {
    for operation in [Operation::Concentrate, Operation::Distribute] {
        let lent = ranked(8, &[0, 1]);
        let (mut front, mut spare) = (lent.front.clone(), lent.spare.clone());
        assert_eq!(records::cut(operation, 8, &mut front, &mut spare, 52), refused(7, 0));
        assert_eq!((&front, &spare), (&lent.front, &lent.spare));
        assert_eq!(records::cut(operation, 8, &mut front, &mut spare, 51), accepted(49, 2));
    }
}

#[test]
fn the_lists_of_the_table_at_side_2() {
    let board = Board { side: 2 };
    assert_eq!(moves::concentrate(board), [RIGHT, LEFT, UP, DOWN, SWAP, RIGHT, LEFT, UP, SWAP]);
    assert_eq!(moves::distribute(board), [SWAP, DOWN, RIGHT, LEFT, SWAP, UP, DOWN, RIGHT, LEFT]);
    assert_eq!(moves::prefix_sum(board), [RIGHT, DOWN, SWAP, RIGHT, DOWN, LEFT, SWAP, UP, LEFT]);
}

#[test]
fn ranks_start_at_0_and_unmarked_cells_get_0() {
    let marks = [0, 1, 1, 0, 0, 0, 0, 1, 0, 0, 0, 0, 0, 0, 0, 1];
    let mut aims = [9; 16];
    let mut codes = [9; 11];
    assert_eq!(rank(2, &marks, &mut aims, &mut codes), accepted(7, 2));
    assert_eq!(aims, [0, 0, 1, 0, 0, 0, 0, 2, 0, 0, 0, 0, 0, 0, 0, 3]);
    assert_eq!(codes, [1, 4, 0, 1, 4, 2, 0, 3, 2, 9, 9]);
}

#[test]
fn broadcast_gives_every_cell_the_word() {
    let mut lane: Vec<u32> = (0..81).collect();
    let mut codes = [9; 9];
    assert_eq!(broadcast(3, &mut lane, &mut codes, 59), accepted(8, 1));
    assert_eq!(lane, [59; 81]);
}

#[test]
fn a_bad_argument_comes_before_no_log_and_after_a_bad_lane() {
    let mut lane = vec![5; 16];
    assert_eq!(broadcast(2, &mut lane, &mut [], 15), refused(3, 0));
    assert_eq!(broadcast(2, &mut lane, &mut [], 16), refused(4, 0));
    assert_eq!(broadcast(2, &mut lane[1..], &mut [], 16), refused(2, 0));
    assert_eq!(broadcast(0, &mut lane, &mut [], 16), refused(1, 0));
    assert_eq!(shift(2, &mut lane, &mut [], Line::MeshRow, Edge::ZeroFill, 0), accepted(0, 0));
    assert_eq!(lane, [5; 16]);
}

#[test]
fn the_stretch_of_a_group() {
    let lane: Vec<u32> = (0..81).collect();
    assert_eq!(words::stretch(3, &lane, 8), (72..81).collect::<Vec<u32>>());
    assert_eq!(words::stretch_answer(3, &lane, 8), accepted(0, 0));
    assert!(words::stretch(3, &lane, 9).is_empty());
    assert_eq!(words::stretch_answer(3, &lane, 9), refused(4, 0));
    assert!(words::stretch(2, &lane, 0).is_empty());
    assert_eq!(words::stretch_answer(2, &lane, 0), refused(2, 0));
    assert_eq!(words::stretch_answer(9, &lane, 0), refused(1, 0));
}

#[test]
fn a_circular_shift_by_nothing_needs_a_log_for_its_swaps_alone() {
    let start: Vec<u32> = (0..16).collect();
    for (line, log, answer) in [
        (Line::MeshRow, 0, accepted(0, 0)),
        (Line::MeshColumn, 2, accepted(0, 0)),
        (Line::GroupRow, 1, refused(3, 0)),
        (Line::GroupColumn, 3, accepted(0, 2)),
    ] {
        let mut lane = start.clone();
        let mut codes = vec![9; log];
        assert_eq!(shift(2, &mut lane, &mut codes, line, Edge::Circular, 0), answer);
        assert_eq!(lane, start);
        assert_eq!(codes, [vec![0; answer.swaps], vec![9; log - answer.swaps]].concat());
    }
}

/// Makes one thing wrong.
type Damage = fn(&mut Lent);

#[test]
fn every_refusal_of_concentrate_changes_nothing() {
    let damages: [(Damage, Answer); 8] = [
        (|lent| lent.front.aims.truncate(15), refused(2, 0)),
        (|lent| lent.spare.words.push(0), refused(2, 0)),
        (|lent| lent.codes.truncate(8), refused(3, 0)),
        (|lent| lent.moved.truncate(8), refused(3, 0)),
        (|lent| lent.front.marks[7] = 2, refused(5, 7)),
        (|lent| lent.front.aims[6] = 2, refused(6, 6)),
        (|lent| lent.front.aims[1] = 1, refused(6, 1)),
        (|lent| lent.front.marks[0] = 1, refused(6, 0)),
    ];
    for (damage, answer) in damages {
        let mut lent = ranked(2, &[1, 6, 11]);
        damage(&mut lent);
        let before = lent.clone();
        assert_eq!(concentrate(2, &mut lent), answer);
        assert_eq!(lent, before);
    }
}

#[test]
fn every_refusal_of_distribute_changes_nothing() {
    let damages: [(Damage, Answer); 7] = [
        (|lent| lent.front.marks[15] = 255, refused(5, 15)),
        (|lent| lent.front.marks[1] = 0, refused(6, 2)),
        (|lent| lent.front.marks[4] = 1, refused(6, 4)),
        (|lent| lent.front.aims[0] = 16, refused(6, 0)),
        (|lent| lent.front.aims[2] = 16, refused(6, 2)),
        (|lent| lent.front.aims[1] = 1, refused(6, 1)),
        (|lent| lent.front.aims[0] = 7, refused(6, 1)),
    ];
    for (damage, answer) in damages {
        let mut lent = aimed(2, &[1, 6, 11]);
        damage(&mut lent);
        let before = lent.clone();
        assert_eq!(distribute(2, &mut lent), answer);
        assert_eq!(lent, before);
    }
}

#[test]
fn refusals_5_and_6_of_a_cut_run_come_before_7() {
    let mut lent = ranked(2, &[1, 6, 11]);
    lent.front.aims[6] = 2;
    let answer = records::cut(Operation::Concentrate, 2, &mut lent.front, &mut lent.spare, 10);
    assert_eq!(answer, refused(6, 6));
    lent.front.marks[7] = 2;
    let answer = records::cut(Operation::Concentrate, 2, &mut lent.front, &mut lent.spare, 10);
    assert_eq!(answer, refused(5, 7));
}

#[test]
fn cut_0_clears_unmarked_cells_and_spare_lanes() {
    let mut lent = ranked(2, &[1, 6, 11]);
    let answer = records::cut(Operation::Concentrate, 2, &mut lent.front, &mut lent.spare, 0);
    assert_eq!(answer, accepted(0, 0));
    assert_eq!(lent.front, standing(2, &[1, 6, 11], &[0, 1, 2]));
    assert_eq!(lent.spare, Lanes::empty(16));
}

/// All choices of marks at side 2, at every cut: nothing lost, no third record in a cell (the model would stop), the
/// smaller aim in front, and distribute in the same places backwards.
#[test]
fn every_state_of_every_frame_of_side_2() {
    let board = Board { side: 2 };
    for choice in 0..1u32 << 16 {
        let marked: Vec<usize> = (0..16).filter(|cell| choice >> cell & 1 == 1).collect();
        let there = records::states(Operation::Concentrate, board, &ranked(2, &marked).front);
        let back = records::states(Operation::Distribute, board, &aimed(2, &marked).front);
        for ((front, spare), (back_front, back_spare)) in there.iter().zip(back.iter().rev()) {
            assert_eq!((&front.words, &front.marks), (&back_front.words, &back_front.marks));
            assert_eq!((&spare.words, &spare.marks), (&back_spare.words, &back_spare.marks));
            let held: u32 = front.marks.iter().chain(&spare.marks).map(|&mark| mark as u32).sum();
            assert_eq!(held, choice.count_ones());
            assert!((0..16).all(|cell| in_order(front, spare, cell) && in_order(back_front, back_spare, cell)));
        }
    }
}

/// A spare record has one of a smaller aim in front of it.
fn in_order(front: &Lanes, spare: &Lanes, cell: usize) -> bool {
    spare.marks[cell] == 0 || (front.marks[cell] == 1 && front.aims[cell] < spare.aims[cell])
}

/// Frames of every kind at every side: nothing lost, a swap finds every record by itself, and no move takes two records from
/// one cell. The C stepper relies on both.
#[test]
fn every_state_of_frames_of_every_kind() {
    let dice = &mut Dice::new(1);
    for board in (1..=8).map(|side| Board { side }) {
        for kind in KINDS {
            let marked = frames::marks(board, kind, dice);
            let start = frames::to_concentrate(board, &marked, 0, dice).front;
            check_states(board, &records::states(Operation::Concentrate, board, &start));
            let start = frames::to_distribute(board, &marked, 0, dice).front;
            let mut back = records::states(Operation::Distribute, board, &start);
            back.reverse();
            check_states(board, &back);
        }
    }
}

fn check_states(board: Board, states: &[(Lanes, Lanes)]) {
    let moves = moves::concentrate(board);
    let count = |lanes: &Lanes| lanes.marks.iter().filter(|&&mark| mark == 1).count();
    let all = count(&states[0].0);
    for (cut, (front, spare)) in states.iter().enumerate() {
        assert_eq!(count(front) + count(spare), all);
        assert!((0..board.cells()).all(|cell| in_order(front, spare, cell)));
        let alone = cut == moves.len() || moves[cut] == SWAP;
        assert!(!alone || count(spare) == 0);
    }
    for (before, after) in states.iter().zip(&states[1..]) {
        assert!((0..board.cells()).all(|cell| someone_stays(before, after, cell)));
        assert!((0..board.cells()).all(|cell| someone_stays(after, before, cell)));
    }
    assert!(states[moves.len()].0.marks[..all].iter().all(|&mark| mark == 1));
}

/// Whether a cell that holds two records still holds one of them after the move, there or back. Aims tell records apart.
fn someone_stays(before: &(Lanes, Lanes), after: &(Lanes, Lanes), cell: usize) -> bool {
    let stays = |aim: u16| {
        let slots = [&after.0, &after.1];
        slots.iter().any(|lanes| lanes.marks[cell] == 1 && lanes.aims[cell] == aim)
    };
    before.1.marks[cell] == 0 || stays(before.0.aims[cell]) || stays(before.1.aims[cell])
}

#[test]
fn a_cut_run_leaves_the_state_at_its_cut() {
    for (operation, lent) in [
        (Operation::Concentrate, ranked(3, &[5, 8, 9, 40, 41, 44])),
        (Operation::Distribute, aimed(3, &[5, 8, 9, 40, 80])),
    ] {
        let states = records::states(operation, Board { side: 3 }, &lent.front);
        assert_eq!(states.len(), 17);
        for (cut, (front, spare)) in states.iter().enumerate() {
            let (mut cut_front, mut cut_spare) = (lent.front.clone(), lent.spare.clone());
            let answer = records::cut(operation, 3, &mut cut_front, &mut cut_spare, cut);
            assert_eq!((answer.number, answer.electronic + answer.swaps), (0, cut));
            assert_eq!((&cut_front, &cut_spare), (front, spare));
        }
    }
}

fn printed(input: &str) -> String {
    job::printed(input.as_bytes())
}

#[test]
fn jobs_that_are_refused() {
    for (input, answer) in [
        ("", "refused\t8\t1\n"),
        ("\n", "refused\t8\t1\n"),
        ("side\t2", "refused\t8\t1\n"),
        ("side\t02\n", "refused\t8\t1\n"),
        ("side 2\n", "refused\t8\t1\n"),
        ("side\t\t2\n", "refused\t8\t1\n"),
        ("side\t2\t\n", "refused\t8\t1\n"),
        ("side\t2\r\n", "refused\t8\t1\n"),
        ("side\t+2\n", "refused\t8\t1\n"),
        ("Side\t2\n", "refused\t8\t1\n"),
        ("side\t\n", "refused\t8\t1\n"),
        ("side\t4294967296\n", "refused\t8\t1\n"),
        ("side\t4294967295\n", "refused\t1\t0\n"),
        ("side\t0\n", "refused\t1\t0\n"),
        ("side\t9\nnonsense", "refused\t1\t0\n"),
        ("side\t2\n16\t1\n", "refused\t8\t2\n"),
        ("side\t2\n4294967295\t1\n", "refused\t8\t2\n"),
        ("side\t2\n3\t1\n3\t1\n", "refused\t8\t3\n"),
        ("side\t2\n3\t1\n2\t1\n", "refused\t8\t3\n"),
        ("side\t2\n3\t4294967296\n", "refused\t8\t2\n"),
        ("side\t2\n3\t01\n", "refused\t8\t2\n"),
        ("side\t2\n3\t1\n4\t1", "refused\t8\t3\n"),
        ("side\t2\n3\t1\n\n", "refused\t8\t3\n"),
        ("side\t2\n3\t1\n5\n6\t6\t6\n", "refused\t8\t3\n"),
        ("side\t2\n-3\t1\n", "refused\t8\t2\n"),
    ] {
        assert_eq!(printed(input), answer, "{input:?}");
    }
}

#[test]
fn a_job_of_65536_bytes_is_judged_and_a_longer_one_is_not() {
    let filled = |length: usize| format!("side\t9\n{}", "x".repeat(length - 7));
    assert_eq!(printed(&filled(65_536)), "refused\t1\t0\n");
    assert_eq!(printed(&filled(65_537)), "refused\t8\t0\n");
}

#[test]
fn jobs_that_are_accepted() {
    let none = "move\tkind\tway\tmoved\n1\tO\tswap\t0\n2\tO\tswap\t0\nall\t0\t2\t0\n";
    assert_eq!(printed("side\t1\n"), none);
    assert_eq!(printed("side\t1\n0\t4294967295\n"), format!("{none}0\t4294967295\n"));
    let full: String = (0..16).map(|cell| format!("{cell}\t{}\n", 50 - cell)).collect();
    let text = printed(&format!("side\t2\n{full}"));
    assert!(text.contains("all\t7\t2\t24\n"));
    assert!(text.ends_with(&full));
}

#[test]
fn the_states_of_the_example_job() {
    let states = records::states(Operation::Concentrate, Board { side: 2 }, &ranked(2, &[1, 6, 11]).front);
    let at = |cells: &[usize]| (standing(2, cells, &[0, 1, 2]), Lanes::empty(16));
    assert_eq!(states.len(), 10);
    assert_eq!(states[0], at(&[1, 6, 11]));
    assert_eq!(states[1], at(&[1, 7, 11]));
    assert_eq!(states[9], at(&[0, 1, 2]));
}

#[test]
fn what_the_program_cases_has_to_print() {
    let text = cases::printed();
    let rank = "rank\tside\t1\tcells\t1\tlog\t2\nanswer\t0\t0\t0\t2\ncodes\t0\t0\naims\t0\n";
    assert!(text.starts_with(&format!("case\tside 1, one cell marked\n{rank}")));
    let shifted = "words\t0\t0\t0\t2\t0\t4\t0\t6\t0\t8\t0\t10\t0\t12\t0\t14\n";
    let shift = "shift mesh row, zero fill\t1\tside\t2\tcells\t16\tlog\t1\nanswer\t0\t0\t1\t0\ncodes\t1\n";
    assert!(text.contains(&format!("{shift}{shifted}")));
    // of 256 words 1, 2, 3, .. the check is 1 + 3 + 6 + .., 256 × 257 × 258 / 6
    assert!(text
        .contains("group words\t16\tside\t4\tcells\t256\tlog\t0\nanswer\t4\t0\t0\t0\npart\nwords checked\t2829056\n"));
}

// ---- where plain and stepping have to agree, beyond the bench cases

/// Words near 2³², so that sums pass it; no two alike.
fn large_words(length: usize) -> Vec<u32> {
    (0..length as u32).map(|cell| (u32::MAX - 5).wrapping_add(cell.wrapping_mul(0x1_0001))).collect()
}

#[test]
fn plain_words_at_every_side() {
    for board in (1..=8).map(|side| Board { side }) {
        let (side, cells) = (board.side, board.cells());
        let start = large_words(cells);
        let step = if side <= 3 { 1 } else { cells / 16 - 1 };
        for cell in (0..cells + 2).step_by(step).chain([cells - 1, cells, usize::MAX]) {
            let answer = broadcast(side, &mut start.clone(), &mut [9; LONG], cell);
            assert_eq!(answer, if cell < cells { accepted(4 * (side - 1), 1) } else { refused(4, 0) });
        }
        assert_eq!(data_sum(side, &mut start.clone(), &mut [9; LONG]), accepted(8 * (side - 1), 1));
        assert_eq!(prefix_sum(side, &mut start.clone(), &mut [9; LONG]), accepted(7 * (side - 1), 2));
    }
}

#[test]
fn plain_shifts_by_every_distance_and_beyond() {
    for side in 1..=8i32 {
        let start = large_words(side.pow(4) as usize);
        for (line, edge) in LINES.iter().flat_map(|&line| EDGES.map(|edge| (line, edge))) {
            for by in (-side..=side).chain([i32::MIN, i32::MAX]) {
                let answer = shift(side as usize, &mut start.clone(), &mut [9; LONG], line, edge, by);
                assert_eq!(answer.number == 0, -side < by && by < side);
            }
        }
    }
}

#[test]
fn plain_words_of_wrong_sides_and_lengths() {
    for (side, length) in [(0, 0), (0, 16), (2, 0), (2, 15), (2, 17), (9, 6561), (65_536, 0), (usize::MAX, 1)] {
        let start = large_words(length);
        let number = if (1..=8).contains(&side) { 2 } else { 1 };
        // an argument that 4 refuses as well
        assert_eq!(broadcast(side, &mut start.clone(), &mut [], usize::MAX), refused(number, 0));
        assert_eq!(shift(side, &mut start.clone(), &mut [], LINES[0], EDGES[0], 99), refused(number, 0));
        assert_eq!(data_sum(side, &mut start.clone(), &mut []), refused(number, 0));
        assert_eq!(prefix_sum(side, &mut start.clone(), &mut []), refused(number, 0));
    }
}

/// Every choice of marks, ranked, concentrated, and distributed back.
#[test]
fn plain_records_on_every_choice_of_marks_at_side_2() {
    for choice in 0..1u32 << 16 {
        let marked: Vec<usize> = (0..16).filter(|cell| choice >> cell & 1 == 1).collect();
        let mut lent = ranked(2, &marked);
        assert_eq!(rank(2, &lent.front.marks, &mut [9; 16], &mut [9; 9]), accepted(7, 2));
        assert_eq!(concentrate(2, &mut lent), accepted(7, 2));
        assert_eq!(distribute(2, &mut aimed(2, &marked)), accepted(7, 2));
    }
}

#[test]
fn plain_records_on_frames_of_every_kind() {
    let dice = &mut Dice::new(2);
    for board in (1..=8).map(|side| Board { side }) {
        for kind in KINDS {
            let marked = frames::marks(board, kind, dice);
            let mut lent = frames::to_concentrate(board, &marked, LONG, dice);
            let mut aims = lent.front.aims.clone();
            rank(board.side, &lent.front.marks, &mut aims, &mut [9; LONG]);
            assert_eq!(concentrate(board.side, &mut lent).number, 0);
            assert_eq!(distribute(board.side, &mut frames::to_distribute(board, &marked, LONG, dice)).number, 0);
        }
    }
}

/// Frames with a mark or an aim that is off, and with no room for a log: where stepping says 3, plain goes on.
#[test]
fn plain_takes_no_log() {
    for (mark, aim, number) in [(1, 1, 0), (2, 1, 5), (1, 2, 6), (255, 2, 5)] {
        let mut lent = ranked(2, &[1, 6, 11]);
        (lent.front.marks[6], lent.front.aims[6]) = (mark, aim);
        lent.codes.truncate(8);
        assert_eq!(concentrate(2, &mut lent), refused(3, 0));
        assert_eq!(plain::at_once(Operation::Concentrate, 2, &mut lent.front, &mut lent.spare).number, number);
    }
    assert_eq!(rank(2, &[0, 1, 2, 1, 0, 1, 2, 1, 0, 1, 2, 1, 0, 1, 2, 1], &mut [9; 16], &mut []), refused(3, 0));
    assert_eq!(plain::rank(2, &[2; 16], &mut [9; 16]), refused(5, 0));
}
