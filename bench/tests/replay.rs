//! The second model's replay on captures worked out by hand from document 01, and on what its sentences refuse.

use otis_bench::model::answers::Refusal;
use otis_bench::model::board::Board;
use otis_bench::model::job;
use otis_bench::model::records::Lanes;
use otis_bench::model::replay::{self, replay, Outcome};
use otis_bench::texts::{long_capture, padded};

/// The example job of 01: the records stand in cells 1, 6 and 11, and head for places 0, 1 and 2, then for place 0.
const SCOPE: &str = "side\t2\n1\t70\n6\t71\n11\t72\n";

const SCOPE_CAPTURE: &str = "1\t1\n1\t0\t70\t0\n7\t0\t71\t1\n11\t0\t72\t2
2\t2\n0\t0\t70\t0\n7\t0\t71\t1\n10\t0\t72\t2
3\t3\n0\t0\t70\t0\n5\t0\t71\t1\n10\t0\t72\t2
4\t4\n0\t0\t70\t0\n5\t0\t71\t1\n10\t0\t72\t2
5\t0\n0\t0\t70\t0\n5\t0\t71\t1\n10\t0\t72\t2
6\t1\n0\t0\t70\t0\n5\t0\t71\t1\n10\t0\t72\t2
7\t2\n0\t0\t70\t0\n4\t0\t71\t1\n10\t0\t72\t2
8\t3\n0\t0\t70\t0\n4\t0\t71\t1\n8\t0\t72\t2
9\t0\n0\t0\t70\t0\n1\t0\t71\t1\n2\t0\t72\t2
";

/// The bench case in which ranks 1 and 2 meet in cell 5.
const MEETING: &str = "side\t2\n0\t10\n4\t11\n5\t12\n";

const MEETING_CAPTURE: &str = "1\t1\n0\t0\t10\t0\n5\t0\t11\t1\n5\t1\t12\t2
2\t2\n0\t0\t10\t0\n4\t0\t12\t2\n5\t0\t11\t1
3\t3\n0\t0\t10\t0\n4\t0\t12\t2\n5\t0\t11\t1
4\t4\n0\t0\t10\t0\n5\t0\t11\t1\n6\t0\t12\t2
5\t0\n0\t0\t10\t0\n5\t0\t11\t1\n9\t0\t12\t2
6\t1\n0\t0\t10\t0\n5\t0\t11\t1\n9\t0\t12\t2
7\t2\n0\t0\t10\t0\n4\t0\t11\t1\n8\t0\t12\t2
8\t3\n0\t0\t10\t0\n4\t0\t11\t1\n8\t0\t12\t2
9\t0\n0\t0\t10\t0\n1\t0\t11\t1\n2\t0\t12\t2
";

const ONE_CELL: &str = "side\t1\n0\t5\n";
const ONE_CELL_CAPTURE: &str = "1\t0\n0\t0\t5\t0\n2\t0\n0\t0\t5\t0\n";

/// Rank 0 stays in cell 0; rank 1 goes from cell 80 by these cells, with these codes.
const CORNERS: &str = "side\t3\n0\t1\n80\t2\n";
const CORNERS_CODES: [u32; 16] = [1, 1, 2, 2, 3, 3, 4, 4, 0, 1, 1, 2, 2, 3, 3, 0];
const CORNERS_CELLS: [u32; 16] = [80, 80, 79, 79, 76, 73, 73, 73, 17, 17, 17, 16, 15, 12, 9, 1];

fn corners_capture() -> String {
    let moves = CORNERS_CODES.iter().zip(CORNERS_CELLS).enumerate();
    moves.map(|(k, (code, cell))| format!("{}\t{code}\n0\t0\t1\t0\n{cell}\t0\t2\t1\n", k + 1)).collect()
}

fn captures() -> [(&'static str, String); 4] {
    [
        (SCOPE, SCOPE_CAPTURE.to_string()),
        (MEETING, MEETING_CAPTURE.to_string()),
        (ONE_CELL, ONE_CELL_CAPTURE.to_string()),
        (CORNERS, corners_capture()),
    ]
}

fn printed(job: &str, capture: &str) -> String {
    replay::printed(job.as_bytes(), capture.as_bytes())
}

/// The capture of the scope's job with this text, which stands in it once or more, put in the place of its first.
fn scope_with(old: &str, new: &str) -> String {
    assert!(SCOPE_CAPTURE.contains(old));
    printed(SCOPE, &SCOPE_CAPTURE.replacen(old, new, 1))
}

fn lanes(job: &str) -> Lanes {
    let Ok(job) = job::parse(job.as_bytes()) else { panic!("the job is refused") };
    job::ranked(&job)
}

fn refused(number: usize, place: usize) -> Outcome {
    Outcome::Refused(Refusal { number, place })
}

// ---- what agrees, and what ends early

#[test]
fn captures_worked_out_by_hand_agree() {
    for (job, capture) in captures() {
        assert_eq!(printed(job, &capture), "agrees\n");
    }
}

#[test]
fn the_model_makes_the_captures_worked_out_by_hand() {
    for (text, capture) in captures() {
        let Ok(job) = job::parse(text.as_bytes()) else { panic!("the job is refused") };
        assert_eq!(replay::capture(&replay::rule(job.board, &job::ranked(&job))), capture);
    }
}

#[test]
fn without_records_the_moves_alone_agree() {
    assert_eq!(printed("side\t1\n", "1\t0\n2\t0\n"), "agrees\n");
    assert_eq!(printed("side\t2\n", "1\t1\n2\t2\n3\t3\n4\t4\n5\t0\n6\t1\n7\t2\n8\t3\n9\t0\n"), "agrees\n");
}

#[test]
fn an_empty_capture_ends_early_at_0() {
    for (job, _) in captures() {
        assert_eq!(printed(job, ""), "early\t0\n");
    }
}

#[test]
fn a_capture_cut_after_a_move_ends_early_there() {
    for (job, capture) in captures() {
        let lines: Vec<&str> = capture.split_inclusive('\n').collect();
        let starts: Vec<usize> = (1..lines.len()).filter(|&line| is_move(lines[line])).collect();
        assert!(!starts.is_empty());
        for (before, &start) in starts.iter().enumerate() {
            assert_eq!(printed(job, &lines[..start].concat()), format!("early\t{}\n", before + 1));
        }
    }
}

fn is_move(line: &str) -> bool {
    line.split('\t').count() == 2
}

#[test]
fn a_capture_cut_after_a_record_that_others_follow_differs_there() {
    let end = SCOPE_CAPTURE.find("11\t0").expect("the third record of move 1");
    assert_eq!(printed(SCOPE, &SCOPE_CAPTURE[..end]), "differs\t1\n");
}

#[test]
fn words_and_aims_of_unmarked_cells_are_not_looked_at() {
    let mut start = lanes(SCOPE);
    for cell in (0..16).filter(|cell| ![1, 6, 11].contains(cell)) {
        (start.words[cell], start.aims[cell]) = (99, 7);
    }
    assert_eq!(replay(2, &start, SCOPE_CAPTURE.as_bytes()), Outcome::Agrees);
}

// ---- what differs

#[test]
fn another_code_differs_and_any_number_is_one() {
    for code in [0, 2, 4, 5, 257, 65_537, u32::MAX] {
        assert_eq!(scope_with("6\t1\n", &format!("6\t{code}\n")), "differs\t6\n");
    }
    assert_eq!(scope_with("1\t1\n", "1\t0\n"), "differs\t1\n");
    assert_eq!(scope_with("9\t0\n", "9\t256\n"), "differs\t9\n");
}

#[test]
fn another_word_or_aim_differs() {
    for (old, new) in [("7\t0\t71\t1\n", "7\t0\t72\t1\n"), ("7\t0\t71\t1\n", "7\t0\t71\t2\n")] {
        assert_eq!(scope_with(old, new), "differs\t1\n");
    }
    assert_eq!(scope_with("10\t0\t72\t2\n3", "10\t0\t4294967295\t2\n3"), "differs\t2\n");
    assert_eq!(scope_with("2\t0\t72\t2\n", "2\t0\t72\t65538\n"), "differs\t9\n");
    assert_eq!(scope_with("8\t0\t72\t2\n", "8\t0\t72\t4294967295\n"), "differs\t8\n");
}

#[test]
fn a_record_lost_or_too_many_or_elsewhere_differs() {
    assert_eq!(scope_with("4\t0\t71\t1\n10", "10"), "differs\t7\n");
    assert_eq!(scope_with("8\t0\t72\t2\n", ""), "differs\t8\n");
    assert_eq!(scope_with("8\t0\t72\t2\n", "8\t0\t72\t2\n15\t0\t0\t0\n"), "differs\t8\n");
    assert_eq!(scope_with("8\t0\t72\t2\n", "8\t0\t72\t2\n8\t1\t72\t2\n"), "differs\t8\n");
    assert_eq!(scope_with("8\t0\t72\t2\n", "9\t0\t72\t2\n"), "differs\t8\n");
    assert_eq!(printed("side\t1\n", "1\t0\n0\t0\t0\t0\n"), "differs\t1\n");
}

#[test]
fn a_spare_record_without_a_front_one_is_well_formed_and_differs() {
    assert_eq!(scope_with("8\t0\t72\t2\n", "8\t1\t72\t2\n"), "differs\t8\n");
    assert_eq!(printed(ONE_CELL, "1\t0\n0\t1\t5\t0\n"), "differs\t1\n");
}

#[test]
fn of_two_in_a_cell_the_smaller_aim_is_in_front() {
    let exchanged = MEETING_CAPTURE.replacen("5\t0\t11\t1\n5\t1\t12\t2", "5\t0\t12\t2\n5\t1\t11\t1", 1);
    assert_ne!(exchanged, MEETING_CAPTURE);
    assert_eq!(printed(MEETING, &exchanged), "differs\t1\n");
}

#[test]
fn the_first_difference_is_given() {
    let capture = SCOPE_CAPTURE.replace("4\t0\t71\t1", "4\t0\t71\t9").replacen("9\t0\n", "9\t4\n", 1);
    assert_eq!(printed(SCOPE, &capture), "differs\t7\n");
}

#[test]
fn a_difference_comes_before_an_early_end() {
    assert_eq!(printed(SCOPE, "1\t1\n1\t0\t70\t0\n7\t0\t71\t1\n11\t0\t72\t2\n2\t2\n"), "differs\t2\n");
}

// ---- what is refused

/// Lines that are none behind the first line of a capture at side 2, a good move.
const MALFORMED: [&str; 40] = [
    "",
    "\t",
    "2",
    "2\t",
    "\t2",
    "2\t2\t",
    "1\t0\t70",
    "1\t0\t70\t",
    "1\t0\t70\t0\t",
    "1\t0\t70\t0\t0",
    "\t1\t0\t70\t0",
    "1\t\t0\t70",
    "1\t0\t\t70",
    "01\t0\t70\t0",
    "1\t00\t70\t0",
    "1\t0\t070\t0",
    "1\t0\t70\t00",
    "02\t2",
    "2\t02",
    "1\t0\t4294967296\t0",
    "1\t0\t70\t4294967296",
    "2\t4294967296",
    "4294967298\t2",
    "18446744073709551618\t2",
    "2 \t2",
    " 2\t2",
    "+2\t2",
    "2\t-0",
    "2\t2\r",
    "2\tx",
    "0x2\t2",
    "2\t2\0",
    "1 0 70 0",
    "1\t0\t70\t0 ",
    "1\t0\t7 0\t0",
    "1\t2\t70\t0",
    "1\t4294967295\t70\t0",
    "16\t0\t70\t0",
    "65537\t0\t70\t0",
    "4294967295\t0\t70\t0",
];

#[test]
fn a_malformed_line_is_named() {
    for line in MALFORMED {
        assert_eq!(printed(SCOPE, &format!("1\t1\n{line}\n2\t2\n")), "refused\t10\t2\n", "{line:?}");
    }
    assert_eq!(replay::printed(SCOPE.as_bytes(), b"1\t1\n1\t0\t7\xff\t0\n"), "refused\t10\t2\n");
}

#[test]
fn cells_that_a_side_has_and_has_not() {
    for (side, last) in [(1, 0), (2, 15), (3, 80)] {
        let job = format!("side\t{side}\n");
        assert_eq!(printed(&job, &format!("1\t0\n{last}\t1\t0\t0\n")), "differs\t1\n");
        assert_eq!(printed(&job, &format!("1\t0\n{}\t0\t0\t0\n", last + 1)), "refused\t10\t2\n");
    }
}

#[test]
fn a_last_line_without_its_lf_is_refused() {
    for (job, capture) in captures() {
        let lines = capture.lines().count();
        assert_eq!(printed(job, capture.trim_end()), format!("refused\t10\t{lines}\n"));
    }
    assert_eq!(printed(SCOPE, "1"), "refused\t10\t1\n");
    assert_eq!(printed(SCOPE, "1\t1"), "refused\t10\t1\n");
}

#[test]
fn a_record_before_any_move_is_refused() {
    assert_eq!(printed(SCOPE, "1\t0\t70\t0\n"), "refused\t10\t1\n");
    assert_eq!(printed(SCOPE, &format!("1\t0\t70\t0\n{SCOPE_CAPTURE}")), "refused\t10\t1\n");
}

#[test]
fn a_move_out_of_turn_is_refused() {
    for first in ["0\t1\n", "2\t1\n", "2\t2\n", "9\t0\n", "10\t0\n", "257\t1\n", "4294967295\t1\n"] {
        assert_eq!(printed(SCOPE, first), "refused\t10\t1\n");
    }
    for second in ["0\t1\n", "1\t1\n", "3\t3\n", "258\t2\n"] {
        assert_eq!(printed(SCOPE, &format!("1\t1\n{second}")), "refused\t10\t2\n");
    }
}

#[test]
fn a_move_past_the_list_is_refused() {
    for (job, capture) in captures() {
        let moves = capture.lines().filter(|line| is_move(line)).count();
        let lines = capture.lines().count();
        let longer = format!("{capture}{}\t0\n", moves + 1);
        assert_eq!(printed(job, &longer), format!("refused\t10\t{}\n", lines + 1));
    }
}

#[test]
fn cell_and_slot_have_to_rise() {
    for (first, second) in [("1\t0", "0\t0"), ("1\t0", "0\t1"), ("1\t1", "1\t0"), ("1\t1", "0\t0"), ("15\t1", "14\t0")]
    {
        let capture = format!("1\t1\n{first}\t70\t0\n{second}\t71\t1\n");
        assert_eq!(printed(SCOPE, &capture), "refused\t10\t3\n");
        let capture = format!("1\t1\n{second}\t70\t0\n{first}\t71\t1\n");
        assert_eq!(printed(SCOPE, &capture), "differs\t1\n");
    }
}

#[test]
fn a_record_twice_is_out_of_order() {
    for second in ["7\t0\t71\t1\n", "7\t0\t72\t2\n"] {
        assert_eq!(scope_with("7\t0\t71\t1\n", &format!("7\t0\t71\t1\n{second}")), "refused\t10\t4\n");
    }
    let twice = MEETING_CAPTURE.replacen("5\t1\t12\t2\n", "5\t1\t12\t2\n5\t1\t12\t2\n", 1);
    assert_eq!(printed(MEETING, &twice), "refused\t10\t5\n");
}

#[test]
fn a_refusal_comes_before_a_difference() {
    let capture = SCOPE_CAPTURE.replacen("1\t1\n", "1\t4\n", 1);
    assert_eq!(printed(SCOPE, &capture), "differs\t1\n");
    assert_eq!(printed(SCOPE, &format!("{capture}x")), "refused\t10\t37\n");
    assert_eq!(printed(SCOPE, &format!("{capture}10\t0\n")), "refused\t10\t37\n");
}

#[test]
fn the_first_bad_line_is_named() {
    assert_eq!(printed(SCOPE, "1\t1\n1\t0\t70\t00\n16\t0\t0\t0\n5\t5\n"), "refused\t10\t2\n");
}

#[test]
fn a_longer_capture_is_refused_as_a_whole() {
    let start = Lanes::empty(81);
    assert_eq!(replay(3, &start, &long_capture(65_536)), Outcome::Differs(1));
    assert_eq!(replay(3, &start, &long_capture(65_537)), refused(10, 0));
    assert_eq!(replay(3, &start, &padded("x\n", 65_536)), refused(10, 1));
    assert_eq!(replay(3, &start, &padded("1\t1\n", 65_536)), refused(10, 2));
    assert_eq!(replay(3, &start, &padded("x\n", 65_537)), refused(10, 0));
}

#[test]
fn sides_above_3_have_no_captures() {
    for side in 4..=8 {
        let job = format!("side\t{side}\n0\t1\n");
        for capture in ["", "1\t1\n0\t0\t1\t0\n", "x"] {
            assert_eq!(printed(&job, capture), "refused\t10\t0\n");
        }
    }
}

#[test]
fn a_refused_job_comes_before_the_capture() {
    for (job, line) in [("side\t9\n", "refused\t1\t0\n"), ("side\t0\nx", "refused\t1\t0\n"), ("", "refused\t8\t1\n")] {
        assert_eq!(printed(job, "x"), line);
        assert_eq!(printed(job, ""), line);
    }
    assert_eq!(printed("side\t2\n1\t70\n1\t71\n", SCOPE_CAPTURE), "refused\t8\t3\n");
    assert_eq!(printed("side\t4\n256\t1\n", "x"), "refused\t8\t2\n");
    assert_eq!(replay::printed(&padded("side\t2\n", 65_537), b"x"), "refused\t8\t0\n");
}

#[test]
fn of_several_refusals_the_lowest_is_given() {
    let mut start = lanes(SCOPE);
    start.aims[6] = 2;
    assert_eq!(replay(2, &start, b"x"), refused(6, 6));
    start.marks[12] = 2;
    assert_eq!(replay(2, &start, b"x"), refused(5, 12));
    start.words.push(0);
    assert_eq!(replay(2, &start, b"x"), refused(2, 0));
    for side in [0, 9, usize::MAX] {
        assert_eq!(replay(side, &start, b"x"), refused(1, 0));
    }
}

#[test]
fn every_lane_has_to_be_as_long_as_the_board() {
    let start = lanes(SCOPE);
    let mut short = [start.clone(), start.clone(), start];
    short[0].words.pop();
    short[1].marks.pop();
    short[2].aims.pop();
    for start in &short {
        assert_eq!(replay(2, start, SCOPE_CAPTURE.as_bytes()), refused(2, 0));
    }
}

#[test]
fn lanes_of_sides_above_3_are_judged_before_the_side_is() {
    let mut start = Lanes::empty(Board { side: 4 }.cells());
    assert_eq!(replay(4, &start, b""), refused(10, 0));
    start.marks[255] = 1;
    start.aims[255] = 1;
    assert_eq!(replay(4, &start, b""), refused(6, 255));
    start.marks[3] = 7;
    assert_eq!(replay(4, &start, b""), refused(5, 3));
    start.aims.pop();
    assert_eq!(replay(4, &start, b""), refused(2, 0));
}
