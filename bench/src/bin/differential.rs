//! Compares the archive, and the C functions that it is measured against, with the second model: the answer, every lane and
//! every log after the call, and the fences around them. Every case is a call of a stepping function and one of the plain
//! function of its name on the same lanes: the first is held to the model that steps, the second to the plain one, and what
//! came back of the second to what came back of the first. The last line counts the comparisons.
//!
//! `differential [--first] ARCHIVE.. -- STEPPER.. -- SHORTEST..`: the words that start `c/server.c` over the archive, over the
//! C functions, and over those with the stepper's rank that makes no moves, which is only asked to rank. With `--first` it
//! stops at the first failure.

use otis_bench::calls::{Call, Function, Ranked};
use otis_bench::frames::{self, Dice, Kind, KINDS};
use otis_bench::model::board::Board;
use otis_bench::model::records::{self, Lanes, Lent, Operation};
use otis_bench::model::{moves, plain, words};
use otis_bench::servers::{compare_part, Case, Cases, Plain, Server, Tally};
use std::process::ExitCode;

const SEED: u64 = 0x0715_2001_D0A0_1A3B;

const OPERATIONS: [Operation; 2] = [Operation::Concentrate, Operation::Distribute];

/// How many frames of each kind, by side: fewer where a frame is large.
const FRAMES: [usize; 8] = [20, 200, 400, 300, 150, 80, 50, 30];

/// Damaged frames, by side.
const DAMAGED: [usize; 8] = [500, 3000, 3000, 1500, 600, 300, 150, 100];

/// Frames with each fault and a log that is too short.
const SHORT_LOGS: usize = 12;

/// Names, and whether they rank alone.
const SERVERS: [(&str, bool); 3] = [("archive", false), ("C functions", false), ("C stepper's shortest rank", true)];

type Part = fn(&mut Trial);

const PARTS: [(&str, Part); 10] = [
    ("every choice of marks at side 2, ranked, concentrated, distributed back", every_choice),
    ("one cell marked, and two across every group end, sides 1 to 4", ones_and_twos),
    ("frames of every kind, sides 1 to 8", every_kind),
    ("sides that are none", wrong_sides),
    ("lanes of wrong lengths", wrong_lanes),
    ("logs of every length up to two too long", every_log),
    ("a damaged mark in every cell", damaged_marks),
    ("a damaged aim in every cell", damaged_aims),
    ("damaged frames, with logs that are too short", short_logs),
    ("several damages at once", mixed_damages),
];

/// Where the numbers come from, and where the cases go.
struct Trial<'a> {
    dice: &'a mut Dice,
    cases: &'a mut Cases,
}

fn main() -> ExitCode {
    let mut words: Vec<String> = std::env::args().skip(1).collect();
    let first = words.first().is_some_and(|word| word == "--first");
    words.drain(..usize::from(first));
    let commands: Vec<&[String]> = words.split(|word| word == "--").collect();
    if commands.len() != SERVERS.len() || commands.iter().any(|command| command.is_empty()) {
        eprintln!("usage: differential [--first] ARCHIVE.. -- STEPPER.. -- SHORTEST..");
        return ExitCode::from(2);
    }
    println!("seed {SEED:#x}");
    let starts = SERVERS.iter().zip(commands);
    let mut servers: Vec<Server> = starts.map(|((name, ranks), words)| Server::start(name, *ranks, words)).collect();
    let tally = Tally::new(first);
    compare_all(&mut servers, &tally);
    for server in servers {
        println!("{}", server.end(&tally));
    }
    println!("{} passed, {} failed", tally.passed(), tally.failed());
    ExitCode::from(u8::from(tally.failed() > 0))
}

/// Makes every part, and says how many comparisons it took.
fn compare_all(servers: &mut [Server], tally: &Tally) {
    let dice = &mut Dice::new(SEED);
    for (name, part) in PARTS {
        let before = tally.passed() + tally.failed();
        compare_part(servers, tally, |cases| part(&mut Trial { dice, cases }));
        println!("{name}: {}", tally.passed() + tally.failed() - before);
    }
}

// ---- one case

fn check_rank(trial: &mut Trial, what: &str, side: usize, lent: Ranked) {
    let (mut left, mut plain_left) = (lent.clone(), lent.clone());
    let answer = words::rank(side, &lent.marks, &mut left.aims, &mut left.codes);
    let call = Call::new(Function::Rank, side, &lent, &left, answer);
    let answer = plain::rank(side, &lent.marks, &mut plain_left.aims);
    let plain = Call::new(Function::PlainRank, side, &lent, &plain_left, answer);
    let short_log = is_short(side, &[lent.codes.len()]);
    trial.cases.add(Case { what: what.to_string(), call, plain: Some(Plain { call: plain, short_log }) });
}

/// Gives back what the model that steps leaves.
fn check_run(trial: &mut Trial, what: &str, operation: Operation, side: usize, lent: &Lent) -> Lent {
    let (mut left, mut plain_left) = (lent.clone(), lent.clone());
    let answer = records::full(operation, side, &mut left);
    let call = Call::new(Function::Run(operation), side, lent, &left, answer);
    let answer = plain::at_once(operation, side, &mut plain_left.front, &mut plain_left.spare);
    let plain = Call::new(Function::PlainRun(operation), side, lent, &plain_left, answer);
    let short_log = is_short(side, &[lent.codes.len(), lent.moved.len()]);
    trial.cases.add(Case { what: what.to_string(), call, plain: Some(Plain { call: plain, short_log }) });
    left
}

/// Whether a log of these is too short for the board of that side, if there is one.
fn is_short(side: usize, logs: &[usize]) -> bool {
    let mut boards = boards();
    boards.any(|board| board.side == side && logs.iter().any(|&length| length < log_length(board)))
}

fn check_all(trial: &mut Trial, what: &str, side: usize, lent: &Lent) {
    let (marks, aims) = (lent.front.marks.clone(), lent.front.aims.clone());
    check_rank(trial, what, side, Ranked { marks, aims, codes: lent.codes.clone() });
    for operation in OPERATIONS {
        check_run(trial, what, operation, side, lent);
    }
}

// ---- whole frames

/// Ranks, concentrates and distributes one choice of marks.
fn check_frame(trial: &mut Trial, what: &str, board: Board, marked: &[bool]) {
    let log = log_length(board) + trial.dice.below(4);
    let start = frames::to_concentrate(board, marked, log, trial.dice);
    let aims = frames::garbage(board.cells(), trial.dice).aims;
    let (marks, codes) = (start.front.marks.clone(), start.codes.clone());
    check_rank(trial, what, board.side, Ranked { marks, aims, codes });
    let front = check_run(trial, what, Operation::Concentrate, board.side, &start);
    let back = aimed_back(front, marked);
    check_run(trial, what, Operation::Distribute, board.side, &back);
}

/// What concentrate left, aimed at the cells where it came from.
fn aimed_back(mut front: Lent, marked: &[bool]) -> Lent {
    let cells = (0..marked.len()).filter(|&cell| marked[cell]);
    for (rank, cell) in cells.enumerate() {
        front.front.aims[rank] = cell as u16;
    }
    front
}

fn log_length(board: Board) -> usize {
    moves::concentrate(board).len()
}

fn boards() -> impl Iterator<Item = Board> {
    (1..=8).map(|side| Board { side })
}

fn every_choice(trial: &mut Trial) {
    let board = Board { side: 2 };
    for choice in 0..1u32 << 16 {
        let marked: Vec<bool> = (0..16).map(|cell| choice >> cell & 1 == 1).collect();
        check_frame(trial, "every choice", board, &marked);
    }
}

/// The cell past the end of a group belongs to another: so two marks stand across it.
fn ones_and_twos(trial: &mut Trial) {
    for board in boards().take(4) {
        for cell in 0..board.cells() {
            let marked: Vec<bool> = (0..board.cells()).map(|other| other == cell).collect();
            check_frame(trial, "one marked", board, &marked);
        }
        for end in 1..board.places() {
            let start = board.cell(end, 0);
            let marked: Vec<bool> = (0..board.cells()).map(|cell| cell == start || cell + 1 == start).collect();
            check_frame(trial, "two across a group end", board, &marked);
        }
    }
}

fn every_kind(trial: &mut Trial) {
    for board in boards() {
        for kind in KINDS {
            let once = matches!(kind, Kind::None | Kind::All);
            let times = if once { 3 } else { FRAMES[board.side - 1] };
            for _ in 0..times {
                let marked = frames::marks(board, kind, trial.dice);
                check_frame(trial, &format!("{kind:?}"), board, &marked);
                check_distribute_anew(trial, board, &marked);
            }
        }
    }
}

/// Distribute from lanes full of garbage, where `check_frame` takes the clean ones that concentrate left.
fn check_distribute_anew(trial: &mut Trial, board: Board, marked: &[bool]) {
    let start = frames::to_distribute(board, marked, log_length(board), trial.dice);
    check_run(trial, "distribute anew", Operation::Distribute, board.side, &start);
}

// ---- refusals

fn some_frame(board: Board, operation: Operation, dice: &mut Dice) -> Lent {
    let kind = KINDS[dice.below(KINDS.len())];
    let marked = frames::marks(board, kind, dice);
    let log = log_length(board);
    match operation {
        Operation::Concentrate => frames::to_concentrate(board, &marked, log, dice),
        Operation::Distribute => frames::to_distribute(board, &marked, log, dice),
    }
}

fn nothing_lent() -> Lent {
    Lent { front: Lanes::empty(0), spare: Lanes::empty(0), codes: Vec::new(), moved: Vec::new() }
}

/// 65536 is the side whose cells, counted in 64 bits, come to 0.
fn wrong_sides(trial: &mut Trial) {
    for side in [0, 9, 10, 16, 255, 256, 264, 65_536, 1 << 32, (1 << 32) + 2, usize::MAX - 1, usize::MAX] {
        for board in boards() {
            for operation in OPERATIONS {
                let lent = some_frame(board, operation, trial.dice);
                check_all(trial, "wrong side", side, &lent);
            }
        }
        check_all(trial, "wrong side, nothing lent", side, &nothing_lent());
    }
}

/// Cuts or lengthens a lane; the entries that come on are 0.
fn set_lane(lent: &mut Lent, lane: usize, length: usize) {
    match lane {
        0 => lent.front.words.resize(length, 0),
        1 => lent.front.marks.resize(length, 0),
        2 => lent.front.aims.resize(length, 0),
        3 => lent.spare.words.resize(length, 0),
        4 => lent.spare.marks.resize(length, 0),
        _ => lent.spare.aims.resize(length, 0),
    }
}

fn wrong_lanes(trial: &mut Trial) {
    for board in boards() {
        let cells = board.cells();
        let log = log_length(board);
        for lane in 0..6 {
            for length in [0, 1, log, board.places(), cells - 1, cells + 1, 2 * cells, 4096] {
                for operation in OPERATIONS {
                    let mut lent = some_frame(board, operation, trial.dice);
                    set_lane(&mut lent, lane, length);
                    check_all(trial, &format!("lane {lane} of length {length}"), board.side, &lent);
                }
            }
        }
        check_all(trial, "nothing lent", board.side, &nothing_lent());
    }
}

fn every_log(trial: &mut Trial) {
    for board in boards() {
        for operation in OPERATIONS {
            for length in 0..log_length(board) + 3 {
                let whole = some_frame(board, operation, trial.dice);
                let mut lent = whole.clone();
                lent.codes.resize(length, 77);
                check_all(trial, &format!("codes of length {length}"), board.side, &lent);
                let mut lent = whole;
                lent.moved.resize(length, 7777);
                check_all(trial, &format!("moved of length {length}"), board.side, &lent);
            }
        }
    }
}

/// Every cell at sides 1 to 3, some at the others.
fn cells_to_damage(board: Board, dice: &mut Dice) -> Vec<usize> {
    if board.side <= 3 {
        return (0..board.cells()).collect();
    }
    let mut cells = vec![0, board.places() - 1, board.places(), board.cells() - 1];
    cells.extend((0..16).map(|_| dice.below(board.cells())));
    cells
}

fn damaged_marks(trial: &mut Trial) {
    for board in boards() {
        for cell in cells_to_damage(board, trial.dice) {
            for operation in OPERATIONS {
                for mark in [2, 3, 128, 254, 255] {
                    let mut lent = some_frame(board, operation, trial.dice);
                    lent.front.marks[cell] = mark;
                    check_all(trial, &format!("mark {mark} in cell {cell}"), board.side, &lent);
                }
                let mut lent = some_frame(board, operation, trial.dice);
                lent.front.marks[cell] ^= 1;
                check_all(trial, &format!("mark of cell {cell} the other way"), board.side, &lent);
            }
        }
    }
}

fn damaged_aims(trial: &mut Trial) {
    for board in boards() {
        for cell in cells_to_damage(board, trial.dice) {
            for operation in OPERATIONS {
                let cells = board.cells() as u16;
                for change in [1, cells, cells.wrapping_neg(), u16::MAX] {
                    let mut lent = some_frame(board, operation, trial.dice);
                    lent.front.aims[cell] = lent.front.aims[cell].wrapping_add(change);
                    check_all(trial, &format!("aim of cell {cell} changed by {change}"), board.side, &lent);
                }
                for aim in [0, cells - 1, cells, u16::MAX] {
                    let mut lent = some_frame(board, operation, trial.dice);
                    lent.front.aims[cell] = aim;
                    check_all(trial, &format!("aim {aim} in cell {cell}"), board.side, &lent);
                }
            }
        }
    }
}

/// Makes something of a cell wrong.
type Fault = fn(&mut Lent, usize);

/// What is wrong with a frame besides its logs: nothing, the mark of a cell, its aim, or both.
const FAULTS: [(&str, Fault); 4] = [
    ("good", |_, _| ()),
    ("a bad mark", |lent, cell| lent.front.marks[cell] = 2),
    ("another aim", |lent, cell| lent.front.aims[cell] ^= 1),
    ("a bad mark and another aim", |lent, cell| (lent.front.marks[cell], lent.front.aims[cell]) = (255, u16::MAX)),
];

/// Stepping has to refuse the log, and plain to go on to the frame.
fn short_logs(trial: &mut Trial) {
    for board in boards() {
        let long = log_length(board);
        for (codes, moved) in [(0, 0), (long - 1, long), (long, long - 1)] {
            for ((name, damage), operation) in FAULTS.iter().flat_map(|&fault| OPERATIONS.map(|each| (fault, each))) {
                for _ in 0..SHORT_LOGS {
                    let mut lent = some_frame(board, operation, trial.dice);
                    damage(&mut lent, trial.dice.below(board.cells()));
                    lent.codes.truncate(codes);
                    lent.moved.truncate(moved);
                    check_all(trial, &format!("{name}, logs of {codes} and {moved}"), board.side, &lent);
                }
            }
        }
    }
}

/// Makes one thing wrong, or nothing.
fn damage(lent: &mut Lent, side: &mut usize, dice: &mut Dice) {
    let cells = lent.front.marks.len().min(lent.front.aims.len());
    if cells == 0 {
        return;
    }
    let (cell, other) = (dice.below(cells), dice.below(cells));
    match dice.below(12) {
        0 => *side = dice.below(10),
        1 => set_lane(lent, dice.below(6), dice.below(cells + 2)),
        2 => lent.codes.truncate(dice.below(lent.codes.len() + 1)),
        3 => lent.moved.truncate(dice.below(lent.moved.len() + 1)),
        4 | 5 => lent.front.marks[cell] = dice.roll() as u8,
        6 => lent.front.marks[cell] = dice.below(2) as u8,
        7 => lent.front.aims[cell] = dice.below(cells + 1) as u16,
        8 => lent.front.aims[cell] = dice.roll() as u16,
        9 => lent.front.aims.swap(cell, other),
        10 => lent.front.aims.iter_mut().for_each(|aim| *aim = aim.wrapping_add(1)),
        _ => (),
    }
}

fn mixed_damages(trial: &mut Trial) {
    for board in boards() {
        for round in 0..DAMAGED[board.side - 1] {
            let mut lent = some_frame(board, OPERATIONS[round % 2], trial.dice);
            let mut side = board.side;
            for _ in 0..1 + trial.dice.below(3) {
                damage(&mut lent, &mut side, trial.dice);
            }
            check_all(trial, "several damages", side, &lent);
        }
    }
}
