//! The seven operations at once, without moves: each result by its sentence in the scope, each count by its formula.
//!
//! Nothing here asks the model that steps, and nothing is shared with it but the judging of sides, lengths and marks. No log is
//! taken, so refusal 3 never comes.

use super::answers::{judge_argument, judge_lanes, judge_marks, judge_side, refuse, Answer, Judged};
use super::board::Board;
use super::moves::{Edge, Line};
use super::records::{Lanes, Operation};

/// Electronic moves, and swaps.
type Counts = (usize, usize);

/// Every word is that of one cell.
pub fn broadcast(side: usize, words: &mut [u32], cell: usize) -> Answer {
    let judged = judge_words(side, words, |board| cell < board.cells());
    answered(judged, |board| {
        let word = words[cell];
        words.fill(word);
        (4 * (board.side - 1), 1)
    })
}

/// Every word is the sum of all.
pub fn data_sum(side: usize, words: &mut [u32]) -> Answer {
    answered(judge_words(side, words, |_| true), |board| {
        let sum = sum_of(words);
        words.fill(sum);
        (8 * (board.side - 1), 1)
    })
}

/// Prefix sum at I adds words 0 to I, I included.
pub fn prefix_sum(side: usize, words: &mut [u32]) -> Answer {
    answered(judge_words(side, words, |_| true), |board| {
        write(words, |before, cell| sum_of(&before[..=cell]));
        (7 * (board.side - 1), 2)
    })
}

/// The word at coordinate j of its line goes to coordinate j + k: so what a cell gets was k before it.
pub fn shift(side: usize, words: &mut [u32], line: Line, edge: Edge, by: i32) -> Answer {
    let judged = judge_words(side, words, |board| (by.unsigned_abs() as usize) < board.side);
    answered(judged, |board| {
        write(words, |before, cell| source(board, line, edge, by, cell).map_or(0, |source| before[source]));
        let electronic = match edge {
            Edge::ZeroFill => by.unsigned_abs() as usize,
            Edge::Circular if by == 0 => 0,
            Edge::Circular => board.side,
        };
        let swaps = match line {
            Line::MeshRow | Line::MeshColumn => 0,
            Line::GroupRow | Line::GroupColumn => 2,
        };
        (electronic, swaps)
    })
}

/// A marked cell's aim is the number of marked cells of smaller index, an unmarked cell's 0.
pub fn rank(side: usize, marks: &[u8], aims: &mut [u16]) -> Answer {
    answered(judge_rank(side, marks, aims), |board| {
        write(aims, |_, cell| if marks[cell] == 1 { marked_before(marks, cell) as u16 } else { 0 });
        (7 * (board.side - 1), 2)
    })
}

/// Concentrate or distribute.
pub fn at_once(operation: Operation, side: usize, front: &mut Lanes, spare: &mut Lanes) -> Answer {
    answered(judge_records(operation, side, front, spare), |board| {
        *front = match operation {
            Operation::Concentrate => concentrated(board, front),
            Operation::Distribute => distributed(board, front),
        };
        *spare = Lanes::empty(board.cells());
        (7 * (board.side - 1), 2)
    })
}

/// Cell r holds the word of rank r, mark 1, aim r; all other cells hold 0 in every lane.
fn concentrated(board: Board, front: &Lanes) -> Lanes {
    let mut after = Lanes::empty(board.cells());
    let marked = (0..board.cells()).filter(|&cell| front.marks[cell] == 1);
    for (rank, cell) in marked.enumerate() {
        (after.words[rank], after.marks[rank], after.aims[rank]) = (front.words[cell], 1, rank as u16);
    }
    after
}

/// The word of cell i ends in the cell its aim names, mark 1, aim unchanged; all else 0.
fn distributed(board: Board, front: &Lanes) -> Lanes {
    let mut after = Lanes::empty(board.cells());
    for cell in 0..board.cells() {
        let aim = front.aims[cell];
        if front.marks[cell] == 1 {
            let named = aim as usize;
            (after.words[named], after.marks[named], after.aims[named]) = (front.words[cell], 1, aim);
        }
    }
    after
}

// ---- from the cell's index

/// Every entry by what the lane held, and by its cell.
fn write<T: Copy>(lane: &mut [T], entry: impl Fn(&[T], usize) -> T) {
    let before = lane.to_vec();
    for (cell, now) in lane.iter_mut().enumerate() {
        *now = entry(&before, cell);
    }
}

/// Modulo 2³²: 4,096 words never pass 64 bits.
fn sum_of(words: &[u32]) -> u32 {
    let sum: u64 = words.iter().map(|&word| word as u64).sum();
    (sum % (1 << 32)) as u32
}

fn marked_before(marks: &[u8], cell: usize) -> usize {
    marks[..cell].iter().filter(|&&mark| mark == 1).count()
}

/// Where a shift brings a cell's word from. A cell's index has four digits to the base of the side: row and column of its
/// group, then row and column of its place. A shift changes one of them.
fn source(board: Board, line: Line, edge: Edge, by: i32, cell: usize) -> Option<usize> {
    let side = board.side as i64;
    let weight = match line {
        Line::MeshRow => 1,
        Line::MeshColumn => side,
        Line::GroupRow => side.pow(2),
        Line::GroupColumn => side.pow(3),
    };
    let digit = cell as i64 / weight % side;
    let from = match edge {
        Edge::ZeroFill => digit - by as i64,
        Edge::Circular => (digit - by as i64).rem_euclid(side),
    };
    (0..side).contains(&from).then(|| (cell as i64 + (from - digit) * weight) as usize)
}

// ---- refusals, in the order of their numbers

fn answered(judged: Judged<Board>, act: impl FnOnce(Board) -> Counts) -> Answer {
    match judged {
        Ok(board) => {
            let (electronic, swaps) = act(board);
            Answer { number: 0, place: 0, electronic, swaps }
        }
        Err(refusal) => Answer::refused(refusal),
    }
}

fn judge_words(side: usize, words: &[u32], good: impl Fn(Board) -> bool) -> Judged<Board> {
    let board = judge_side(side)?;
    judge_lanes(board, &[words.len()])?;
    judge_argument(good(board))?;
    Ok(board)
}

fn judge_rank(side: usize, marks: &[u8], aims: &[u16]) -> Judged<Board> {
    let board = judge_side(side)?;
    judge_lanes(board, &[marks.len(), aims.len()])?;
    judge_marks(marks)?;
    Ok(board)
}

fn judge_records(operation: Operation, side: usize, front: &Lanes, spare: &Lanes) -> Judged<Board> {
    let board = judge_side(side)?;
    judge_lanes(board, &front.lengths())?;
    judge_lanes(board, &spare.lengths())?;
    judge_marks(&front.marks)?;
    let misaimed = |&cell: &usize| match operation {
        Operation::Concentrate => front.aims[cell] as usize != marked_before(&front.marks, cell),
        Operation::Distribute => misplaced(board, front, cell),
    };
    match (0..board.cells()).filter(|&cell| front.marks[cell] == 1).find(misaimed) {
        Some(cell) => refuse(6, cell),
        None => Ok(board),
    }
}

/// Of a marked cell: whether it comes after an unmarked one, or its aim is s⁴ or more or not above the aim before it.
fn misplaced(board: Board, front: &Lanes, cell: usize) -> bool {
    let aim = front.aims[cell];
    let rises = cell == 0 || aim > front.aims[cell - 1];
    front.marks[..cell].contains(&0) || aim as usize >= board.cells() || !rises
}
