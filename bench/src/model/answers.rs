//! Answers, and the refusals that more than one operation has.
//!
//! Every operation judges in the rising order of the refusal numbers and stops at the first that applies: so the lowest is given.

use super::board::Board;
use super::moves::{counts, Move};

#[derive(Clone, Copy, Debug, PartialEq, Eq)]
pub struct Answer {
    pub number: usize,
    pub place: usize,
    pub electronic: usize,
    pub swaps: usize,
}

#[derive(Clone, Copy, Debug, PartialEq, Eq)]
pub struct Refusal {
    pub number: usize,
    pub place: usize,
}

pub type Judged<T> = Result<T, Refusal>;

impl Answer {
    pub fn accepted(made: &[Move]) -> Answer {
        let (electronic, swaps) = counts(made);
        Answer { number: 0, place: 0, electronic, swaps }
    }

    pub fn refused(refusal: Refusal) -> Answer {
        Answer { number: refusal.number, place: refusal.place, electronic: 0, swaps: 0 }
    }
}

pub fn refuse<T>(number: usize, place: usize) -> Judged<T> {
    Err(Refusal { number, place })
}

/// Refusal 1.
pub fn judge_side(side: usize) -> Judged<Board> {
    if (1..=8).contains(&side) {
        Ok(Board { side })
    } else {
        refuse(1, 0)
    }
}

/// Refusal 2.
pub fn judge_lanes(board: Board, lengths: &[usize]) -> Judged<()> {
    if lengths.iter().all(|&length| length == board.cells()) {
        Ok(())
    } else {
        refuse(2, 0)
    }
}

/// Refusal 3.
pub fn judge_logs(moves: &[Move], lengths: &[usize]) -> Judged<()> {
    if lengths.iter().all(|&length| length >= moves.len()) {
        Ok(())
    } else {
        refuse(3, 0)
    }
}

/// Refusal 4. An argument that is refused has no move list, so no log is too short for it.
pub fn judge_argument(good: bool) -> Judged<()> {
    if good {
        Ok(())
    } else {
        refuse(4, 0)
    }
}

/// Refusal 5.
pub fn judge_marks(marks: &[u8]) -> Judged<()> {
    match marks.iter().position(|&mark| mark > 1) {
        Some(cell) => refuse(5, cell),
        None => Ok(()),
    }
}

/// Refusal 7.
pub fn judge_cut(moves: &[Move], cut: usize) -> Judged<()> {
    if cut <= moves.len() {
        Ok(())
    } else {
        refuse(7, 0)
    }
}

/// A log longer than needed keeps its tail.
pub fn write_codes(moves: &[Move], codes: &mut [u8]) {
    for (code, step) in codes.iter_mut().zip(moves) {
        *code = step.code();
    }
}
