//! Frames for the tests: which cells are marked, and what the lanes hold that nothing may look at.

use crate::model::board::Board;
use crate::model::records::{Lanes, Lent};

/// Splitmix64: small, and the same numbers everywhere.
pub struct Dice {
    state: u64,
}

impl Dice {
    pub fn new(seed: u64) -> Dice {
        Dice { state: seed }
    }

    pub fn roll(&mut self) -> u64 {
        self.state = self.state.wrapping_add(0x9E37_79B9_7F4A_7C15);
        let mut mixed = self.state;
        mixed = (mixed ^ (mixed >> 30)).wrapping_mul(0xBF58_476D_1CE4_E5B9);
        mixed = (mixed ^ (mixed >> 27)).wrapping_mul(0x94D0_49BB_1331_11EB);
        mixed ^ (mixed >> 31)
    }

    pub fn below(&mut self, bound: usize) -> usize {
        (self.roll() % bound as u64) as usize
    }

    /// True in `times` of `of`.
    pub fn one_in(&mut self, times: usize, of: usize) -> bool {
        self.below(of) < times
    }

    /// Any word, the ends of the range more often than chance has them.
    pub fn word(&mut self) -> u32 {
        match self.below(8) {
            0 => 0,
            1 => u32::MAX,
            _ => self.roll() as u32,
        }
    }
}

#[derive(Clone, Copy, Debug, PartialEq, Eq)]
pub enum Kind {
    None,
    All,
    Single,
    AllButOne,
    Sparse,
    Half,
    Dense,
    /// A few groups full, the others empty: ranks start anywhere in a group.
    CrowdedGroups,
    /// Only the first and the last places of groups: past the end of a group lies another group's cell.
    GroupEnds,
    /// Only the first and the last columns of rows: past the end of a row lies the next row.
    RowEnds,
    /// One stretch of cells, across group ends.
    Stretch,
}

pub const KINDS: [Kind; 11] = [
    Kind::None,
    Kind::All,
    Kind::Single,
    Kind::AllButOne,
    Kind::Sparse,
    Kind::Half,
    Kind::Dense,
    Kind::CrowdedGroups,
    Kind::GroupEnds,
    Kind::RowEnds,
    Kind::Stretch,
];

pub fn marks(board: Board, kind: Kind, dice: &mut Dice) -> Vec<bool> {
    let cells = board.cells();
    let chosen = dice.below(cells);
    let length = dice.below(cells + 1 - chosen) + 1;
    let full: Vec<bool> = (0..board.places()).map(|_| dice.one_in(1, 3)).collect();
    let pick = |cell: usize, dice: &mut Dice| match kind {
        Kind::None => false,
        Kind::All => true,
        Kind::Single => cell == chosen,
        Kind::AllButOne => cell != chosen,
        Kind::Sparse => dice.one_in(1, 24),
        Kind::Half => dice.one_in(1, 2),
        Kind::Dense => dice.one_in(15, 16),
        Kind::CrowdedGroups => full[board.group(cell)],
        Kind::GroupEnds => at_end(board.place(cell), board.places()) && dice.one_in(3, 4),
        Kind::RowEnds => at_end(board.column(board.place(cell)), board.side) && dice.one_in(3, 4),
        Kind::Stretch => (chosen..chosen + length).contains(&cell),
    };
    (0..cells).map(|cell| pick(cell, dice)).collect()
}

fn at_end(position: usize, length: usize) -> bool {
    position == 0 || position == length - 1
}

/// Lanes that hold anything at all.
pub fn garbage(cells: usize, dice: &mut Dice) -> Lanes {
    Lanes {
        words: (0..cells).map(|_| dice.word()).collect(),
        marks: (0..cells).map(|_| dice.roll() as u8).collect(),
        aims: (0..cells).map(|_| dice.roll() as u16).collect(),
    }
}

pub fn garbage_codes(length: usize, dice: &mut Dice) -> Vec<u8> {
    (0..length).map(|_| dice.roll() as u8).collect()
}

pub fn garbage_counts(length: usize, dice: &mut Dice) -> Vec<u16> {
    (0..length).map(|_| dice.roll() as u16).collect()
}

/// A frame ready to be concentrated: the marked cells aimed at their ranks, garbage in all that nothing may look at.
pub fn to_concentrate(board: Board, marked: &[bool], log: usize, dice: &mut Dice) -> Lent {
    let mut front = garbage(board.cells(), dice);
    let mut rank = 0;
    for (cell, &mark) in marked.iter().enumerate() {
        front.marks[cell] = mark as u8;
        if mark {
            front.aims[cell] = rank;
            rank += 1;
        }
    }
    lent(front, log, dice)
}

/// A frame ready to be distributed to the marked cells.
pub fn to_distribute(board: Board, marked: &[bool], log: usize, dice: &mut Dice) -> Lent {
    let mut front = garbage(board.cells(), dice);
    front.marks.fill(0);
    let aims = (0..board.cells()).filter(|&cell| marked[cell]);
    for (rank, aim) in aims.enumerate() {
        front.marks[rank] = 1;
        front.aims[rank] = aim as u16;
    }
    lent(front, log, dice)
}

fn lent(front: Lanes, log: usize, dice: &mut Dice) -> Lent {
    let spare = garbage(front.marks.len(), dice);
    Lent { front, spare, codes: garbage_codes(log, dice), moved: garbage_counts(log, dice) }
}
