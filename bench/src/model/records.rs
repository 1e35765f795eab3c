//! Concentrate and distribute, stepped record by record.
//!
//! The records are a list in the order of their ranks. All that a move changes is where each of them stands.

use super::answers::{judge_cut, judge_lanes, judge_logs, judge_marks, judge_side, refuse, write_codes};
use super::answers::{Answer, Judged};
use super::board::Board;
use super::moves::{self, Move};

/// The three lanes of one record for each cell.
#[derive(Clone, Debug, PartialEq, Eq)]
pub struct Lanes {
    pub words: Vec<u32>,
    pub marks: Vec<u8>,
    pub aims: Vec<u16>,
}

/// What a caller lends to a full run.
#[derive(Clone, Debug, PartialEq, Eq)]
pub struct Lent {
    pub front: Lanes,
    pub spare: Lanes,
    pub codes: Vec<u8>,
    pub moved: Vec<u16>,
}

#[derive(Clone, Copy, Debug, PartialEq, Eq)]
pub enum Operation {
    Concentrate,
    Distribute,
}

impl Lanes {
    pub fn empty(cells: usize) -> Lanes {
        Lanes { words: vec![0; cells], marks: vec![0; cells], aims: vec![0; cells] }
    }

    pub(super) fn lengths(&self) -> [usize; 3] {
        [self.words.len(), self.marks.len(), self.aims.len()]
    }

    fn clear(&mut self) {
        self.words.fill(0);
        self.marks.fill(0);
        self.aims.fill(0);
    }

    fn put(&mut self, cell: usize, record: Record) {
        self.words[cell] = record.word;
        self.marks[cell] = 1;
        self.aims[cell] = record.aim;
    }
}

/// What a record carries from the first move to the last.
#[derive(Clone, Copy, Debug, PartialEq, Eq)]
struct Record {
    word: u32,
    aim: u16,
}

/// A whole run: `stands[k][r]` is the cell of the record of rank r after k moves.
struct Run {
    board: Board,
    moves: Vec<Move>,
    records: Vec<Record>,
    stands: Vec<Vec<usize>>,
}

pub fn concentrate(side: usize, lent: &mut Lent) -> Answer {
    full(Operation::Concentrate, side, lent)
}

pub fn distribute(side: usize, lent: &mut Lent) -> Answer {
    full(Operation::Distribute, side, lent)
}

pub fn full(operation: Operation, side: usize, lent: &mut Lent) -> Answer {
    match judge_full(operation, side, lent) {
        Ok(board) => finish(run(operation, board, &lent.front), lent),
        Err(refusal) => Answer::refused(refusal),
    }
}

/// The first `cut` moves alone, with no log.
pub fn cut(operation: Operation, side: usize, front: &mut Lanes, spare: &mut Lanes, cut: usize) -> Answer {
    match judge_cut_run(operation, side, front, spare, cut) {
        Ok(board) => {
            let run = run(operation, board, front);
            run.lay(cut, front, spare);
            Answer::accepted(&run.moves[..cut])
        }
        Err(refusal) => Answer::refused(refusal),
    }
}

/// The front and spare lanes at every cut, 0 to all, of a run that nothing refuses.
pub fn states(operation: Operation, board: Board, front: &Lanes) -> Vec<(Lanes, Lanes)> {
    let run = run(operation, board, front);
    let state = |cut| {
        let (mut front, mut spare) = (Lanes::empty(board.cells()), Lanes::empty(board.cells()));
        run.lay(cut, &mut front, &mut spare);
        (front, spare)
    };
    (0..=run.moves.len()).map(state).collect()
}

fn finish(run: Run, lent: &mut Lent) -> Answer {
    run.lay(run.moves.len(), &mut lent.front, &mut lent.spare);
    write_codes(&run.moves, &mut lent.codes);
    for k in 0..run.moves.len() {
        lent.moved[k] = run.moved(k);
    }
    Answer::accepted(&run.moves)
}

impl Run {
    /// Leaves the state after `cut` moves in the lanes.
    fn lay(&self, cut: usize, front: &mut Lanes, spare: &mut Lanes) {
        front.clear();
        spare.clear();
        let mut standing: Vec<(Record, usize)> =
            self.records.iter().copied().zip(self.stands[cut].iter().copied()).collect();
        standing.sort_by_key(|(record, _)| record.aim);
        for (record, cell) in standing {
            if front.marks[cell] == 0 {
                front.put(cell, record);
            } else {
                assert_eq!(spare.marks[cell], 0, "cell {cell} of side {} holds three", self.board.side);
                spare.put(cell, record);
            }
        }
    }

    /// How many records changed cell in the move after `k` moves.
    fn moved(&self, k: usize) -> u16 {
        let pairs = self.stands[k].iter().zip(&self.stands[k + 1]);
        pairs.filter(|(before, after)| before != after).count() as u16
    }
}

fn list(operation: Operation, board: Board) -> Vec<Move> {
    match operation {
        Operation::Concentrate => moves::concentrate(board),
        Operation::Distribute => moves::distribute(board),
    }
}

fn run(operation: Operation, board: Board, front: &Lanes) -> Run {
    let marked: Vec<usize> = (0..board.cells()).filter(|&cell| front.marks[cell] == 1).collect();
    let records = marked.iter().map(|&cell| Record { word: front.words[cell], aim: front.aims[cell] });
    let records: Vec<Record> = records.collect();
    let stands = match operation {
        Operation::Concentrate => concentrating(board, marked),
        Operation::Distribute => distributing(board, &records),
    };
    Run { board, moves: list(operation, board), records, stands }
}

/// Where the records stand at every cut of concentrate, started from these cells.
fn concentrating(board: Board, starts: Vec<usize>) -> Vec<Vec<usize>> {
    let mut stands = vec![starts];
    let mut swaps = 0;
    for step in moves::concentrate(board) {
        let before = &stands[stands.len() - 1];
        let go = |(rank, &cell)| stepped(board, step, swaps, rank, cell);
        let after = before.iter().enumerate().map(go).collect();
        stands.push(after);
        swaps += usize::from(step == Move::Swap);
    }
    stands
}

/// Distribute after k moves stands as concentrate does with k moves to go, started from the cells that the aims name.
fn distributing(board: Board, records: &[Record]) -> Vec<Vec<usize>> {
    let mut stands = concentrating(board, records.iter().map(|record| record.aim as usize).collect());
    stands.reverse();
    stands
}

/// The move rule: where one move takes the record of that rank.
fn stepped(board: Board, step: Move, swaps: usize, rank: usize, cell: usize) -> usize {
    let (group, place) = (board.group(cell), board.place(cell));
    match step {
        Move::Swap => board.partner(cell),
        Move::Electronic(way) if board.lies(heading(board, rank, swaps), way, place) => {
            board.cell(group, board.onward(place, way))
        }
        Move::Electronic(_) => cell,
    }
}

fn heading(board: Board, rank: usize, swaps: usize) -> usize {
    match swaps {
        0 => rank % board.places(),
        1 => rank / board.places(),
        _ => unreachable!("no electronic move comes after the second swap"),
    }
}

fn judge_full(operation: Operation, side: usize, lent: &Lent) -> Judged<Board> {
    let board = judge_side(side)?;
    judge_lanes(board, &lent.front.lengths())?;
    judge_lanes(board, &lent.spare.lengths())?;
    judge_logs(&list(operation, board), &[lent.codes.len(), lent.moved.len()])?;
    judge_records(operation, board, &lent.front)?;
    Ok(board)
}

fn judge_cut_run(operation: Operation, side: usize, front: &Lanes, spare: &Lanes, cut: usize) -> Judged<Board> {
    let board = judge_side(side)?;
    judge_lanes(board, &front.lengths())?;
    judge_lanes(board, &spare.lengths())?;
    judge_records(operation, board, front)?;
    judge_cut(&list(operation, board), cut)?;
    Ok(board)
}

/// Refusals 5 and 6. The spare lanes are never looked at.
pub(super) fn judge_records(operation: Operation, board: Board, front: &Lanes) -> Judged<()> {
    judge_marks(&front.marks)?;
    match operation {
        Operation::Concentrate => judge_ranks(front),
        Operation::Distribute => judge_aims(board, front),
    }
}

/// Refusal 6 of concentrate.
fn judge_ranks(front: &Lanes) -> Judged<()> {
    let mut rank = 0;
    for (cell, &mark) in front.marks.iter().enumerate() {
        if mark == 1 && front.aims[cell] as usize != rank {
            return refuse(6, cell);
        }
        rank += mark as usize;
    }
    Ok(())
}

/// Refusal 6 of distribute.
fn judge_aims(board: Board, front: &Lanes) -> Judged<()> {
    let mut unmarked_before = false;
    let mut aim_before = None;
    for (cell, &mark) in front.marks.iter().enumerate() {
        let aim = front.aims[cell] as usize;
        let rises = aim_before.is_none_or(|before| aim > before);
        if mark == 1 && (unmarked_before || aim >= board.cells() || !rises) {
            return refuse(6, cell);
        }
        unmarked_before |= mark == 0;
        aim_before = Some(aim);
    }
    Ok(())
}
