//! A captured run of concentrate held to the move rule: the first move where the board left it.
//!
//! The rule's own run is written down move by move in the form that a capture has, and the two are laid side by side.

use super::answers::{judge_lanes, judge_side, refuse, Judged, Refusal};
use super::board::Board;
use super::job;
use super::moves;
use super::records::{self, Lanes, Operation};
use super::text::{number, Lines, LONGEST};

/// Captures are from sides up to this.
const GREATEST_SIDE: usize = 3;

#[derive(Clone, Copy, Debug, PartialEq, Eq)]
pub enum Outcome {
    Agrees,
    /// At this move, counted from 1.
    Differs(usize),
    /// After this move, the capture's last one.
    Early(usize),
    Refused(Refusal),
}

/// A move and the records after it, as a capture has them: any number is a good code, word and aim.
#[derive(Clone, Debug, PartialEq, Eq)]
pub struct Step {
    pub code: u32,
    pub records: Vec<Shown>,
}

#[derive(Clone, Copy, Debug, PartialEq, Eq)]
pub struct Shown {
    pub cell: u32,
    /// 0 front, 1 spare.
    pub slot: u32,
    pub word: u32,
    pub aim: u32,
}

/// Holds a capture to the run that starts from these lanes.
pub fn replay(side: usize, start: &Lanes, capture: &[u8]) -> Outcome {
    match judge(side, start, capture) {
        Ok((board, steps)) => compared(&steps, &rule(board, start)),
        Err(refusal) => Outcome::Refused(refusal),
    }
}

/// What the program finds in the bytes of a job and of a capture.
pub fn outcome(job: &[u8], capture: &[u8]) -> Outcome {
    match job::parse(job) {
        Ok(job) => replay(job.board.side, &job::ranked(&job), capture),
        Err(refusal) => Outcome::Refused(refusal),
    }
}

/// What the program prints for them.
pub fn printed(job: &[u8], capture: &[u8]) -> String {
    match outcome(job, capture) {
        Outcome::Agrees => "agrees\n".to_string(),
        Outcome::Differs(step) => format!("differs\t{step}\n"),
        Outcome::Early(step) => format!("early\t{step}\n"),
        Outcome::Refused(refusal) => job::refused_printed(refusal),
    }
}

/// The run of the rule from lanes that nothing refuses.
pub fn rule(board: Board, start: &Lanes) -> Vec<Step> {
    let states = records::states(Operation::Concentrate, board, start);
    let steps = moves::concentrate(board).into_iter().zip(&states[1..]);
    steps.map(|(step, state)| Step { code: step.code() as u32, records: shown(state) }).collect()
}

/// The capture of these moves, numbered from 1.
pub fn capture(steps: &[Step]) -> String {
    let mut text = String::new();
    for (before, step) in steps.iter().enumerate() {
        text += &format!("{}\t{}\n", before + 1, step.code);
        for Shown { cell, slot, word, aim } in &step.records {
            text += &format!("{cell}\t{slot}\t{word}\t{aim}\n");
        }
    }
    text
}

/// The records of a state in rising order of cell and slot.
fn shown((front, spare): &(Lanes, Lanes)) -> Vec<Shown> {
    let slots = (0..front.marks.len()).flat_map(|cell| [(cell, 0, front), (cell, 1, spare)]);
    let held = slots.filter(|(cell, _, lanes)| lanes.marks[*cell] == 1);
    held.map(|(cell, slot, lanes)| Shown {
        cell: cell as u32,
        slot,
        word: lanes.words[cell],
        aim: lanes.aims[cell] as u32,
    })
    .collect()
}

fn compared(captured: &[Step], rule: &[Step]) -> Outcome {
    match captured.iter().zip(rule).position(|(captured, rule)| captured != rule) {
        Some(before) => Outcome::Differs(before + 1),
        None if captured.len() < rule.len() => Outcome::Early(captured.len()),
        None => Outcome::Agrees,
    }
}

/// Refusals 1, 2, 5, 6 and 10, and the whole capture before anything of it is compared.
fn judge(side: usize, start: &Lanes, capture: &[u8]) -> Judged<(Board, Vec<Step>)> {
    let board = judge_side(side)?;
    judge_lanes(board, &start.lengths())?;
    records::judge_records(Operation::Concentrate, board, start)?;
    Ok((board, judge_capture(board, capture)?))
}

/// Refusal 10.
fn judge_capture(board: Board, capture: &[u8]) -> Judged<Vec<Step>> {
    if capture.len() > LONGEST || board.side > GREATEST_SIDE {
        return refuse(10, 0);
    }
    let mut steps = Vec::new();
    let mut lines = Lines::of(capture);
    while !lines.ended() {
        let good = lines.next_line().and_then(|line| take_line(board, &mut steps, line));
        good.ok_or(Refusal { number: 10, place: lines.number })?;
    }
    Ok(steps)
}

/// Adds what a line tells to the moves before it; none where the line is refused.
fn take_line(board: Board, steps: &mut Vec<Step>, line: &[u8]) -> Option<()> {
    let numbers: Option<Vec<u32>> = line.split(|&byte| byte == b'\t').map(number).collect();
    match numbers?[..] {
        [turn, code] => take_move(board, steps, turn, code),
        [cell, slot, word, aim] => take_record(board, steps.last_mut()?, Shown { cell, slot, word, aim }),
        _ => None,
    }
}

fn take_move(board: Board, steps: &mut Vec<Step>, turn: u32, code: u32) -> Option<()> {
    if turn as usize != steps.len() + 1 || turn as usize > moves::concentrate(board).len() {
        return None;
    }
    steps.push(Step { code, records: Vec::new() });
    Some(())
}

fn take_record(board: Board, step: &mut Step, record: Shown) -> Option<()> {
    let rises = step.records.last().is_none_or(|last| (last.cell, last.slot) < (record.cell, record.slot));
    if record.cell as usize >= board.cells() || record.slot > 1 || !rises {
        return None;
    }
    step.records.push(record);
    Some(())
}
