//! The job program: reads a job, and says what is to be printed.

use super::answers::{judge_side, refuse, Answer, Judged, Refusal};
use super::board::Board;
use super::moves;
use super::records::{self, Lanes, Lent};
use super::text::{number, Lines, LONGEST};
use super::words;

/// A job that nothing refuses: the marked cells, rising, each with its word.
pub struct Job {
    pub board: Board,
    pub marked: Vec<(usize, u32)>,
}

/// What the program prints for a job.
pub fn printed(input: &[u8]) -> String {
    match parse(input) {
        Ok(job) => moves_printed(&job),
        Err(refusal) => refused_printed(refusal),
    }
}

pub fn parse(input: &[u8]) -> Judged<Job> {
    if input.len() > LONGEST {
        return refuse(8, 0);
    }
    let mut lines = Lines::of(input);
    let board = parse_side(&mut lines)?;
    let mut marked: Vec<(usize, u32)> = Vec::new();
    while !lines.ended() {
        let (cell, word) = lines.next_line().and_then(cell_line).ok_or(bad(&lines))?;
        let rises = marked.last().is_none_or(|&(before, _)| cell > before);
        if cell >= board.cells() || !rises {
            return Err(bad(&lines));
        }
        marked.push((cell, word));
    }
    Ok(Job { board, marked })
}

/// The line that was read last, refused.
fn bad(lines: &Lines) -> Refusal {
    Refusal { number: 8, place: lines.number }
}

fn parse_side(lines: &mut Lines) -> Judged<Board> {
    let line = lines.next_line();
    let side = line.and_then(side_line).ok_or(bad(lines))?;
    judge_side(side)
}

fn side_line(line: &[u8]) -> Option<usize> {
    let (name, side) = fields(line)?;
    if name != b"side" {
        return None;
    }
    number(side).map(|side| side as usize)
}

fn cell_line(line: &[u8]) -> Option<(usize, u32)> {
    let (cell, word) = fields(line)?;
    Some((number(cell)? as usize, number(word)?))
}

/// Two fields parted by one tab. A second tab stays in the second field, where no number has one.
fn fields(line: &[u8]) -> Option<(&[u8], &[u8])> {
    let tab = line.iter().position(|&byte| byte == b'\t')?;
    Some((&line[..tab], &line[tab + 1..]))
}

pub(super) fn refused_printed(refusal: Refusal) -> String {
    format!("refused\t{}\t{}\n", refusal.number, refusal.place)
}

/// The front lanes of a job, ranked.
pub fn ranked(job: &Job) -> Lanes {
    let mut front = Lanes::empty(job.board.cells());
    for &(cell, word) in &job.marked {
        front.words[cell] = word;
        front.marks[cell] = 1;
    }
    let mut codes = vec![0; moves::prefix_sum(job.board).len()];
    let answer = words::rank(job.board.side, &front.marks, &mut front.aims, &mut codes);
    assert_eq!(answer.number, 0);
    front
}

fn concentrated(job: &Job) -> (Answer, Lent) {
    let length = moves::concentrate(job.board).len();
    let mut lent = Lent {
        front: ranked(job),
        spare: Lanes::empty(job.board.cells()),
        codes: vec![0; length],
        moved: vec![0; length],
    };
    let answer = records::concentrate(job.board.side, &mut lent);
    (answer, lent)
}

fn moves_printed(job: &Job) -> String {
    let (answer, lent) = concentrated(job);
    let mut text = String::from("move\tkind\tway\tmoved\n");
    for (k, step) in moves::concentrate(job.board).iter().enumerate() {
        text += &format!("{}\t{}\t{}\t{}\n", k + 1, step.kind(), step.way(), lent.moved[k]);
    }
    let moved: u32 = lent.moved.iter().map(|&moved| moved as u32).sum();
    text += &format!("all\t{}\t{}\t{}\n", answer.electronic, answer.swaps, moved);
    for cell in 0..job.marked.len() {
        text += &format!("{}\t{}\n", cell, lent.front.words[cell]);
    }
    text
}
