//! The operations on words alone, and rank: each by its result.

use super::answers::{judge_argument, judge_lanes, judge_logs, judge_marks, judge_side, write_codes};
use super::answers::{Answer, Judged};
use super::board::Board;
use super::moves::{self, Edge, Line, Move};

/// Every word becomes that of one cell.
pub fn broadcast(side: usize, words: &mut [u32], codes: &mut [u8], cell: usize) -> Answer {
    let judged = judge_words(side, words, codes, |board| (cell < board.cells()).then(|| moves::broadcast(board, cell)));
    finish(judged, codes, |_| words.fill(words[cell]))
}

/// Every word becomes the sum of all, modulo 2³².
pub fn data_sum(side: usize, words: &mut [u32], codes: &mut [u8]) -> Answer {
    let judged = judge_words(side, words, codes, |board| Some(moves::data_sum(board)));
    finish(judged, codes, |_| {
        let sum = words.iter().fold(0, |sum: u32, &word| sum.wrapping_add(word));
        words.fill(sum);
    })
}

/// The word at I becomes the sum of words 0 to I, modulo 2³².
pub fn prefix_sum(side: usize, words: &mut [u32], codes: &mut [u8]) -> Answer {
    let judged = judge_words(side, words, codes, |board| Some(moves::prefix_sum(board)));
    finish(judged, codes, |_| {
        let mut sum: u32 = 0;
        for word in words.iter_mut() {
            sum = sum.wrapping_add(*word);
            *word = sum;
        }
    })
}

/// One of the eight shifts.
pub fn shift(side: usize, words: &mut [u32], codes: &mut [u8], line: Line, edge: Edge, by: i32) -> Answer {
    let judged = judge_words(side, words, codes, |board| {
        let reach = board.side as i64;
        let good = -reach < by as i64 && (by as i64) < reach;
        good.then(|| moves::shift(board, line, edge, by))
    });
    finish(judged, codes, |board| {
        let before = words.to_vec();
        words.fill(0);
        for (cell, &word) in before.iter().enumerate() {
            if let Some(aim) = shifted(board, line, edge, by, cell) {
                words[aim] = word;
            }
        }
    })
}

/// A marked cell's aim is the number of marked cells of smaller index; any other's is 0.
pub fn rank(side: usize, marks: &[u8], aims: &mut [u16], codes: &mut [u8]) -> Answer {
    let judged = judge_rank(side, marks, aims, codes);
    finish(judged, codes, |_| {
        let mut smaller = 0;
        for (aim, &mark) in aims.iter_mut().zip(marks) {
            *aim = if mark == 1 { smaller } else { 0 };
            smaller += mark as u16;
        }
    })
}

/// The caller's own stretch of words for one group; empty where that is refused.
pub fn stretch(side: usize, words: &[u32], group: usize) -> &[u32] {
    match judge_stretch(side, words, group) {
        Ok(board) => &words[group * board.places()..(group + 1) * board.places()],
        Err(_) => &[],
    }
}

/// The companion of `stretch`: its number and place.
pub fn stretch_answer(side: usize, words: &[u32], group: usize) -> Answer {
    match judge_stretch(side, words, group) {
        Ok(_) => Answer::accepted(&[]),
        Err(refusal) => Answer::refused(refusal),
    }
}

fn judge_stretch(side: usize, words: &[u32], group: usize) -> Judged<Board> {
    let board = judge_side(side)?;
    judge_lanes(board, &[words.len()])?;
    judge_argument(group < board.places())?;
    Ok(board)
}

/// `list` gives the moves, or none where 4 refuses the argument.
fn judge_words(
    side: usize,
    words: &[u32],
    codes: &[u8],
    list: impl Fn(Board) -> Option<Vec<Move>>,
) -> Judged<(Board, Vec<Move>)> {
    let board = judge_side(side)?;
    judge_lanes(board, &[words.len()])?;
    let listed = list(board);
    let good = listed.is_some();
    let moves = listed.unwrap_or_default();
    judge_logs(&moves, &[codes.len()])?;
    judge_argument(good)?;
    Ok((board, moves))
}

fn judge_rank(side: usize, marks: &[u8], aims: &[u16], codes: &[u8]) -> Judged<(Board, Vec<Move>)> {
    let board = judge_side(side)?;
    let moves = moves::prefix_sum(board);
    judge_lanes(board, &[marks.len(), aims.len()])?;
    judge_logs(&moves, &[codes.len()])?;
    judge_marks(marks)?;
    Ok((board, moves))
}

fn finish(judged: Judged<(Board, Vec<Move>)>, codes: &mut [u8], act: impl FnOnce(Board)) -> Answer {
    match judged {
        Ok((board, moves)) => {
            act(board);
            write_codes(&moves, codes);
            Answer::accepted(&moves)
        }
        Err(refusal) => Answer::refused(refusal),
    }
}

/// Where a shift takes a cell's word; nowhere if it is dropped.
fn shifted(board: Board, line: Line, edge: Edge, by: i32, cell: usize) -> Option<usize> {
    let (group, place) = (board.group(cell), board.place(cell));
    match line {
        Line::MeshRow | Line::MeshColumn => slid(board, line, edge, by, place).map(|place| board.cell(group, place)),
        Line::GroupRow | Line::GroupColumn => slid(board, line, edge, by, group).map(|group| board.cell(group, place)),
    }
}

/// A place, or a group, slid along its row or its column.
fn slid(board: Board, line: Line, edge: Edge, by: i32, place: usize) -> Option<usize> {
    let (row, column) = (board.row(place), board.column(place));
    match line {
        Line::MeshRow | Line::GroupRow => {
            landing(board, edge, column as i32 + by).map(|column| board.place_at(row, column))
        }
        Line::MeshColumn | Line::GroupColumn => {
            landing(board, edge, row as i32 + by).map(|row| board.place_at(row, column))
        }
    }
}

fn landing(board: Board, edge: Edge, coordinate: i32) -> Option<usize> {
    let side = board.side as i32;
    match edge {
        Edge::Circular => Some(coordinate.rem_euclid(side) as usize),
        Edge::ZeroFill if 0 <= coordinate && coordinate < side => Some(coordinate as usize),
        Edge::ZeroFill => None,
    }
}
