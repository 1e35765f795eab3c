//! The operations on words, and a group's own stretch of words.

use super::{answer_line, lent, row};
use crate::model::answers::Answer;
use crate::model::board::Board;
use crate::model::moves::{Edge, Line};
use crate::model::plain;
use crate::model::words;

#[derive(Clone, Copy)]
enum Operation {
    Broadcast(usize),
    DataSum,
    PrefixSum,
    Shift(Line, Edge, i32),
}

use Operation::{Broadcast, DataSum, PrefixSum, Shift};

impl Operation {
    fn name(self) -> String {
        match self {
            Broadcast(cell) => format!("broadcast\t{cell}"),
            DataSum => String::from("data sum"),
            PrefixSum => String::from("prefix sum"),
            Shift(line, edge, by) => format!("shift {}, {}\t{by}", line_name(line), edge_name(edge)),
        }
    }

    fn call(self, side: usize, words: &mut [u32], codes: &mut [u8]) -> Answer {
        match self {
            Broadcast(cell) => words::broadcast(side, words, codes, cell),
            DataSum => words::data_sum(side, words, codes),
            PrefixSum => words::prefix_sum(side, words, codes),
            Shift(line, edge, by) => words::shift(side, words, codes, line, edge, by),
        }
    }

    fn plainly(self, side: usize, words: &mut [u32]) -> Answer {
        match self {
            Broadcast(cell) => plain::broadcast(side, words, cell),
            DataSum => plain::data_sum(side, words),
            PrefixSum => plain::prefix_sum(side, words),
            Shift(line, edge, by) => plain::shift(side, words, line, edge, by),
        }
    }
}

const LINES: [Line; 4] = [Line::MeshRow, Line::MeshColumn, Line::GroupRow, Line::GroupColumn];

fn line_name(line: Line) -> &'static str {
    match line {
        Line::MeshRow => "mesh row",
        Line::MeshColumn => "mesh column",
        Line::GroupRow => "group row",
        Line::GroupColumn => "group column",
    }
}

const EDGES: [Edge; 2] = [Edge::ZeroFill, Edge::Circular];

fn edge_name(edge: Edge) -> &'static str {
    match edge {
        Edge::ZeroFill => "zero fill",
        Edge::Circular => "circular",
    }
}

fn run(operation: Operation, side: usize, mut words: Vec<u32>, log: usize) -> String {
    let mut codes = vec![9; log];
    let mut plain = words.clone();
    let head = operation.name() + &lent(side, words.len(), log);
    let answer = operation.call(side, &mut words, &mut codes);
    let plain_answer = operation.plainly(side, &mut plain);
    let stepped = head + &answer_line(answer) + &row("codes", &codes) + &row("words", &words);
    stepped + "plain\n" + &answer_line(plain_answer) + &row("words", &plain)
}

/// Words that count up from the first, modulo 2³².
fn counted(first: u32, length: usize) -> Vec<u32> {
    (0..length as u32).map(|i| first.wrapping_add(i)).collect()
}

pub fn starred() -> String {
    let mut wrapping = vec![0; 16];
    wrapping[0] = u32::MAX;
    wrapping[1] = 2;
    [
        run(PrefixSum, 2, wrapping.clone(), 9),
        run(DataSum, 2, wrapping, 9),
        run(Shift(Line::MeshRow, Edge::ZeroFill, 1), 2, counted(0, 16), 1),
        run(Shift(Line::GroupColumn, Edge::Circular, 1), 2, counted(0, 16), 4),
    ]
    .concat()
}

pub fn at_every_side() -> String {
    (1..=8).map(at_side).collect()
}

/// What is refused, and beside it what is just not.
pub fn refused() -> String {
    let tried = [
        lengths(Broadcast(15), 5),
        lengths(DataSum, 9),
        lengths(PrefixSum, 9),
        lengths(Shift(Line::MeshRow, Edge::ZeroFill, 1), 1),
        lengths(Shift(Line::GroupColumn, Edge::Circular, 1), 4),
    ];
    let by_nothing = [1, 2, 8].map(circular_by_nothing);
    let stretches = stretch_run(2, 0, 15) + &stretch_run(2, 4, 17);
    let refused_sides = [0, 9, usize::MAX].map(refused_side);
    tried.concat() + &by_nothing.concat() + &far_arguments() + &stretches + &refused_sides.concat()
}

/// The words of the sums come near 2³², and so their sums pass it.
const LARGE: u32 = u32::MAX - 5;

/// Every operation on a board: broadcasts from the corners of its cells, one between, and past the end; the shifts by every
/// distance, and one further both ways.
fn at_side(side: usize) -> String {
    let cells = Board { side }.cells();
    let broadcast = |cell| run(Broadcast(cell), side, counted(1, cells), 64);
    let mut text: String = broadcast_cells(Board { side }).map(broadcast).concat();
    text += &run(DataSum, side, counted(LARGE, cells), 64);
    text += &run(PrefixSum, side, counted(LARGE, cells), 64);
    for line in LINES {
        for edge in EDGES {
            for by in -(side as i32)..=side as i32 {
                text += &run(Shift(line, edge, by), side, counted(1, cells), 10);
            }
        }
    }
    text + &stretches(side)
}

fn broadcast_cells(board: Board) -> [usize; 5] {
    [0, board.places() - 1, board.cells() * 11 / 17, board.cells() - 1, board.cells()]
}

/// On a board of side 2: lanes and logs of other lengths than asked for, and beside them good ones.
fn lengths(operation: Operation, moves: usize) -> String {
    let sized = |(lane, log)| run(operation, 2, counted(1, lane), log);
    [(15, moves), (17, 0), (16, 0), (16, moves - 1), (16, moves), (16, moves + 1)].map(sized).concat()
}

/// Logs of no, one and two entries: on a mesh there is no move to log, on groups the two swaps.
fn circular_by_nothing(side: usize) -> String {
    let cells = Board { side }.cells();
    let logged = |line, log| run(Shift(line, Edge::Circular, 0), side, counted(1, cells), log);
    LINES.map(|line| [0, 1, 2].map(|log| logged(line, log)).concat()).concat()
}

/// Arguments far past the last, whose list counts as empty, so that no log is too short for it.
fn far_arguments() -> String {
    [
        run(Broadcast(usize::MAX), 2, counted(1, 16), 0),
        run(Broadcast(16), 2, counted(1, 15), 0),
        run(Shift(Line::MeshRow, Edge::ZeroFill, i32::MAX), 2, counted(1, 16), 0),
        run(Shift(Line::GroupRow, Edge::Circular, i32::MIN), 2, counted(1, 16), 0),
    ]
    .concat()
}

/// The lanes of side 8, told another side.
fn refused_side(side: usize) -> String {
    let operations = [Broadcast(0), DataSum, PrefixSum, Shift(Line::MeshRow, Edge::ZeroFill, 0)];
    operations.map(|operation| run(operation, side, counted(1, 4096), 64)).concat() + &stretch_run(side, 0, 4096)
}

/// The first group, the last, one past it and one far past it.
fn stretches(side: usize) -> String {
    let board = Board { side };
    let at = |group| stretch_run(side, group, board.cells());
    [0, board.places() - 1, board.places(), usize::MAX].map(at).concat()
}

/// The stretch as it is handed back, and all words.
fn stretch_run(side: usize, group: usize, lane: usize) -> String {
    let words = counted(1, lane);
    let head = format!("group words\t{group}") + &lent(side, lane, 0);
    let answer = words::stretch_answer(side, &words, group);
    let part = words::stretch(side, &words, group);
    head + &answer_line(answer) + &row("part", part) + &row("words", &words)
}
