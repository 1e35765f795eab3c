//! Rank, concentrate and distribute.

use super::{answer_line, lent, line, row};
use crate::model::board::Board;
use crate::model::plain;
use crate::model::records::{self, Lanes, Lent, Operation};
use crate::model::words;
use Operation::{Concentrate, Distribute};

pub fn starred() -> String {
    let hundred = |cell| 100 + cell as u32;
    let job = |cell| [(1, 70), (6, 71), (11, 72)].iter().find(|&&(at, _)| at == cell).map_or(0, |&(_, word)| word);
    let at = |cells: [usize; 3]| move |cell| cells.contains(&cell);
    [
        case("side 1, one cell marked", Concentrate, 1, 2, ranked(1, |_| true, hundred)),
        case("side 2, marks at 0, 4, 5", Concentrate, 2, 9, ranked(2, at([0, 4, 5]), hundred)),
        case("the job of the scope", Concentrate, 2, 9, ranked(2, at([1, 6, 11]), job)),
        case("distribute to 1, 6, 11", Distribute, 2, 9, gathered(2, at([1, 6, 11]), hundred)),
        case("side 2, all marked", Concentrate, 2, 9, ranked(2, |_| true, hundred)),
        case("side 2, none marked", Concentrate, 2, 9, ranked(2, |_| false, hundred)),
    ]
    .concat()
}

/// After move 1, and after all. Before concentrate comes the rank that gives the aims.
fn case(name: &str, operation: Operation, side: usize, log: usize, front: Lanes) -> String {
    let rank = match operation {
        Concentrate => rank_run(side, log, &front.marks),
        Distribute => String::new(),
    };
    let after_1 = cut_run(operation, side, 1, front.clone());
    line("case", &[name]) + &rank + &after_1 + &whole_run(operation, side, log, front)
}

/// Side 8, all cells marked: the sides and the cuts at the edge of what is accepted.
pub fn edges() -> String {
    let all_marked = || ranked(8, |_| true, |cell| 1 + cell as u32);
    let both_cut =
        |side, cut| cut_run(Concentrate, side, cut, all_marked()) + &cut_run(Distribute, side, cut, all_marked());
    let at_side = |side| {
        let whole = whole_run(Concentrate, side, 51, all_marked()) + &whole_run(Distribute, side, 51, all_marked());
        rank_run(side, 51, &all_marked().marks) + &whole + &both_cut(side, 0)
    };
    rank_run(8, 51, &all_marked().marks) + &[8, 9, 0].map(at_side).concat() + &both_cut(8, 51) + &both_cut(8, 52)
}

/// Side and kind of the frames whose states are printed. Cell i is marked where (5 i + i div 3) mod (kind + 1) is 0.
const FRAMES: [(usize, usize); 8] = [(1, 0), (2, 0), (2, 1), (2, 2), (3, 1), (3, 4), (4, 6), (4, 30)];

/// The lanes after every cut, 0 to all: of concentrate, and of distribute back to the same cells.
pub fn states() -> String {
    FRAMES.map(|(side, kind)| frame_states(side, kind)).concat()
}

fn frame_states(side: usize, kind: usize) -> String {
    let marked = move |cell| (5 * cell + cell / 3) % (kind + 1) == 0;
    let there = ranked(side, marked, |cell| 1000 + cell as u32);
    let back = gathered(side, marked, |rank| 1000 + rank as u32);
    let cuts = |operation, front: &Lanes| -> String {
        (0..=7 * (side - 1) + 2).map(|cut| cut_run(operation, side, cut, front.clone())).collect()
    };
    rank_run(side, 64, &there.marks) + &cuts(Concentrate, &there) + &cuts(Distribute, &back)
}

/// Front lanes with a word in every cell, some marked, and the aims that rank gives.
fn ranked(side: usize, marked: impl Fn(usize) -> bool, word: impl Fn(usize) -> u32) -> Lanes {
    let cells = Board { side }.cells();
    let mut front = Lanes::empty(cells);
    for cell in 0..cells {
        front.words[cell] = word(cell);
        front.marks[cell] = marked(cell) as u8;
    }
    words::rank(side, &front.marks, &mut front.aims, &mut [0; 51]);
    front
}

/// Front lanes with a record for each marked cell, gathered at the front and aimed back.
fn gathered(side: usize, marked: impl Fn(usize) -> bool, word: impl Fn(usize) -> u32) -> Lanes {
    let cells = Board { side }.cells();
    let mut front = Lanes::empty(cells);
    for (rank, home) in (0..cells).filter(|&cell| marked(cell)).enumerate() {
        front.words[rank] = word(rank);
        front.marks[rank] = 1;
        front.aims[rank] = home as u16;
    }
    front
}

fn name(operation: Operation) -> &'static str {
    match operation {
        Concentrate => "concentrate",
        Distribute => "distribute",
    }
}

fn rank_run(side: usize, log: usize, marks: &[u8]) -> String {
    let mut aims = vec![9; marks.len()];
    let mut codes = vec![9; log];
    let answer = words::rank(side, marks, &mut aims, &mut codes);
    let head = String::from("rank") + &lent(side, marks.len(), log);
    head + &answer_line(answer) + &row("codes", &codes) + &row("aims", &aims) + &plain_rank(side, marks)
}

/// The same without moves.
fn plain_rank(side: usize, marks: &[u8]) -> String {
    let mut aims = vec![9; marks.len()];
    let answer = plain::rank(side, marks, &mut aims);
    String::from("plain\n") + &answer_line(answer) + &row("aims", &aims)
}

/// The spare lanes hold what nothing looks at.
fn with_spare(front: Lanes, log: usize) -> Lent {
    let cells = front.words.len();
    let spare = Lanes { words: vec![7; cells], marks: vec![7; cells], aims: vec![7; cells] };
    Lent { front, spare, codes: vec![9; log], moved: vec![9; log] }
}

fn whole_run(operation: Operation, side: usize, log: usize, front: Lanes) -> String {
    let mut run = with_spare(front.clone(), log);
    let head = String::from(name(operation)) + &lent(side, run.front.words.len(), log);
    let answer = records::full(operation, side, &mut run);
    let logs = row("codes", &run.codes) + &row("moved", &run.moved);
    head + &answer_line(answer) + &both_lanes(&run) + &logs + &plain_run(operation, side, front)
}

fn plain_run(operation: Operation, side: usize, front: Lanes) -> String {
    let mut run = with_spare(front, 0);
    let answer = plain::at_once(operation, side, &mut run.front, &mut run.spare);
    String::from("plain\n") + &answer_line(answer) + &both_lanes(&run)
}

fn cut_run(operation: Operation, side: usize, cut: usize, front: Lanes) -> String {
    let mut run = with_spare(front, 0);
    let head = format!("{} cut\t{cut}", name(operation)) + &lent(side, run.front.words.len(), 0);
    let answer = records::cut(operation, side, &mut run.front, &mut run.spare, cut);
    head + &answer_line(answer) + &both_lanes(&run)
}

fn both_lanes(run: &Lent) -> String {
    lanes(&run.front) + "spare\n" + &lanes(&run.spare)
}

fn lanes(lanes: &Lanes) -> String {
    row("words", &lanes.words) + &row("marks", &lanes.marks) + &row("aims", &lanes.aims)
}
