//! Captures for the tests: those of a board that follows the rule, and what can be done to them.

use crate::frames::{self, Dice, Kind, KINDS};
use crate::model::board::Board;
use crate::model::records::Lanes;
use crate::model::replay::{self, Shown, Step};

/// A starting table, with anything at all in its unmarked cells.
#[derive(Clone)]
pub struct Table {
    pub board: Board,
    pub start: Lanes,
}

/// What was done to a capture, and the capture then.
pub type Edit = (String, Vec<u8>);

impl Table {
    pub fn new(side: usize, marked: &[bool], dice: &mut Dice) -> Table {
        let board = Board { side };
        Table { board, start: frames::to_concentrate(board, marked, 0, dice).front }
    }

    /// With marks of a kind.
    pub fn some(side: usize, kind: Kind, dice: &mut Dice) -> Table {
        let marked = frames::marks(Board { side }, kind, dice);
        Table::new(side, &marked, dice)
    }

    /// With marks of any kind.
    pub fn any(side: usize, dice: &mut Dice) -> Table {
        let kind = KINDS[dice.below(KINDS.len())];
        Table::some(side, kind, dice)
    }

    /// With these cells marked, ten at most, and words of one digit, all different, so that the capture is small.
    pub fn small(side: usize, cells: &[usize], dice: &mut Dice) -> Table {
        let marked: Vec<bool> = (0..Board { side }.cells()).map(|cell| cells.contains(&cell)).collect();
        let mut table = Table::new(side, &marked, dice);
        let first = dice.below(10);
        for (rank, &cell) in cells.iter().enumerate() {
            table.start.words[cell] = ((first + 3 * rank) % 10) as u32;
        }
        table
    }

    pub fn steps(&self) -> Vec<Step> {
        replay::rule(self.board, &self.start)
    }

    pub fn capture(&self) -> Vec<u8> {
        text(&self.steps())
    }
}

/// Tables whose captures are small: at sides 2 and 3 also such where two records meet in a cell.
pub fn small_tables(dice: &mut Dice) -> Vec<Table> {
    let marked: [(usize, &[usize]); 9] = [
        (1, &[]),
        (1, &[0]),
        (2, &[]),
        (2, &[9]),
        (2, &[1, 6, 11]),
        (2, &[0, 4, 5]),
        (3, &[]),
        (3, &[0, 80]),
        (3, &[0, 1, 9, 11]),
    ];
    marked.iter().map(|(side, cells)| Table::small(*side, cells, dice)).collect()
}

fn text(steps: &[Step]) -> Vec<u8> {
    replay::capture(steps).into_bytes()
}

/// Changes one move: its code, a record lost, or a record's word, aim or slot; without records its code.
pub fn depart(steps: &mut [Step], dice: &mut Dice) {
    if steps.is_empty() {
        return;
    }
    let step = &mut steps[dice.below(steps.len())];
    let which = dice.below(step.records.len().max(1));
    match (dice.below(5), step.records.get_mut(which)) {
        (0, _) | (_, None) => step.code = dice.below(6) as u32,
        (1, Some(record)) => record.word ^= 1 << dice.below(32),
        (2, Some(record)) => record.aim ^= 1 << dice.below(32),
        (3, Some(record)) => record.slot ^= 1,
        (_, Some(_)) => drop(step.records.remove(which)),
    }
}

/// The first so many moves, for all of them.
pub fn cut_after_moves(steps: &[Step]) -> Vec<Edit> {
    (0..=steps.len()).map(|moves| (format!("{moves} moves"), text(&steps[..moves]))).collect()
}

/// Every byte dropped, doubled, changed to several others, those of the text's form among them, and with others before it.
pub fn every_byte(capture: &[u8], dice: &mut Dice) -> Vec<Edit> {
    const FORM: &[u8] = b"\t\n0";
    const OTHERS: &[u8] = b"123456789 \r-+x\0\xff";
    const BEFORE: &[u8] = b"\t\n0\r +-";
    let mut edits = Vec::new();
    for at in 0..capture.len() {
        let others = [(); 4].map(|()| OTHERS[dice.below(OTHERS.len())]);
        let near = [capture[at].wrapping_add(1), capture[at].wrapping_sub(1)];
        let bytes = FORM.iter().copied().chain(near).chain(others);
        for byte in bytes.filter(|&byte| byte != capture[at]) {
            let changed = [&capture[..at], &[byte], &capture[at + 1..]].concat();
            edits.push((format!("byte {at} is {byte}"), changed));
        }
        for &byte in BEFORE {
            edits.push((format!("{byte} before byte {at}"), [&capture[..at], &[byte], &capture[at..]].concat()));
        }
        edits.push((format!("byte {at} dropped"), [&capture[..at], &capture[at + 1..]].concat()));
        edits.push((format!("byte {at} doubled"), [&capture[..=at], &capture[at..]].concat()));
    }
    edits
}

/// Cut off behind every byte.
pub fn cut_after_bytes(capture: &[u8]) -> Vec<Edit> {
    (0..capture.len()).map(|bytes| (format!("{bytes} bytes"), capture[..bytes].to_vec())).collect()
}

/// Every line dropped, doubled, exchanged with the next, and put behind the last.
pub fn every_line(capture: &[u8]) -> Vec<Edit> {
    let lines: Vec<&[u8]> = capture.split_inclusive(|&byte| byte == b'\n').collect();
    let mut edits = Vec::new();
    for at in 0..lines.len() {
        let (before, line, behind) = (lines[..at].concat(), lines[at], lines[at + 1..].concat());
        edits.push((format!("line {} dropped", at + 1), [&before, &behind[..]].concat()));
        edits.push((format!("line {} doubled", at + 1), [&before, line, line, &behind].concat()));
        edits.push((format!("line {} put last", at + 1), [&before, &behind, line].concat()));
        let mut exchanged = lines.clone();
        exchanged.swap(at, (at + 1) % lines.len());
        edits.push((format!("line {} exchanged with the next", at + 1), exchanged.concat()));
    }
    edits
}

/// Every number changed to others: move numbers and codes, cells, slots, words and aims.
pub fn other_numbers(capture: &[u8], board: Board, dice: &mut Dice) -> Vec<Edit> {
    let capture = std::str::from_utf8(capture).expect("a capture is text");
    let lines: Vec<&str> = capture.lines().collect();
    let mut edits = Vec::new();
    for (at, line) in lines.iter().enumerate() {
        let fields: Vec<&str> = line.split('\t').collect();
        for field in 0..fields.len() {
            for other in others(fields[field], board, dice) {
                let mut fields = fields.clone();
                fields[field] = &other;
                let mut lines = lines.clone();
                let line = fields.join("\t");
                lines[at] = &line;
                edits.push((format!("line {} is {line:?}", at + 1), (lines.join("\n") + "\n").into_bytes()));
            }
        }
    }
    edits
}

/// Numbers beside this one, those that are the same in fewer bits, and ends of ranges; two of them are too large.
fn others(number: &str, board: Board, dice: &mut Dice) -> Vec<String> {
    let number: u64 = number.parse().expect("a capture has numbers alone");
    let cells = board.cells() as u64;
    let near =
        [number + 1, number.saturating_sub(1), number + 256, number + (1 << 16), number ^ (1 << 31), number + cells];
    let ends = [0, 1, 2, 5, cells - 1, cells, 65_535, u32::MAX as u64, 1 << 32, number + (1 << 32)];
    let others = near.into_iter().chain(ends).chain([dice.roll() as u32 as u64]);
    others.filter(|&other| other != number).map(|other| other.to_string()).collect()
}

/// A record added in slots where the rule has none: in all of them, or where the board is large in some.
pub fn records_added(steps: &[Step], board: Board, dice: &mut Dice) -> Vec<Edit> {
    let mut edits = Vec::new();
    for (at, step) in steps.iter().enumerate() {
        for slot in (0..2 * board.cells()).filter(|_| board.side < 3 || dice.one_in(1, 8)).collect::<Vec<_>>() {
            let (cell, slot) = ((slot / 2) as u32, (slot % 2) as u32);
            let place = step.records.partition_point(|record| (record.cell, record.slot) < (cell, slot));
            if step.records.get(place).is_some_and(|record| (record.cell, record.slot) == (cell, slot)) {
                continue;
            }
            let (word, aim) = some_record(step, dice);
            let mut steps = steps.to_vec();
            steps[at].records.insert(place, Shown { cell, slot, word, aim });
            edits.push((format!("a record added after move {} in cell {cell}, slot {slot}", at + 1), text(&steps)));
        }
    }
    edits
}

/// Word and aim of a record that is there, or 0 in both.
fn some_record(step: &Step, dice: &mut Dice) -> (u32, u32) {
    let which = dice.below(step.records.len() + 1);
    step.records.get(which).map_or((0, 0), |record| (record.word, record.aim))
}

/// Every record in the other slot, and every two neighbours with words, aims or both exchanged.
pub fn records_exchanged(steps: &[Step]) -> Vec<Edit> {
    let mut edits = Vec::new();
    for (at, step) in steps.iter().enumerate() {
        let mut edit = |what: &str, change: &dyn Fn(&mut [Shown])| {
            let mut steps = steps.to_vec();
            change(&mut steps[at].records);
            edits.push((format!("{what} after move {}", at + 1), text(&steps)));
        };
        for first in 0..step.records.len() {
            let second = (first + 1) % step.records.len();
            edit("another slot", &|records| records[first].slot ^= 1);
            edit("words exchanged", &|records| {
                (records[first].word, records[second].word) = (records[second].word, records[first].word)
            });
            edit("aims exchanged", &|records| {
                (records[first].aim, records[second].aim) = (records[second].aim, records[first].aim)
            });
            edit("records exchanged", &|records| {
                let (one, other) = (records[first], records[second]);
                records[first] = Shown { word: other.word, aim: other.aim, ..one };
                records[second] = Shown { word: one.word, aim: one.aim, ..other };
            });
        }
    }
    edits
}

/// After every move the records of the move before it, or of the one behind it, alone or from there on; and the moves of two
/// neighbours exchanged.
pub fn moves_exchanged(steps: &[Step]) -> Vec<Edit> {
    let mut edits = Vec::new();
    for at in 1..steps.len() {
        let mut late = steps.to_vec();
        late[at].records = steps[at - 1].records.clone();
        edits.push((format!("move {} has no effect", at + 1), text(&late)));
        let mut soon = steps.to_vec();
        soon[at - 1].records = steps[at].records.clone();
        edits.push((format!("move {at} is ahead"), text(&soon)));
        for step in at..steps.len() {
            late[step].records = steps[step - 1].records.clone();
        }
        edits.push((format!("one move late from move {} on", at + 1), text(&late)));
        let mut exchanged = steps.to_vec();
        exchanged.swap(at - 1, at);
        edits.push((format!("moves {at} and {} exchanged", at + 1), text(&exchanged)));
    }
    edits
}

#[cfg(test)]
mod tests {
    use super::*;
    use crate::model::replay::{replay, Outcome};

    fn has_spare(table: &Table) -> bool {
        table.steps().iter().any(|step| step.records.iter().any(|record| record.slot == 1))
    }

    #[test]
    fn in_small_tables_of_sides_2_and_3_records_meet() {
        let tables = small_tables(&mut Dice::new(1));
        for side in 1..=3 {
            assert_eq!(tables.iter().any(|table| table.board.side == side && has_spare(table)), side > 1);
        }
        assert!(tables.iter().all(|table| table.capture().len() < 1000));
    }

    #[test]
    fn a_move_that_departs_differs_or_is_as_it_was() {
        let dice = &mut Dice::new(2);
        let table = Table::small(2, &[1, 6, 11], dice);
        for _ in 0..200 {
            let mut steps = table.steps();
            depart(&mut steps, dice);
            let at = table.steps().iter().zip(&steps).position(|(rule, step)| rule != step);
            let wanted = at.map_or(Outcome::Agrees, |before| Outcome::Differs(before + 1));
            assert_eq!(replay(2, &table.start, &text(&steps)), wanted);
        }
    }

    #[test]
    fn a_record_added_differs() {
        let dice = &mut Dice::new(3);
        for table in small_tables(dice) {
            for (what, capture) in records_added(&table.steps(), table.board, dice) {
                assert!(matches!(replay(table.board.side, &table.start, &capture), Outcome::Differs(_)), "{what}");
            }
        }
    }

    #[test]
    fn edits_leave_no_capture_as_it_was() {
        let dice = &mut Dice::new(4);
        for table in small_tables(dice) {
            let capture = table.capture();
            let edits =
                [every_byte(&capture, dice), cut_after_bytes(&capture), other_numbers(&capture, table.board, dice)];
            assert!(edits.concat().iter().all(|(_, edited)| *edited != capture));
        }
    }
}
