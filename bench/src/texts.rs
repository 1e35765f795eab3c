//! Texts for the tests: jobs, damaged ones, and captures of a length.

use crate::frames::Dice;
use crate::model::board::Board;
use crate::model::moves;

/// The job of these marked cells, with any words.
pub fn job(board: Board, marked: &[bool], dice: &mut Dice) -> Vec<u8> {
    let mut text = format!("side\t{}\n", board.side);
    for cell in (0..board.cells()).filter(|&cell| marked[cell]) {
        text += &format!("{cell}\t{}\n", dice.word());
    }
    text.into_bytes()
}

/// Changes the text in one place, as often as not near its start, where lines are few.
pub fn damage(text: &mut Vec<u8>, dice: &mut Dice) {
    const BYTES: &[u8] = b"0123456789\t\n\r -+.xs\0\xff";
    if text.is_empty() {
        return;
    }
    let reach = if dice.one_in(1, 2) { text.len().min(40) } else { text.len() };
    let at = dice.below(reach);
    let byte = BYTES[dice.below(BYTES.len())];
    match dice.below(6) {
        0 => text[at] = byte,
        1 => text.insert(at, byte),
        2 => drop(text.remove(at)),
        3 => text.truncate(at),
        4 => text.push(byte),
        _ => text.extend_from_within(at..reach),
    }
}

/// A text of that length, its rest one line that is none.
pub fn padded(start: &str, length: usize) -> Vec<u8> {
    let mut text = start.as_bytes().to_vec();
    text.resize(length, b'7');
    text
}

/// A long line that a record of any cell can have.
const LONG_LINE: usize = "8\t1\t4294967295\t4294967295\n".len();

/// A well-formed capture of side 3 with exactly so many bytes, some ten thousands: every slot of every cell has a record, and
/// no board has such ones. The last two lines are made as long as what is left.
pub fn long_capture(bytes: usize) -> Vec<u8> {
    let board = Board { side: 3 };
    let mut text = String::new();
    for (before, step) in moves::concentrate(board).iter().enumerate() {
        text += &format!("{}\t{}\n", before + 1, step.code());
        for slot in 0..2 * board.cells() {
            let line = match bytes - text.len() {
                0 => return text.into_bytes(),
                left if left >= 2 * LONG_LINE => LONG_LINE,
                left if left > LONG_LINE => left / 2,
                left => left,
            };
            text += &record_line(slot / 2, slot % 2, line);
        }
    }
    panic!("no capture of side 3 has {bytes} bytes");
}

/// A record's line of so many bytes.
fn record_line(cell: usize, slot: usize, bytes: usize) -> String {
    let head = format!("{cell}\t{slot}\t");
    let digits = bytes - head.len() - 2;
    let word = &"4294967295"[..digits / 2];
    let aim = &"4294967295"[..digits - digits / 2];
    format!("{head}{word}\t{aim}\n")
}

#[cfg(test)]
mod tests {
    use super::*;
    use crate::model::records::Lanes;
    use crate::model::replay::{replay, Outcome};

    #[test]
    fn a_long_capture_is_as_long_as_wanted_and_well_formed() {
        for bytes in 65_300..=65_536 {
            let text = long_capture(bytes);
            assert_eq!(text.len(), bytes);
            assert_eq!(replay(3, &Lanes::empty(81), &text), Outcome::Differs(1));
        }
        assert_eq!(long_capture(65_537).len(), 65_537);
    }
}
