//! Calls of the functions of `include/otis.h` as `c/server.c` and `c/replay_server.c` take them, and the answers that they must
//! give.

use crate::fence::{parted, write_between, write_fenced, Post, FENCE};
use crate::model::answers::Answer;
use crate::model::records::{Lanes, Lent, Operation};
use crate::model::replay::Outcome;

#[derive(Clone, Copy, Debug, PartialEq, Eq)]
pub enum Function {
    Rank,
    Run(Operation),
    PlainRank,
    PlainRun(Operation),
    Replay,
}

impl Function {
    /// Its number in a request. The replay has a server of its own.
    fn number(self) -> usize {
        match self {
            Function::Rank | Function::Replay => 1,
            Function::Run(Operation::Concentrate) => 2,
            Function::Run(Operation::Distribute) => 3,
            Function::PlainRank => 4,
            Function::PlainRun(Operation::Concentrate) => 5,
            Function::PlainRun(Operation::Distribute) => 6,
        }
    }

    /// What the four numbers of its answer are.
    fn answer_names(self) -> [&'static str; 4] {
        match self {
            Function::Replay => ["outcome", "move", "number", "place"],
            _ => ["number", "place", "electronic", "swaps"],
        }
    }
}

/// An answer as C has it.
pub trait Numbers {
    fn numbers(&self) -> [usize; 4];
}

impl Numbers for Answer {
    fn numbers(&self) -> [usize; 4] {
        [self.number, self.place, self.electronic, self.swaps]
    }
}

impl Numbers for Outcome {
    fn numbers(&self) -> [usize; 4] {
        match *self {
            Outcome::Agrees => [0; 4],
            Outcome::Differs(step) => [1, step, 0, 0],
            Outcome::Early(step) => [2, step, 0, 0],
            Outcome::Refused(refusal) => [3, 0, refusal.number, refusal.place],
        }
    }
}

/// The request that asks for the answers so far.
pub const SEND: [u8; 8] = [0; 8];

/// What is lent to rank.
#[derive(Clone, Debug, PartialEq, Eq)]
pub struct Ranked {
    pub marks: Vec<u8>,
    pub aims: Vec<u16>,
    pub codes: Vec<u8>,
}

/// What is lent to a replay, and what stands around the capture: whoever reads past its end might take that for a part of it.
#[derive(Clone, Debug, PartialEq, Eq)]
pub struct Replayed {
    pub start: Lanes,
    pub capture: Vec<u8>,
    pub post: u8,
}

/// What is lent to a function: its slices, in the order of the header, which has the lanes before the logs.
pub trait Slices {
    fn write_lanes(&self, slices: &mut Written);
    fn write_logs(&self, slices: &mut Written);
}

impl Slices for Ranked {
    fn write_lanes(&self, slices: &mut Written) {
        slices.add("marks", &self.marks);
        slices.add("aims", &self.aims);
    }

    fn write_logs(&self, slices: &mut Written) {
        slices.add("codes", &self.codes);
    }
}

impl Slices for Lent {
    fn write_lanes(&self, slices: &mut Written) {
        slices.add("words", &self.front.words);
        slices.add("marks", &self.front.marks);
        slices.add("aims", &self.front.aims);
        slices.add("spare words", &self.spare.words);
        slices.add("spare marks", &self.spare.marks);
        slices.add("spare aims", &self.spare.aims);
    }

    fn write_logs(&self, slices: &mut Written) {
        slices.add("codes", &self.codes);
        slices.add("moved", &self.moved);
    }
}

impl Slices for Replayed {
    fn write_lanes(&self, slices: &mut Written) {
        slices.add("words", &self.start.words);
        slices.add("marks", &self.start.marks);
        slices.add("aims", &self.start.aims);
        slices.add_between("capture", &self.capture, self.post);
    }

    fn write_logs(&self, _: &mut Written) {}
}

struct Slice {
    name: &'static str,
    width: usize,
    length: usize,
}

/// Slices between their fences, as they go through the pipe.
#[derive(Default)]
pub struct Written {
    slices: Vec<Slice>,
    bytes: Vec<u8>,
}

impl Written {
    /// The lanes alone for a function that takes no log.
    fn of(lent: &impl Slices, function: Function) -> Written {
        let mut written = Written::default();
        lent.write_lanes(&mut written);
        if matches!(function, Function::Rank | Function::Run(_)) {
            lent.write_logs(&mut written);
        }
        written
    }

    fn add<T: Post>(&mut self, name: &'static str, slice: &[T]) {
        self.slices.push(Slice { name, width: T::WIDTH, length: slice.len() });
        write_fenced(slice, &mut self.bytes);
    }

    fn add_between<T: Post>(&mut self, name: &'static str, slice: &[T], post: T) {
        self.slices.push(Slice { name, width: T::WIDTH, length: slice.len() });
        write_between(slice, post, &mut self.bytes);
    }
}

/// A call, and what it must answer.
pub struct Call {
    pub function: Function,
    pub side: usize,
    slices: Vec<Slice>,
    pub request: Vec<u8>,
    pub wanted: Vec<u8>,
}

impl Call {
    /// The call of a function on what is lent, which has to leave what is left and to give the answer.
    pub fn new<T: Slices>(function: Function, side: usize, lent: &T, left: &T, answer: impl Numbers) -> Call {
        let Written { slices, bytes: before } = Written::of(lent, function);
        let after = Written::of(left, function).bytes;
        let mut head = vec![function.number(), side];
        head.extend(slices.iter().map(|slice| slice.length));
        let request = [numbers(&head), before].concat();
        let wanted = [numbers(&answer.numbers()), after].concat();
        Call { function, side, slices, request, wanted }
    }

    /// What is wrong with an answer, told for a reader.
    pub fn told(&self, got: &[u8]) -> String {
        self.told_against(got, &self.wanted)
    }

    fn told_against(&self, got: &[u8], wanted: &[u8]) -> String {
        let ((answer, left), (wanted, wanted_left)) = (got.split_at(ANSWER), wanted.split_at(ANSWER));
        let difference = self.difference(left, wanted_left).unwrap_or("lanes and logs as wanted".to_string());
        let fences = if self.fences(left) == self.fences(wanted_left) { "fences whole" } else { "FENCES BROKEN" };
        let (answer, wanted) = (self.told_answer(answer), self.told_answer(wanted));
        format!("answer {answer}\n  wanted {wanted}\n  {difference}; {fences}")
    }

    /// Whether what a plain function gave fits what the stepping function of its name gave on the same lanes: the answer and
    /// all lanes are the same; but where a log is too short, stepping says so exactly where plain finds no lower number.
    /// Else what is wrong, told for a reader.
    pub fn beside(&self, got: &[u8], stepped: &[u8], short_log: bool) -> Result<(), String> {
        let (plain, stepping) = (number(&got[..8]), number(&stepped[..8]));
        if short_log && [0, 5, 6].contains(&plain) {
            let told = || format!("stepping, with too short a log, answers {stepping} where plain answers {plain}");
            return if stepping == 3 { Ok(()) } else { Err(told()) };
        }
        // the answer and the lanes come first in both
        let stepped = &stepped[..got.len()];
        if got == stepped {
            Ok(())
        } else {
            Err(format!("not as stepping: {}", self.told_against(got, stepped)))
        }
    }

    fn told_answer(&self, bytes: &[u8]) -> String {
        let named = self.function.answer_names().into_iter().zip(bytes.chunks(8).map(number));
        named.map(|(name, number)| format!("{name} {number}")).collect::<Vec<_>>().join(" ")
    }

    /// What was lent, so that a failure can be made again by hand: the marks, and of a replay all of it.
    pub fn told_lent(&self) -> String {
        let slices = &self.request[8 * (2 + self.slices.len())..];
        let is_told = |slice: &Slice| slice.name == "marks" || self.function == Function::Replay;
        let told = self.parts(slices).filter(|(slice, _)| is_told(slice));
        let told: Vec<String> = told.map(|(slice, whole)| slice.told(parted(whole, slice.width).1)).collect();
        told.join("\n  ")
    }

    /// The slices, each with its bytes.
    fn parts<'a>(&'a self, mut bytes: &'a [u8]) -> impl Iterator<Item = (&'a Slice, &'a [u8])> {
        self.slices.iter().map(move |slice| {
            let (whole, rest) = bytes.split_at((slice.length + 2 * FENCE) * slice.width);
            bytes = rest;
            (slice, whole)
        })
    }

    fn fences<'a>(&'a self, bytes: &'a [u8]) -> Vec<[&'a [u8]; 2]> {
        self.parts(bytes).map(|(slice, whole)| parted(whole, slice.width).0).collect()
    }

    /// The first entry that is not as wanted.
    fn difference(&self, left: &[u8], wanted: &[u8]) -> Option<String> {
        let pairs = self.parts(left).zip(self.parts(wanted));
        pairs.filter_map(|((slice, left), (_, wanted))| slice.difference(left, wanted)).next()
    }
}

impl Slice {
    /// A capture as text; of a lane the cells whose entries are not 0, as many as side 3 has.
    fn told(&self, bytes: &[u8]) -> String {
        if self.name == "capture" {
            return format!("capture {:?} of {} bytes", short(bytes), self.length);
        }
        let entries = bytes.chunks(self.width).map(number).enumerate().filter(|&(_, entry)| entry != 0);
        let told: Vec<String> = entries.map(|(cell, entry)| format!("{cell}:{entry}")).take(81).collect();
        format!("{} [{}] of {}", self.name, told.join(" "), self.length)
    }

    fn difference(&self, left: &[u8], wanted: &[u8]) -> Option<String> {
        let (left, wanted) = (parted(left, self.width).1, parted(wanted, self.width).1);
        let mut entries = left.chunks(self.width).zip(wanted.chunks(self.width)).enumerate();
        let (at, (is, not)) = entries.find(|(_, (is, not))| is != not)?;
        Some(format!("{}: entry {at} is {}, not {}", self.name, number(is), number(not)))
    }
}

/// The bytes of an answer's four numbers.
const ANSWER: usize = 4 * 8;

fn numbers(numbers: &[usize]) -> Vec<u8> {
    numbers.iter().flat_map(|&number| (number as u64).to_le_bytes()).collect()
}

fn number(bytes: &[u8]) -> u64 {
    bytes.iter().rev().fold(0, |number, &byte| number << 8 | byte as u64)
}

/// The start of a text, for a reader.
pub fn short(text: &[u8]) -> String {
    String::from_utf8_lossy(&text[..text.len().min(2000)]).into_owned()
}

#[cfg(test)]
mod tests {
    use super::*;

    fn call() -> Call {
        let lent = Ranked { marks: vec![0, 1], aims: vec![7, 7], codes: vec![9] };
        let left = Ranked { aims: vec![0, 258], ..lent.clone() };
        Call::new(Function::Rank, 3, &lent, &left, Answer { number: 5, place: 1, electronic: 0, swaps: 0 })
    }

    #[test]
    fn a_request_is_numbers_and_slices_whole() {
        let request = call().request;
        assert_eq!(request[..40], numbers(&[1, 3, 2, 2, 1]));
        assert_eq!(request.len(), 40 + 34 + 2 * 34 + 33);
        assert_eq!(request[40..40 + 19], [&[0xA5; 16][..], &[0, 1], &[0xA5]].concat());
    }

    #[test]
    fn a_difference_is_told_by_slice_and_entry() {
        let call = call();
        let entry = ANSWER + 34 + 2 * (FENCE + 1);
        let mut got = call.wanted.clone();
        got[entry + 1] = 2;
        assert!(call.told(&got).contains("aims: entry 1 is 514, not 258; fences whole"));
        got[entry + 2] ^= 1;
        assert!(call.told(&got).ends_with("FENCES BROKEN"));
        got[0] = 6;
        assert!(call.told(&got).starts_with("answer number 6 place 1 "));
        assert_eq!(call.told_lent(), "marks [1:1] of 2");
    }

    #[test]
    fn a_replay_is_told_whole() {
        let start = Lanes { words: vec![70], marks: vec![1], aims: vec![0] };
        let lent = Replayed { start, capture: b"1\t0\n".to_vec(), post: b'7' };
        let call = Call::new(Function::Replay, 1, &lent, &lent, Outcome::Early(1));
        assert_eq!(call.request[..48], numbers(&[1, 1, 1, 1, 1, 4]));
        assert!(call.request.ends_with(b"71\t0\n7777777777777777"));
        assert!(call.told(&call.wanted).starts_with("answer outcome 2 move 1 number 0 place 0\n"));
        assert_eq!(
            call.told_lent(),
            "words [0:70] of 1\n  marks [0:1] of 1\n  aims [] of 1\n  capture \"1\\t0\\n\" of 4 bytes"
        );
    }

    fn plain_call(number: usize) -> Call {
        let lent = Ranked { marks: vec![0, 1], aims: vec![7, 258], codes: vec![9] };
        Call::new(Function::PlainRank, 3, &lent, &lent, Answer { number, place: 1, electronic: 0, swaps: 0 })
    }

    #[test]
    fn a_plain_call_has_no_logs() {
        let request = plain_call(5).request;
        assert_eq!(request[..32], numbers(&[4, 3, 2, 2]));
        assert_eq!(request.len(), 32 + 34 + 2 * 34);
    }

    #[test]
    fn plain_beside_stepping() {
        let (plain, stepping) = (plain_call(5), call());
        let mut stepped = stepping.wanted.clone();
        stepped[ANSWER + 34 + 2 * FENCE] = 7;
        assert_eq!(plain.beside(&plain.wanted, &stepped, false), Ok(()));
        assert!(plain
            .beside(&plain.wanted, &stepping.wanted, false)
            .unwrap_err()
            .contains("aims: entry 0 is 7, not 0"));
        assert!(plain.beside(&plain.wanted, &stepped, true).is_err());
        stepped[0] = 3;
        assert!(plain.beside(&plain.wanted, &stepped, false).is_err());
        assert_eq!(plain.beside(&plain.wanted, &stepped, true), Ok(()));
        assert!(plain.beside(&plain_call(2).wanted, &stepped, true).is_err());
        stepped[0] = 2;
        assert_eq!(plain.beside(&plain_call(2).wanted, &stepped, true), Ok(()));
    }
}
