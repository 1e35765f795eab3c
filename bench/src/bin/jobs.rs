//! Runs a job program on many job texts, whole and damaged, and compares what it prints with the second model.
//!
//! `jobs PROGRAM [WORDS...]`: the words are the program's own. The text comes through a pipe, at times in small pieces, as it
//! does from a camera. The last line counts the jobs.

use otis_bench::frames::{self, Dice, KINDS};
use otis_bench::model::board::Board;
use otis_bench::model::job;
use otis_bench::texts;
use std::io::Write;
use std::process::{Child, ChildStdin, Command, ExitCode, Stdio};

const SEED: u64 = 0x0008_D1CE;
const RANDOM_JOBS: usize = 600;
const TOLD: usize = 10;

/// Texts that stand at an edge of the format.
const EDGES: [&str; 34] = [
    "",
    "\n",
    "\t\n",
    "side",
    "side\n",
    "side\t",
    "side\t\n",
    "side\t2",
    "side\t2\n",
    "side\t1\n",
    "side\t8\n",
    "side\t1\n0\t0\n",
    "side\t1\n1\t0\n",
    "side\t0\n",
    "side\t9\n",
    "side\t9\nnonsense",
    "side\t10\n",
    "side\t00\n",
    "side\t02\n",
    "side\t-1\n",
    "side\t+2\n",
    "side\t 2\n",
    "side\t2 \n",
    "side\t2\r\n",
    "side\t2\t\n",
    "side\t\t2\n",
    "SIDE\t2\n",
    " side\t2\n",
    "side\t4294967295\n",
    "side\t4294967296\n",
    "side\t18446744073709551618\n",
    "side\t2\n15\t4294967295\n",
    "side\t2\n16\t4294967295\n",
    "side\t2\n15\t4294967296\n",
];

fn main() -> ExitCode {
    let words: Vec<String> = std::env::args().skip(1).collect();
    if words.is_empty() {
        eprintln!("usage: jobs PROGRAM [WORDS...]");
        return ExitCode::from(2);
    }
    println!("seed {SEED:#x}");
    let mut dice = Dice::new(SEED);
    let mut failed = 0;
    let texts = all_texts(&mut dice);
    for text in &texts {
        let wanted = job::printed(text);
        let printed = run(&words, text, &mut dice);
        if printed != wanted.as_bytes() {
            failed += 1;
            if failed <= TOLD {
                tell(text, &printed, &wanted);
            }
        }
    }
    println!("{} passed, {failed} failed", texts.len() - failed);
    ExitCode::from(u8::from(failed > 0))
}

fn all_texts(dice: &mut Dice) -> Vec<Vec<u8>> {
    let mut all: Vec<Vec<u8>> = EDGES.iter().map(|text| text.as_bytes().to_vec()).collect();
    for length in [65_535, 65_536, 65_537, 70_000, 200_000] {
        all.push(texts::padded("side\t2\n", length));
        all.push(texts::padded("side\t9\n", length));
        all.push(texts::padded("x", length));
    }
    for round in 0..RANDOM_JOBS {
        let mut text = whole_job(dice);
        for _ in 0..round % 3 {
            texts::damage(&mut text, dice);
        }
        all.push(text);
    }
    all
}

fn whole_job(dice: &mut Dice) -> Vec<u8> {
    let board = Board { side: 1 + dice.below(8) };
    let kind = KINDS[dice.below(KINDS.len())];
    let marked = frames::marks(board, kind, dice);
    texts::job(board, &marked, dice)
}

fn run(words: &[String], text: &[u8], dice: &mut Dice) -> Vec<u8> {
    let mut command = Command::new(&words[0]);
    let mut child = start(command.args(&words[1..]));
    let pipe = child.stdin.take().expect("the program has a pipe to read");
    let piece = if dice.one_in(1, 4) { 1 + dice.below(900) } else { 65_536 };
    std::thread::scope(|scope| {
        scope.spawn(|| feed(pipe, text, piece));
        child.wait_with_output().expect("the program ends").stdout
    })
}

fn start(command: &mut Command) -> Child {
    let piped = command.stdin(Stdio::piped()).stdout(Stdio::piped());
    piped.spawn().expect("the program starts")
}

/// A program that has seen enough may close its pipe: then the rest is not fed.
fn feed(mut pipe: ChildStdin, text: &[u8], piece: usize) {
    for part in text.chunks(piece) {
        if pipe.write_all(part).is_err() {
            return;
        }
    }
}

fn tell(text: &[u8], printed: &[u8], wanted: &str) {
    let short = |bytes: &[u8]| String::from_utf8_lossy(&bytes[..bytes.len().min(200)]).into_owned();
    println!("FAILED: {:?} ({} bytes)", short(text), text.len());
    println!("  printed {:?}\n  wanted  {:?}", short(printed), short(wanted.as_bytes()));
}
