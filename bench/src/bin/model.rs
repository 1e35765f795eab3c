//! The second model as a command: what the proved programs must print.
//!
//! `model job < JOB` prints what the job program prints.
//!
//! `model cases` prints what the program `cases` prints, as told at the top of `src/model/cases.rs`.
//!
//! `model replay JOB CAPTURE` prints what the replay program prints.
//!
//! `model capture JOB [MOVES]` prints the capture of a board that follows the rule: of all moves, or of the first ones.

use otis_bench::model::{cases, job, replay};
use std::io::{self, Read, Write};
use std::process::ExitCode;

fn main() -> ExitCode {
    let words: Vec<String> = std::env::args().skip(1).collect();
    let words: Vec<&str> = words.iter().map(String::as_str).collect();
    let text = match words[..] {
        ["job"] => Ok(job::printed(&standard_input())),
        ["cases"] => Ok(cases::printed()),
        ["replay", job, capture] => replayed(job, capture),
        ["capture", job] => captured(job, None),
        ["capture", job, moves] => captured(job, Some(moves)),
        _ => Err("usage: model job < JOB, model cases, model replay JOB CAPTURE, or model capture JOB [MOVES]".into()),
    };
    match text.and_then(|text| io::stdout().write_all(text.as_bytes()).map_err(|error| error.to_string())) {
        Ok(()) => ExitCode::SUCCESS,
        Err(why) => {
            eprintln!("{why}");
            ExitCode::from(2)
        }
    }
}

fn replayed(job: &str, capture: &str) -> Result<String, String> {
    Ok(replay::printed(&file(job)?, &file(capture)?))
}

fn captured(name: &str, moves: Option<&str>) -> Result<String, String> {
    let job = job::parse(&file(name)?).map_err(|refusal| format!("{name}: {refusal:?}"))?;
    let steps = replay::rule(job.board, &job::ranked(&job));
    let first = match moves {
        Some(moves) => moves.parse().map_err(|error| format!("{moves}: {error}"))?,
        None => steps.len(),
    };
    let steps = steps.get(..first).ok_or(format!("the list has {} moves", steps.len()))?;
    Ok(replay::capture(steps))
}

fn file(name: &str) -> Result<Vec<u8>, String> {
    std::fs::read(name).map_err(|error| format!("{name}: {error}"))
}

fn standard_input() -> Vec<u8> {
    let mut input = Vec::new();
    io::stdin().read_to_end(&mut input).expect("standard input is read");
    input
}
