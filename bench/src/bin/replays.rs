//! Compares the archive's replay, and the replay program, with the second model: on captures of boards that follow the rule, on
//! what can be done to them, and on all that is refused. Of a call of the archive the answer is compared, every lane and the
//! capture after it, and the fences around them; of the program what it prints. The last line counts the comparisons.
//!
//! `replays SERVER.. -- PROGRAM..`: the words that start `c/replay_server.c` over the archive, and those that start the program.

use otis_bench::calls::{short, Call, Function, Replayed};
use otis_bench::captures::{self, Edit, Table};
use otis_bench::frames::{self, Dice, Kind, KINDS};
use otis_bench::model::answers::Refusal;
use otis_bench::model::board::Board;
use otis_bench::model::job;
use otis_bench::model::records::Lanes;
use otis_bench::model::replay::{self, replay, Outcome};
use otis_bench::programs::Program;
use otis_bench::servers::{compare_part, Case, Cases, Server, Tally};
use otis_bench::texts;
use std::collections::BTreeMap;
use std::path::Path;
use std::process::ExitCode;

const SEED: u64 = 0x0715_0003_CA97_04E5;

/// Tables of each kind, by side.
const TABLES: [usize; 3] = [2, 12, 6];

/// Captures with a few damages of any kind, by side.
const DAMAGED: [usize; 3] = [200, 1200, 600];

/// Random runs of the program.
const RUNS: usize = 320;

/// What may stand around a capture: nothing of its form, the end of a line, a further digit, a further field.
const POSTS: [u8; 4] = [0xA5, b'\n', b'7', b'\t'];

type Part = fn(&mut Trial);

const PARTS: [(&str, Part); 13] = [
    ("captures of tables of every kind, whole and cut after every move", own_captures),
    ("captures of other tables", other_tables),
    ("captures cut behind every byte, every byte changed, dropped, doubled, others put before it", every_byte),
    ("every line dropped, doubled, put last, exchanged with the next", every_line),
    ("every number another", other_numbers),
    ("a record added in every slot", records_added),
    ("records, slots and moves exchanged", exchanged),
    ("a few damages of any kind", damaged),
    ("sides that are none, or have no captures", wrong_sides),
    ("lanes of wrong lengths", wrong_lanes),
    ("a damaged mark and a damaged aim in every cell", damaged_cells),
    ("long captures", long_captures),
    ("several refusals at once", several_refusals),
];

/// What the archive has to answer at least once, and the program.
const LIBRARY_KINDS: [&str; 9] = [
    "agrees",
    "differs",
    "early",
    "refused 1",
    "refused 2",
    "refused 5",
    "refused 6",
    "refused 10 at line 0",
    "refused 10 at a line",
];
const PROGRAM_KINDS: [&str; 8] = [
    "agrees",
    "differs",
    "early",
    "refused 1",
    "refused 8 at line 0",
    "refused 8 at a line",
    "refused 10 at line 0",
    "refused 10 at a line",
];

/// How often each kind of answer was wanted.
#[derive(Default)]
struct Kinds {
    counts: BTreeMap<String, usize>,
}

impl Kinds {
    fn count(&mut self, outcome: Outcome) {
        *self.counts.entry(kind(outcome)).or_default() += 1;
    }

    /// Says the counts. A kind of these that never came is a failure: then something is not tried.
    fn tell(&self, who: &str, kinds: &[&str], tally: &Tally) {
        let count = |kind: &str| self.counts.get(kind).copied().unwrap_or(0);
        let told: Vec<String> = kinds.iter().map(|kind| format!("{kind}: {}", count(kind))).collect();
        println!("{who}: {}", told.join(", "));
        for kind in kinds.iter().filter(|kind| count(kind) == 0) {
            tally.fail(|| format!("{who}: there is none of the kind {kind:?}"));
        }
    }
}

fn kind(outcome: Outcome) -> String {
    match outcome {
        Outcome::Agrees => "agrees".to_string(),
        Outcome::Differs(_) => "differs".to_string(),
        Outcome::Early(_) => "early".to_string(),
        Outcome::Refused(Refusal { number: number @ (8 | 10), place: 0 }) => format!("refused {number} at line 0"),
        Outcome::Refused(Refusal { number: number @ (8 | 10), .. }) => format!("refused {number} at a line"),
        Outcome::Refused(Refusal { number, .. }) => format!("refused {number}"),
    }
}

/// Where the numbers come from, and where the cases go.
struct Trial<'a> {
    dice: &'a mut Dice,
    cases: &'a mut Cases,
    kinds: &'a mut Kinds,
}

fn main() -> ExitCode {
    let words: Vec<String> = std::env::args().skip(1).collect();
    let commands: Vec<&[String]> = words.split(|word| word == "--").collect();
    // a `--` may stand before the server too
    let ([server, program] | [[], server, program]) = commands[..] else { return usage() };
    if server.is_empty() || program.is_empty() {
        return usage();
    }
    println!("seed {SEED:#x}");
    let tally = Tally::new(false);
    let dice = &mut Dice::new(SEED);
    compare_library(server, dice, &tally);
    compare_program(&Program::new(program), dice, &tally);
    println!("{} passed, {} failed", tally.passed(), tally.failed());
    ExitCode::from(u8::from(tally.failed() > 0))
}

fn usage() -> ExitCode {
    eprintln!("usage: replays SERVER.. -- PROGRAM..");
    ExitCode::from(2)
}

/// Makes a part, and says how many comparisons it took.
fn counted(name: &str, tally: &Tally, part: impl FnOnce()) {
    let before = tally.passed() + tally.failed();
    part();
    println!("{name}: {}", tally.passed() + tally.failed() - before);
}

// ---- the archive

fn compare_library(words: &[String], dice: &mut Dice, tally: &Tally) {
    let mut servers = [Server::start("archive", false, words)];
    let mut kinds = Kinds::default();
    for (name, part) in PARTS {
        let kinds = &mut kinds;
        let dice = &mut *dice;
        counted(name, tally, || {
            compare_part(&mut servers, tally, |cases| part(&mut Trial { dice, cases, kinds }));
        });
    }
    for server in servers {
        println!("{}", server.end(tally));
    }
    kinds.tell("answers of the archive", &LIBRARY_KINDS, tally);
}

/// A replay reads all and writes nothing: what is lent comes back as it was.
fn check(trial: &mut Trial, what: &str, side: usize, start: &Lanes, capture: &[u8]) {
    let outcome = replay(side, start, capture);
    trial.kinds.count(outcome);
    let post = POSTS[trial.dice.below(POSTS.len())];
    let lent = Replayed { start: start.clone(), capture: capture.to_vec(), post };
    let call = Call::new(Function::Replay, side, &lent, &lent, outcome);
    trial.cases.add(Case { what: what.to_string(), call, plain: None });
}

fn check_edits(trial: &mut Trial, table: &Table, edits: Vec<Edit>) {
    for (what, capture) in edits {
        check(trial, &what, table.board.side, &table.start, &capture);
    }
}

fn own_captures(trial: &mut Trial) {
    for (side, kind) in (1..=3).flat_map(|side| KINDS.map(|kind| (side, kind))) {
        let once = matches!(kind, Kind::None | Kind::All);
        for _ in 0..if once { 1 } else { TABLES[side - 1] } {
            let table = Table::some(side, kind, trial.dice);
            check_edits(trial, &table, captures::cut_after_moves(&table.steps()));
        }
    }
}

/// Of the same cells with another word in one, of another table, and of a table of another side.
fn other_tables(trial: &mut Trial) {
    for round in 0..300 {
        let table = Table::any(1 + round % 3, trial.dice);
        let mut other = table.clone();
        other.start.words[trial.dice.below(table.board.cells())] ^= 1 << trial.dice.below(32);
        check(trial, "another word", table.board.side, &table.start, &other.capture());
        let other = Table::any(table.board.side, trial.dice);
        check(trial, "of another table", table.board.side, &table.start, &other.capture());
        let other = Table::any(1 + trial.dice.below(4), trial.dice);
        check(trial, "of a table of any side", table.board.side, &table.start, &other.capture());
    }
}

fn every_byte(trial: &mut Trial) {
    for table in captures::small_tables(trial.dice) {
        let capture = table.capture();
        check_edits(trial, &table, captures::cut_after_bytes(&capture));
        let edits = captures::every_byte(&capture, trial.dice);
        check_edits(trial, &table, edits);
    }
}

fn every_line(trial: &mut Trial) {
    for table in captures::small_tables(trial.dice) {
        check_edits(trial, &table, captures::every_line(&table.capture()));
    }
    for _ in 0..6 {
        let table = Table::some(2, Kind::Half, trial.dice);
        check_edits(trial, &table, captures::every_line(&table.capture()));
    }
}

fn other_numbers(trial: &mut Trial) {
    for table in captures::small_tables(trial.dice) {
        let edits = captures::other_numbers(&table.capture(), table.board, trial.dice);
        check_edits(trial, &table, edits);
    }
}

fn records_added(trial: &mut Trial) {
    for table in captures::small_tables(trial.dice) {
        let edits = captures::records_added(&table.steps(), table.board, trial.dice);
        check_edits(trial, &table, edits);
    }
}

fn exchanged(trial: &mut Trial) {
    let mut tables = captures::small_tables(trial.dice);
    for side in [2, 2, 2, 3] {
        tables.push(Table::some(side, Kind::Sparse, trial.dice));
        tables.push(Table::some(2, Kind::Half, trial.dice));
    }
    for table in tables {
        let steps = table.steps();
        check_edits(trial, &table, captures::records_exchanged(&steps));
        check_edits(trial, &table, captures::moves_exchanged(&steps));
    }
}

fn damaged(trial: &mut Trial) {
    for side in 1..=3 {
        for _ in 0..DAMAGED[side - 1] {
            let table = Table::any(side, trial.dice);
            let capture = some_capture(&table, trial.dice);
            check(trial, "a few damages", side, &table.start, &capture);
        }
    }
}

/// The capture of a table, whole or cut; some of these differ, and some have up to two damages.
fn some_capture(table: &Table, dice: &mut Dice) -> Vec<u8> {
    let mut steps = table.steps();
    if dice.one_in(1, 2) {
        steps.truncate(dice.below(steps.len() + 1));
    }
    if dice.one_in(1, 3) {
        captures::depart(&mut steps, dice);
    }
    let mut capture = replay::capture(&steps).into_bytes();
    if dice.one_in(1, 2) {
        (0..=dice.below(2)).for_each(|_| texts::damage(&mut capture, dice));
    }
    capture
}

// ---- what is refused

/// 65536 is the side whose cells, counted in 64 bits, come to 0.
fn wrong_sides(trial: &mut Trial) {
    for side in [0, 9, 10, 16, 255, 256, 258, 65_536, 65_538, 1 << 32, (1 << 32) + 2, usize::MAX - 1, usize::MAX] {
        for own in 1..=8 {
            let table = Table::any(own, trial.dice);
            check(trial, "a side that is none", side, &table.start, &short_capture(&table));
        }
        check(trial, "a side that is none, nothing lent", side, &Lanes::empty(0), b"");
    }
    for side in 4..=8 {
        for capture in [&b""[..], b"\n", b"x", b"1\t1\n", b"1\t1"] {
            let table = Table::any(side, trial.dice);
            check(trial, "a side without captures", side, &table.start, capture);
        }
        let table = Table::some(side, Kind::Single, trial.dice);
        check(trial, "a side without captures", side, &table.start, &table.capture());
    }
}

/// The capture of a table, and none where the side has no captures.
fn short_capture(table: &Table) -> Vec<u8> {
    if table.board.side > 3 {
        Vec::new()
    } else {
        table.capture()
    }
}

fn set_lane(start: &mut Lanes, lane: usize, length: usize) {
    match lane {
        0 => start.words.resize(length, 0),
        1 => start.marks.resize(length, 0),
        _ => start.aims.resize(length, 0),
    }
}

fn wrong_lanes(trial: &mut Trial) {
    for side in 1..=8 {
        let cells = Board { side }.cells();
        for (lane, length) in
            (0..3).flat_map(|lane| [0, 1, cells - 1, cells + 1, 2 * cells, 81].map(|each| (lane, each)))
        {
            let mut table = Table::any(side, trial.dice);
            let capture = short_capture(&table);
            set_lane(&mut table.start, lane, length);
            check(trial, &format!("lane {lane} of length {length}"), side, &table.start, &capture);
        }
        check(trial, "nothing lent", side, &Lanes::empty(0), b"");
    }
}

/// Every cell at sides 1 to 3, some at the others, which have no captures.
fn damaged_cells(trial: &mut Trial) {
    for side in 1..=5 {
        let cells = Board { side }.cells();
        for cell in (0..cells).step_by(if side > 3 { 17 } else { 1 }) {
            for change in 0..7 {
                let mut table = Table::any(side, trial.dice);
                let capture = short_capture(&table);
                damage_cell(&mut table.start, cell, change);
                check(trial, &format!("cell {cell} damaged by {change}"), side, &table.start, &capture);
            }
        }
    }
}

fn damage_cell(start: &mut Lanes, cell: usize, change: usize) {
    match change {
        0 => start.marks[cell] = 2,
        1 => start.marks[cell] = 255,
        2 => start.marks[cell] ^= 1,
        3 => start.aims[cell] ^= 1,
        4 => start.aims[cell] = start.aims[cell].wrapping_add(256),
        5 => start.aims[cell] = u16::MAX,
        _ => start.aims[cell..].iter_mut().for_each(|aim| *aim = aim.wrapping_add(1)),
    }
}

/// Around the longest length, and far above it: well-formed ones, and such with a bad line at the start or at the end.
fn long_captures(trial: &mut Trial) {
    for length in [65_000, 65_535, 65_536, 65_537, 65_538, 66_000] {
        for side in 1..=4 {
            let start = Table::any(side, trial.dice).start;
            check(trial, "a long capture", side, &start, &texts::long_capture(length));
        }
        let mut last = texts::long_capture(length);
        last[length - 1] = b'0';
        check(trial, "a long capture without its last LF", 3, &Lanes::empty(81), &last);
        last[length - 2..].copy_from_slice(b"x\n");
        check(trial, "a long capture with a bad last line", 3, &Lanes::empty(81), &last);
    }
    for length in [65_535, 65_536, 65_537, 70_000, 131_072, 131_073, 1 << 20] {
        for start in ["", "x\n", "1\t1\n", "1\t1\n0\t0\t"] {
            let table = Table::any(1 + trial.dice.below(4), trial.dice);
            let capture = texts::padded(start, length);
            check(trial, "a padded capture", table.board.side, &table.start, &capture);
        }
    }
}

/// Each of side, lanes, marks, aims and capture wrong or not, at sides 1 to 4.
fn several_refusals(trial: &mut Trial) {
    for round in 0..4 * 4 * 32 {
        let mut table = Table::some(1 + round % 4, Kind::Half, trial.dice);
        let (mut side, cells) = (table.board.side, table.board.cells());
        let mut capture = table.capture();
        let wrong = |bit: usize| (round / 4) >> bit & 1 == 1;
        if wrong(0) {
            capture = texts::padded("x\n", [2, 65_536, 65_537][trial.dice.below(3)]);
        }
        if wrong(1) {
            table.start.aims[trial.dice.below(cells)] ^= 3;
        }
        if wrong(2) {
            table.start.marks[trial.dice.below(cells)] = 2 + trial.dice.below(254) as u8;
        }
        if wrong(3) {
            set_lane(&mut table.start, trial.dice.below(3), cells + 1);
        }
        if wrong(4) {
            side = 9 * trial.dice.below(2);
        }
        check(trial, "several refusals", side, &table.start, &capture);
    }
}

// ---- the program

/// A job and a capture at an edge.
const EDGES: [(&str, &str); 24] = [
    ("side\t1\n", "1\t0\n2\t0\n"),
    ("side\t1\n0\t5\n", "1\t0\n0\t0\t5\t0\n2\t0\n0\t0\t5\t0\n"),
    ("side\t1\n0\t5\n", "1\t0\n0\t0\t5\t0\n2\t0\n0\t0\t5\t0"),
    ("side\t1\n0\t5\n", "1\t0\n0\t0\t5\t0\n2\t0\n0\t0\t6\t0\n"),
    ("side\t1\n0\t5\n", "1\t0\n0\t0\t5\t0\n2\t0\n0\t1\t5\t0\n"),
    ("side\t1\n0\t5\n", "1\t0\n0\t0\t5\t0\n"),
    ("side\t1\n0\t5\n", "1\t0\n0\t0\t5\t0\n2\t0\n0\t0\t5\t0\n3\t0\n"),
    ("side\t1\n0\t4294967295\n", "1\t0\n0\t0\t4294967295\t0\n2\t0\n0\t0\t4294967295\t0\n"),
    ("side\t2\n", ""),
    ("side\t3\n", ""),
    ("side\t4\n", ""),
    ("side\t8\n", ""),
    ("side\t9\n", ""),
    ("side\t0\n", "x"),
    ("side\t9\nnonsense", "x"),
    ("", ""),
    ("side\t2", ""),
    ("side\t2\n16\t0\n", ""),
    ("side\t2\n1\t0\n1\t0\n", "x"),
    ("side\t4\n256\t0\n", "x"),
    ("side\t4\n255\t0\n", "x"),
    ("side\t2\n", "\n"),
    ("side\t2\n", "1\t1\n\n"),
    ("side\t2\n", "0\t0\t0\t0\n"),
];

fn compare_program(program: &Program, dice: &mut Dice, tally: &Tally) {
    let mut kinds = Kinds::default();
    counted("program", tally, || {
        for (job, capture) in all_pairs(dice) {
            kinds.count(replay::outcome(&job, &capture));
            check_printed(program, &job, &capture, tally);
        }
    });
    kinds.tell("answers of the program", &PROGRAM_KINDS, tally);
    counted("program, words or files missing", tally, || check_missing(program, tally));
}

fn all_pairs(dice: &mut Dice) -> Vec<(Vec<u8>, Vec<u8>)> {
    let edges = EDGES.iter().map(|(job, capture)| (job.as_bytes().to_vec(), capture.as_bytes().to_vec()));
    let mut pairs: Vec<_> = edges.collect();
    for length in [65_535, 65_536, 65_537, 200_000] {
        pairs.push((texts::padded("side\t2\n", length), Vec::new()));
        pairs.push((texts::padded("side\t9\n", length), b"x".to_vec()));
        pairs.push((b"side\t2\n".to_vec(), texts::padded("1\t1\n", length)));
        pairs.push((texts::padded("side\t2\n", length), texts::padded("1\t1\n", length)));
    }
    for length in 65_534..=65_538 {
        pairs.push((b"side\t3\n80\t1\n".to_vec(), texts::long_capture(length)));
    }
    pairs.extend((0..RUNS).map(|round| some_pair(round, dice)));
    pairs
}

/// A job of sides 1 to 3, at times of 4 to 8, and mostly its capture; either may be damaged.
fn some_pair(round: usize, dice: &mut Dice) -> (Vec<u8>, Vec<u8>) {
    let side = if round % 16 == 0 { 4 + dice.below(5) } else { 1 + dice.below(3) };
    let board = Board { side };
    let marked = frames::marks(board, KINDS[dice.below(KINDS.len())], dice);
    let mut text = texts::job(board, &marked, dice);
    if dice.one_in(1, 6) {
        texts::damage(&mut text, dice);
    }
    let capture = match job::parse(&text) {
        Ok(job) if job.board.side <= 3 => some_capture(&Table { board: job.board, start: job::ranked(&job) }, dice),
        _ => b"1\t1\n".to_vec(),
    };
    (text, capture)
}

fn check_printed(program: &Program, job: &[u8], capture: &[u8], tally: &Tally) {
    let wanted = replay::printed(job, capture);
    let names = [program.write("job", job), program.write("capture", capture)];
    let printed = program.run(&[&names[0], &names[1]]).stdout;
    if printed == wanted.as_bytes() {
        return tally.pass();
    }
    tally.fail(|| {
        let (job_size, capture_size) = (job.len(), capture.len());
        let (job, capture, printed) = (short(job), short(capture), short(&printed));
        let lent = format!("job {job:?} of {job_size} bytes\n  capture {capture:?} of {capture_size} bytes");
        format!("program, {lent}\n  printed {printed:?}\n  wanted  {wanted:?}")
    });
}

/// What is missing is said in one line on standard error, and nothing is printed.
fn check_missing(program: &Program, tally: &Tally) {
    let job = program.write("job", b"side\t1\n");
    let capture = program.write("capture", b"1\t0\n2\t0\n");
    let missing = program.name("missing");
    let trials: [(&str, &[&Path]); 5] = [
        ("no words", &[]),
        ("one word", &[&job]),
        ("no job file", &[&missing, &capture]),
        ("no capture file", &[&job, &missing]),
        ("neither file", &[&missing, &missing]),
    ];
    for (what, names) in trials {
        let output = program.run(names);
        let (printed, said) = (short(&output.stdout), short(&output.stderr));
        if printed.is_empty() && said.lines().count() == 1 && said.len() > 1 && said.ends_with('\n') {
            tally.pass();
        } else {
            tally.fail(|| format!("program, {what}\n  printed {printed:?}\n  said    {said:?}"));
        }
    }
}
