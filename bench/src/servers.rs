//! The programs that are compared with the second model, each at the other end of two pipes.
//!
//! Cases are made in one thread and sent in batches; every server has a thread that feeds it and one that compares what it
//! answers, so that the servers work while the model computes, and no full pipe stops anybody for good.

use crate::calls::{Call, Function, SEND};
use std::io::{BufReader, BufWriter, Read, Write};
use std::process::{Child, ChildStdin, ChildStdout, Command, Stdio};
use std::sync::atomic::{AtomicUsize, Ordering::Relaxed};
use std::sync::mpsc::{sync_channel, Receiver, SyncSender};
use std::sync::Arc;
use std::thread;

/// A call and what it tries; of a stepping function also the call of the plain function of its name on the same lanes.
pub struct Case {
    pub what: String,
    pub call: Call,
    pub plain: Option<Plain>,
}

/// Where a log is too short, stepping refuses what plain does not look at.
pub struct Plain {
    pub call: Call,
    pub short_log: bool,
}

impl Case {
    fn calls(&self) -> impl Iterator<Item = &Call> {
        [&self.call].into_iter().chain(self.plain.as_ref().map(|plain| &plain.call))
    }
}

type Batch = Arc<Vec<Case>>;

/// Bytes of requests in a batch, and batches that wait for each server.
const BATCH: usize = 1 << 18;
const WAITING: usize = 4;

/// Failures told in full; the rest are only counted.
const TOLD: usize = 20;

/// What the comparisons came to.
pub struct Tally {
    first: bool,
    passed: AtomicUsize,
    failed: AtomicUsize,
}

impl Tally {
    /// With `first` the program ends at the first failure.
    pub fn new(first: bool) -> Tally {
        Tally { first, passed: AtomicUsize::new(0), failed: AtomicUsize::new(0) }
    }

    pub fn passed(&self) -> usize {
        self.passed.load(Relaxed)
    }

    pub fn failed(&self) -> usize {
        self.failed.load(Relaxed)
    }

    pub fn pass(&self) {
        self.passed.fetch_add(1, Relaxed);
    }

    pub fn fail(&self, tell: impl Fn() -> String) {
        if self.failed.fetch_add(1, Relaxed) < TOLD {
            println!("FAILED: {}", tell());
        }
        if self.first {
            println!("{} passed, 1 failed", self.passed());
            std::process::exit(1);
        }
    }
}

/// A program that calls the functions for us.
pub struct Server {
    name: String,
    ranks_alone: bool,
    compared: usize,
    child: Child,
    input: BufWriter<ChildStdin>,
    output: BufReader<ChildStdout>,
}

impl Server {
    /// Starts the program that the words name. One that ranks alone gets no other call.
    pub fn start(name: &str, ranks_alone: bool, words: &[String]) -> Server {
        let mut command = Command::new(&words[0]);
        let command = command.args(&words[1..]).stdin(Stdio::piped()).stdout(Stdio::piped());
        let mut child = command.spawn().unwrap_or_else(|error| panic!("{name}: {words:?}: {error}"));
        let input = child.stdin.take().expect("the server has a pipe to read");
        let output = child.stdout.take().expect("the server has a pipe to write");
        Server {
            name: name.to_string(),
            ranks_alone,
            compared: 0,
            child,
            input: BufWriter::with_capacity(BATCH, input),
            output: BufReader::with_capacity(BATCH, output),
        }
    }

    /// Ends the server, and says how many comparisons it took part in.
    pub fn end(mut self, tally: &Tally) -> String {
        drop(self.input);
        let status = self.child.wait();
        if !status.as_ref().is_ok_and(|status| status.success()) {
            tally.fail(|| format!("{} ended with {status:?}", self.name));
        }
        format!("{}: {}", self.name, self.compared)
    }
}

fn takes(ranks_alone: bool, case: &Case) -> bool {
    !ranks_alone || case.call.function == Function::Rank
}

/// Where the cases of one part go.
pub struct Cases {
    batch: Vec<Case>,
    bytes: usize,
    sent: Vec<SyncSender<Batch>>,
}

impl Cases {
    pub fn add(&mut self, case: Case) {
        self.bytes += case.calls().map(|call| call.request.len()).sum::<usize>();
        self.batch.push(case);
        if self.bytes >= BATCH {
            self.send();
        }
    }

    /// Whoever feeds or compares takes batches until there are no more, so none is lost.
    fn send(&mut self) {
        let batch = Arc::new(std::mem::take(&mut self.batch));
        self.bytes = 0;
        for sent in &self.sent {
            sent.send(batch.clone()).expect("every thread takes batches to the end");
        }
    }
}

/// Makes the cases of one part and compares what the servers answer, until all have answered.
pub fn compare_part(servers: &mut [Server], tally: &Tally, part: impl FnOnce(&mut Cases)) {
    thread::scope(|scope| {
        let mut cases = Cases { batch: Vec::new(), bytes: 0, sent: Vec::new() };
        for server in servers {
            let (to_feed, fed) = sync_channel(WAITING);
            let (to_compare, compared) = sync_channel(WAITING);
            cases.sent.extend([to_feed, to_compare]);
            let Server { name, ranks_alone, compared: count, input, output, .. } = server;
            let ranks_alone = *ranks_alone;
            scope.spawn(move || feed(input, ranks_alone, fed));
            scope.spawn(move || *count += compare(name, output, ranks_alone, compared, tally));
        }
        part(&mut cases);
        cases.send();
    });
}

/// A server that has ended takes no more: then the rest is not fed, and who compares sees it.
fn feed(input: &mut BufWriter<ChildStdin>, ranks_alone: bool, batches: Receiver<Batch>) {
    let mut open = true;
    for batch in batches {
        open = open && feed_batch(input, ranks_alone, &batch).is_ok();
    }
}

fn feed_batch(input: &mut BufWriter<ChildStdin>, ranks_alone: bool, batch: &[Case]) -> std::io::Result<()> {
    for call in batch.iter().filter(|case| takes(ranks_alone, case)).flat_map(Case::calls) {
        input.write_all(&call.request)?;
    }
    input.write_all(&SEND)?;
    input.flush()
}

/// Gives back how many calls were compared.
fn compare(
    name: &str,
    output: &mut BufReader<ChildStdout>,
    ranks_alone: bool,
    batches: Receiver<Batch>,
    tally: &Tally,
) -> usize {
    let mut compared = 0;
    for batch in batches {
        for case in batch.iter().filter(|case| takes(ranks_alone, case)) {
            compare_case(name, output, case, tally);
            compared += case.calls().count();
        }
    }
    compared
}

/// Every call against the model, and a plain one beside the stepping one.
fn compare_case(name: &str, output: &mut BufReader<ChildStdout>, case: &Case, tally: &Tally) {
    let what = &case.what;
    let stepped = compare_call(name, output, what, &case.call, tally);
    let Some(Plain { call: plain, short_log }) = &case.plain else { return };
    let at_once = compare_call(name, output, what, plain, tally);
    let (Some(stepped), Some(at_once)) = (stepped, at_once) else { return };
    match plain.beside(&at_once, &stepped, *short_log) {
        Ok(()) => tally.pass(),
        Err(told) => tally.fail(|| told_failure(name, what, plain, &told)),
    }
}

/// Gives back what the server answered, if it did.
fn compare_call(
    name: &str,
    output: &mut BufReader<ChildStdout>,
    what: &str,
    call: &Call,
    tally: &Tally,
) -> Option<Vec<u8>> {
    let mut got = vec![0; call.wanted.len()];
    if output.read_exact(&mut got).is_err() {
        let told = "NO ANSWER: the server ended in this case or in one soon after";
        tally.fail(|| told_failure(name, what, call, told));
        return None;
    }
    if got == call.wanted {
        tally.pass();
    } else {
        tally.fail(|| told_failure(name, what, call, &call.told(&got)));
    }
    Some(got)
}

fn told_failure(name: &str, what: &str, call: &Call, told: &str) -> String {
    let (function, side, lent) = (call.function, call.side, call.told_lent());
    format!("{name} {function:?}, {what}, side {side}, {lent}\n  {told}")
}
