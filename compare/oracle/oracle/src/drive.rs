//! Feeds the same lines to the crate and to a program, and counts the answers that differ.

use crate::answer::{answer, plain, written};
use crate::cases::{self, Case, Judge};
use crate::line::NOT_COMPARABLE;
use crate_side::AtEnd;
use std::collections::HashMap;
use std::fs::File;
use std::io::{BufRead, BufReader, BufWriter, IsTerminal, Write};
use std::process::{ChildStdin, Command, ExitCode, Stdio};
use std::sync::mpsc::{sync_channel, Receiver, SyncSender, TrySendError};
use std::time::{Duration, Instant};

/// A line on its way through the program, with the answer that it should give.
struct Waiting {
    kind: &'static str,
    line: String,
    expected: String,
    at_end: AtEnd,
    old_run: bool,
}

/// One row of the table.
#[derive(Default, Clone)]
struct Count {
    lines: usize,
    skipped: usize,
    /// An old run was met: refused by 25, and outside the domain.
    old_run: usize,
    /// A byte was asked for past the last one.
    at_end: usize,
    /// The stand-in answered one such asking with 0.
    made_up: usize,
    differences: usize,
}

/// So many lines may be on their way.
const ON_THE_WAY: usize = 50_000;
const SHOWN: usize = 10;
const KEPT: usize = 1_000;

/// Runs the sample skies and all cases through both sides; the exit status is 1 if an answer differs.
pub fn compare(seed: u64, count: u64, skies: &str, differences: &str, program: &[&str]) -> ExitCode {
    let mut child = Command::new(program[0])
        .args(&program[1..])
        .stdin(Stdio::piped())
        .stdout(Stdio::piped())
        .spawn()
        .unwrap_or_else(|error| panic_with(&format!("{} does not start: {error}", program[0])));
    let answers = BufReader::with_capacity(1 << 20, child.stdout.take().unwrap());
    let mut lines = BufWriter::with_capacity(1 << 16, child.stdin.take().unwrap());
    let (send, receive) = sync_channel(ON_THE_WAY);
    let file = differences.to_string();
    let judge = std::thread::spawn(move || hold(receive, answers, &file));
    let go_on = sample_skies(skies, &mut |waiting| feed(&mut lines, &send, waiting));
    if go_on {
        cases::all(seed, count, &mut |case| feed(&mut lines, &send, expected(case)));
    }
    drop(send);
    drop(lines);
    let (table, ended_early) = judge.join().unwrap();
    let _ = child.wait();
    print_table(seed, count, &table);
    if ended_early {
        println!("the program ended before its last answer");
    }
    if ended_early || table.iter().any(|(_, c)| c.differences > 0) {
        ExitCode::from(1)
    } else {
        ExitCode::SUCCESS
    }
}

fn panic_with(words: &str) -> ! {
    eprintln!("oracle: {words}");
    std::process::exit(2)
}

/// The case's answer by its judge.
fn expected(case: Case) -> Waiting {
    let answer = match case.judge {
        Judge::Crate => answer(&case.line),
        Judge::CrateSamples { width, height, room, samples } => written(width, height, room, &samples),
        Judge::Document(line) => plain(line),
    };
    Waiting { kind: case.kind, line: case.line, expected: answer.line, at_end: answer.at_end, old_run: answer.old_run }
}

/// The sample skies: a line, then its answer by RULES 11. The crate is held to it where it can be asked.
fn sample_skies(path: &str, feed: &mut dyn FnMut(Waiting) -> bool) -> bool {
    let text = std::fs::read_to_string(path).unwrap_or_else(|error| panic_with(&format!("{path}: {error}")));
    let lines: Vec<&str> = text.lines().filter(|line| !line.is_empty() && !line.starts_with('#')).collect();
    lines.chunks_exact(2).all(|pair| {
        let own = answer(pair[0]).line;
        if own != NOT_COMPARABLE && own != pair[1] {
            panic_with(&format!("the crate's answer to {} is {own}, and {path} has {}", pair[0], pair[1]));
        }
        let (line, expected) = (pair[0].to_string(), pair[1].to_string());
        feed(Waiting { kind: "sample skies", line, expected, at_end: AtEnd::default(), old_run: false })
    })
}

/// Sends a line; false when the program takes no more.
fn feed(lines: &mut BufWriter<ChildStdin>, send: &SyncSender<Waiting>, waiting: Waiting) -> bool {
    if lines.write_all(waiting.line.as_bytes()).and_then(|()| lines.write_all(b"\n")).is_err() {
        return false;
    }
    match send.try_send(waiting) {
        Ok(()) => true,
        Err(TrySendError::Full(waiting)) => lines.flush().is_ok() && send.send(waiting).is_ok(),
        Err(TrySendError::Disconnected(_)) => false,
    }
}

/// Reads the program's answers and holds each to what is expected.
fn hold(receive: Receiver<Waiting>, mut answers: impl BufRead, path: &str) -> (Vec<(&'static str, Count)>, bool) {
    let mut order: Vec<&'static str> = Vec::new();
    let mut counts: HashMap<&'static str, Count> = HashMap::new();
    let mut file = File::create(path).unwrap_or_else(|error| panic_with(&format!("{path}: {error}")));
    let mut progress = Progress::new();
    let mut text = Vec::new();
    let mut found = 0;
    let mut ended = false;
    for waiting in receive {
        text.clear();
        if answers.read_until(b'\n', &mut text).is_err() || text.pop() != Some(b'\n') {
            ended = true;
            break;
        }
        let count = counts.entry(waiting.kind).or_insert_with(|| {
            order.push(waiting.kind);
            Count::default()
        });
        count.lines += 1;
        if waiting.expected == NOT_COMPARABLE {
            count.skipped += 1;
        } else {
            count.old_run += waiting.old_run as usize;
            count.at_end += (waiting.at_end != AtEnd::default()) as usize;
            count.made_up += (waiting.at_end.made_up > 0) as usize;
            if text != waiting.expected.as_bytes() {
                count.differences += 1;
                found += 1;
                show(&mut file, found, &waiting, &String::from_utf8_lossy(&text));
            }
        }
        progress.tick(waiting.kind, found);
    }
    progress.end();
    (order.into_iter().map(|kind| (kind, counts[kind].clone())).collect(), ended)
}

fn show(file: &mut File, found: usize, waiting: &Waiting, text: &str) {
    let words = format!(
        "difference {found}, {}\n  line     {}\n  expected {}\n  program  {text}\n",
        waiting.kind, waiting.line, waiting.expected
    );
    if found <= KEPT {
        let _ = file.write_all(words.as_bytes());
    }
    if found <= SHOWN {
        println!("{words}");
    }
}

/// A line on the error stream that says how far the run is.
struct Progress {
    began: Instant,
    last: Instant,
    lines: usize,
    often: Duration,
}

impl Progress {
    fn new() -> Progress {
        let often = Duration::from_secs(if std::io::stderr().is_terminal() { 1 } else { 10 });
        Progress { began: Instant::now(), last: Instant::now(), lines: 0, often }
    }

    fn tick(&mut self, kind: &str, found: usize) {
        self.lines += 1;
        if self.last.elapsed() > self.often {
            self.last = Instant::now();
            let end = if self.often.as_secs() == 1 { '\r' } else { '\n' };
            let seconds = self.began.elapsed().as_secs();
            eprint!("{:>9} lines, {found} differences, {seconds} s, now: {kind:<42}{end}", self.lines);
        }
    }

    fn end(&self) {
        eprintln!("{:>9} lines in {} s{:60}", self.lines, self.began.elapsed().as_secs(), "");
    }
}

fn print_table(seed: u64, count: u64, table: &[(&str, Count)]) {
    println!("seed {seed}, count {count}\n");
    println!("| kind of case | lines | compared | skipped | old run met | end met | byte made up | differences |");
    println!("|---|---|---|---|---|---|---|---|");
    let mut sum = Count::default();
    for (kind, c) in table {
        print_row(kind, c);
        sum.lines += c.lines;
        sum.skipped += c.skipped;
        sum.old_run += c.old_run;
        sum.at_end += c.at_end;
        sum.made_up += c.made_up;
        sum.differences += c.differences;
    }
    print_row("all", &sum);
}

fn print_row(kind: &str, c: &Count) {
    let compared = c.lines - c.skipped;
    let Count { lines, skipped, old_run, at_end, made_up, differences } = c;
    println!("| {kind} | {lines} | {compared} | {skipped} | {old_run} | {at_end} | {made_up} | {differences} |");
}
