//! The crate's side of the comparison: it answers replay lines, makes cases and holds two sides together.

mod answer;
mod cases;
mod convert;
mod drive;
mod line;
mod old_run;
mod pixel;
mod random;
mod writer_cases;

use std::io::{self, BufRead, BufWriter, Write};
use std::process::ExitCode;

const USAGE: &str =
    "usage: oracle answer | cases SEED COUNT | compare SEED COUNT SKIES DIFFERENCES PROGRAM [ARGUMENT..] | convert | differences";

fn main() -> ExitCode {
    std::panic::set_hook(Box::new(|_| {}));
    crate_side::choose_rewind_always_moves(std::env::var_os("REWIND_ALWAYS_MOVES").is_some());
    let words: Vec<String> = std::env::args().skip(1).collect();
    let words: Vec<&str> = words.iter().map(String::as_str).collect();
    match words[..] {
        ["answer"] => answer_lines(),
        ["cases", seed, count] => print_cases(parsed(seed), parsed(count)),
        ["compare", seed, count, skies, differences, ref program @ ..] if !program.is_empty() => {
            return drive::compare(parsed(seed), parsed(count), skies, differences, program);
        }
        ["convert"] => convert::report(),
        ["differences"] => convert::differences(),
        _ => {
            eprintln!("{USAGE}");
            return ExitCode::from(2);
        }
    }
    ExitCode::SUCCESS
}

fn parsed(text: &str) -> u64 {
    text.parse().unwrap_or_else(|_| {
        eprintln!("oracle: {text} is no number");
        std::process::exit(2)
    })
}

fn answer_lines() {
    let mut out = BufWriter::new(io::stdout().lock());
    for line in io::stdin().lock().split(b'\n') {
        let line = String::from_utf8_lossy(&line.unwrap()).into_owned();
        writeln!(out, "{}", answer::answer(&line).line).unwrap();
    }
}

fn print_cases(seed: u64, count: u64) {
    let mut out = BufWriter::new(io::stdout().lock());
    cases::all(seed, count, &mut |case| writeln!(out, "{}", case.line).is_ok());
}
