//! `second`: the second program, and the comparer.

use std::io;
use std::process::ExitCode;

use second::cases::Plan;
use second::{answers, compare, on_a_deep_stack, wrong};

const HELP: &str = "\
second, a second program of document 01's calls

usage:
  second answers
      reads framed calls on standard input and writes framed answers on
      standard output; a bad frame ends the run with the line `bad frame`
  second compare [--seed N] [--cases N] [--rows N] [--first] -- COMMAND ARGS..
      sends the same calls to COMMAND and to itself and compares every answer
      byte for byte; COMMAND is started anew for every batch of calls, reads
      frames and writes answers as `second answers` does
      --seed N    the seed of the random calls (default 20260501)
      --cases N   about how many random calls (default 40000)
      --rows N    go through all rows up to N blocks, 0 to 5 (default 5)
      --first     stop after the batch with the first difference
  second --help
      prints this

compare prints each difference (the first five in full, and keeps their frames
beside this program as difference-N.frame, to be replayed with
`second answers < FILE`), a table of the outcomes that came up, and as its last
line `N passed, M failed`. It fails if an answer differs or if an outcome that
can come never came up.

status: 0 all passed; 1 something failed; 2 it could not be run";

const DEFAULT: Plan = Plan {
    seed: 20_260_501,
    cases: 40_000,
    rows: 5,
    first: false,
};

fn main() -> ExitCode {
    on_a_deep_stack(|| {
        let arguments: Vec<String> = std::env::args().skip(1).collect();
        match arguments.first().map(String::as_str) {
            Some("answers") => run_answers(&arguments[1..]),
            Some("compare") => run_compare(&arguments[1..]),
            Some("--help" | "-h" | "help") => {
                println!("{HELP}");
                ExitCode::SUCCESS
            }
            _ => usage("say `answers` or `compare`"),
        }
    })
}

fn usage(what: &str) -> ExitCode {
    eprintln!("second: {what}\n\n{HELP}");
    ExitCode::from(2)
}

/// `--wrong NAME` is for the comparer's own tests.
fn run_answers(arguments: &[String]) -> ExitCode {
    match arguments {
        [] => (),
        [flag, name] if flag == "--wrong" && wrong::choose(name) => (),
        _ => return usage("`answers` takes no such argument"),
    }
    match answers::run(io::stdin().lock(), io::stdout().lock()) {
        Ok(()) => ExitCode::SUCCESS,
        Err(error) => {
            eprintln!("second: {error}");
            ExitCode::from(2)
        }
    }
}

/// The plan and the program to compare with.
fn read_plan(arguments: &[String]) -> Option<(Plan, &[String])> {
    let at = arguments.iter().position(|argument| argument == "--")?;
    let (options, program) = (&arguments[..at], &arguments[at + 1..]);
    let mut plan = DEFAULT;
    let mut options = options.iter();
    while let Some(name) = options.next() {
        match name.as_str() {
            "--seed" => plan.seed = options.next()?.parse().ok()?,
            "--cases" => plan.cases = options.next()?.parse().ok()?,
            "--rows" => plan.rows = options.next()?.parse().ok().filter(|n| *n <= 5)?,
            "--first" => plan.first = true,
            _ => return None,
        }
    }
    (!program.is_empty()).then_some((plan, program))
}

fn run_compare(arguments: &[String]) -> ExitCode {
    let (plan, program) = match read_plan(arguments) {
        Some(read) => read,
        None => return usage("`compare` takes options, then -- and a command"),
    };
    match compare::compare(&plan, program) {
        Ok(outcome) => {
            println!("{} passed, {} failed", outcome.passed, outcome.failed);
            ExitCode::from(u8::from(outcome.failed > 0))
        }
        Err(error) => {
            println!("the other program could not be run: {error}");
            println!("0 passed, 1 failed");
            ExitCode::from(2)
        }
    }
}
