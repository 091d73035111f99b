//! The comparer: it passes this program, and finds every wrong one.

use std::path::Path;
use std::process::{Command, Output};

use second::answers;
use second::wrong::{Wrong, WRONGS};

const SECOND: &str = env!("CARGO_BIN_EXE_second");

fn second(arguments: &[&str]) -> Output {
    let mut command = Command::new(SECOND);
    command.args(arguments);
    command.output().expect("the program runs")
}

fn last_line(output: &Output) -> String {
    let text = String::from_utf8_lossy(&output.stdout);
    text.lines().last().unwrap_or("").to_string()
}

fn compare(options: &[&str], program: &[&str]) -> Output {
    let all = [&["compare"], options, &["--"], program].concat();
    second(&all)
}

#[test]
fn itself_passes() {
    let options = ["--rows", "3", "--cases", "8000"];
    let output = compare(&options, &[SECOND, "answers"]);
    assert!(output.status.success());
    assert!(last_line(&output).ends_with(" passed, 0 failed"));
}

#[test]
fn other_seeds_pass_and_cover() {
    for seed in ["1", "2"] {
        let options = ["--seed", seed, "--rows", "1", "--cases", "2000"];
        let output = compare(&options, &[SECOND, "answers"]);
        assert!(output.status.success(), "seed {seed}");
    }
}

/// Half of them at a time, on two threads.
#[test]
fn every_wrong_program_is_found() {
    let (one, two) = WRONGS.split_at(WRONGS.len() / 2);
    std::thread::scope(|scope| {
        scope.spawn(|| each_is_found(one));
        each_is_found(two);
    });
}

fn each_is_found(wrongs: &[(&str, Wrong)]) {
    for (name, _) in wrongs {
        let options = ["--first", "--rows", "2", "--cases", "0"];
        let output = compare(&options, &[SECOND, "answers", "--wrong", name]);
        assert_eq!(output.status.code(), Some(1), "{name}");
        assert!(!last_line(&output).ends_with(" 0 failed"), "{name}");
    }
}

#[test]
fn a_difference_is_shown_and_kept() {
    let options = ["--rows", "0", "--cases", "0"];
    let wrong = [SECOND, "answers", "--wrong", "coin-sixteen"];
    let output = compare(&options, &wrong);
    // Word 0 comes up in two calls and in two whole inputs.
    assert!(last_line(&output).ends_with(" passed, 4 failed"));
    let text = String::from_utf8_lossy(&output.stdout).to_string();
    assert!(text.contains("call      height, word 0"));
    assert!(text.contains("count     15 | 16  <-- differs"));
    let kept = text.lines().find_map(|line| {
        let at = line.trim().strip_prefix("kept in ")?;
        Some(at.to_string())
    });
    let kept = kept.expect("the frame is kept");
    assert!(Path::new(&kept).starts_with(Path::new(SECOND).parent().unwrap()));
    let frame = std::fs::read(&kept).expect("the frame is there");
    assert_eq!(frame, [0, 0, 0, 3, 3, 0, 0]);
}

#[test]
fn programs_that_are_silent_or_missing_fail() {
    let options = ["--rows", "0", "--cases", "0"];
    let silent = compare(&options, &[SECOND, "--help"]);
    assert_eq!(silent.status.code(), Some(1));
    assert!(!last_line(&silent).ends_with(" 0 failed"));
    let missing = compare(&options, &["./there-is-no-such-program"]);
    assert_eq!(missing.status.code(), Some(2));
    assert_eq!(last_line(&missing), "0 passed, 1 failed");
}

#[test]
fn usage() {
    assert!(second(&["--help"]).status.success());
    for arguments in [&[][..], &["answer"], &["compare"], &["compare", "--"]] {
        assert_eq!(second(arguments).status.code(), Some(2));
    }
    let twelve = compare(&["--rows", "12"], &[SECOND, "answers"]);
    assert_eq!(twelve.status.code(), Some(2));
}

#[test]
fn runs_end_as_the_frames_say() {
    let call = [0, 0, 0, 3, 3, 0, 8];
    let answer = answers::run_on(&call);
    assert_eq!(answer.len(), 4 + 2 + 32 + 36 + 12 + 1);
    assert_eq!(answers::run_on(&[]), b"");
    assert_eq!(answers::run_on(&[0]), b"bad frame\n");
    assert_eq!(answers::run_on(&call[..6]), b"bad frame\n");
    assert_eq!(answers::run_on(&[0, 3, 13, 65]), b"bad frame\n");
    let both = [&call[..], &[0, 0, 0, 0]].concat();
    let ended = [&answer[..], b"bad frame\n"].concat();
    assert_eq!(answers::run_on(&both), ended);
}
