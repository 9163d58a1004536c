//! The programs as they are run.

use crosscheck::generate::{case, Case};
use crosscheck::program::output_of;
use std::io::Write;
use std::path::Path;
use std::process::{Command, Output, Stdio};
use std::thread;

const SECOND: &str = env!("CARGO_BIN_EXE_second");
const CROSSCHECK: &str = env!("CARGO_BIN_EXE_crosscheck");
const MAKE_JOURNAL: &str = env!("CARGO_BIN_EXE_make_journal");
const MEASURE: &str = env!("CARGO_BIN_EXE_measure");

fn run(program: &str, arguments: &[&str]) -> Output {
    Command::new(program).args(arguments).output().unwrap()
}

/// What a program prints with these arguments for a journal.
fn fed(program: &str, arguments: &[&str], journal: &[u8]) -> Vec<u8> {
    let mut command = Command::new(program);
    let spawned = command.args(arguments).stdin(Stdio::piped()).stdout(Stdio::piped()).spawn();
    let mut child = spawned.unwrap();
    let mut input = child.stdin.take().unwrap();
    thread::scope(|scope| {
        scope.spawn(move || input.write_all(journal).unwrap());
        child.wait_with_output().unwrap().stdout
    })
}

fn last_line(output: &Output) -> String {
    String::from_utf8_lossy(&output.stdout).lines().last().unwrap_or_default().to_string()
}

/// "A journal read to its end, an empty one too, prints `E` last", each line with a newline.
#[test]
fn second_prints_lines() {
    assert_eq!(output_of(Path::new(SECOND), &[], 1).unwrap(), b"E\n");
    assert_eq!(output_of(Path::new(SECOND), &[0x77], 1).unwrap(), b"bad journal at 0\n");
}

/// However the journal is written to it, the lines are the same.
#[test]
fn second_takes_a_journal_in_any_pieces() {
    for index in 0..20 {
        let Case::Single(journal) = case(11, index) else {
            continue;
        };
        let journal = &journal[..journal.len().min(3000)];
        let whole = output_of(Path::new(SECOND), journal, 3000).unwrap();
        for piece in [1, 7, 64] {
            assert_eq!(output_of(Path::new(SECOND), journal, piece).unwrap(), whole);
        }
    }
}

/// Without the test of soundness at each call the lines are the same, since the calls keep a sound
/// state sound; after a refused start it is not left out.
#[test]
fn second_prints_the_same_lines_on_trust() {
    let refused_start = [&[0x03][..], &[0; 32], &[0x21], &[0; 13]].concat();
    let long = run(MAKE_JOURNAL, &["5000", "16", "4"]).stdout;
    for journal in [refused_start, long] {
        let tested = fed(SECOND, &[], &journal);
        assert_eq!(fed(SECOND, &["--trust"], &journal), tested);
    }
}

#[test]
fn crosscheck_agrees_with_second() {
    let output = run(CROSSCHECK, &[SECOND, "21", "150"]);
    let last = last_line(&output);
    assert!(output.status.success(), "{last}");
    assert!(last.starts_with("crosscheck: 150 journals, "), "{last}");
    assert!(last.ends_with(" lines compared, 0 mismatches"), "{last}");
}

/// A program that prints nothing differs from every journal's first line on.
#[test]
fn crosscheck_tells_a_program_that_differs() {
    let output = run(CROSSCHECK, &[MAKE_JOURNAL, "22", "5"]);
    assert_eq!(output.status.code(), Some(1));
    let text = String::from_utf8_lossy(&output.stdout).into_owned();
    assert!(text.starts_with("mismatch: seed 22, case 0: line 1: "), "{text}");
    let file = text.lines().nth(1).unwrap().strip_prefix("  journal: ").unwrap();
    let Case::Single(journal) = case(22, 0) else {
        panic!("case 0 of seed 22 is a single journal");
    };
    assert_eq!(std::fs::read(file).unwrap(), journal);
    assert!(last_line(&output).contains("5 journals"), "{}", last_line(&output));
}

#[test]
fn crosscheck_tells_a_program_that_does_not_start() {
    let output = run(CROSSCHECK, &["no/such/program", "1", "2"]);
    assert_eq!(output.status.code(), Some(1));
    assert!(last_line(&output).ends_with(" 2 mismatches"), "{}", last_line(&output));
}

#[test]
fn wrong_arguments_are_told() {
    assert_eq!(run(CROSSCHECK, &["-", "1"]).status.code(), Some(2));
    assert_eq!(run(CROSSCHECK, &["-", "1", "many"]).status.code(), Some(2));
    assert_eq!(run(MAKE_JOURNAL, &["1", "257", "1"]).status.code(), Some(2));
    for arguments in [
        &["7", "1", "-"][..],
        &["7", "1", "-", "--"],
        &["0", "1", "-", "--", "x"],
        &["7", "1", "-", "--", "x", "--"],
        &["7", "1", "-", "--", "x", "--", "4.0"],
        &["7", "1", "-", "--", "x", "--", "nan", "y"],
    ] {
        assert_eq!(run(MEASURE, arguments).status.code(), Some(2));
    }
    for arguments in [&["--truth"][..], &["--trust", "--trust"], &[""]] {
        let output = run(SECOND, arguments);
        assert_eq!(output.status.code(), Some(2));
        assert!(output.stdout.is_empty() && output.stderr.starts_with(b"usage: second"));
    }
}

/// A made journal of so many records, the set-up's 21 among them, prints a line for the start,
/// each call and the end, and lines for the fetched faults.
#[test]
fn make_journal_makes_what_second_reads() {
    let journal = run(MAKE_JOURNAL, &["5000", "16", "4"]).stdout;
    assert_eq!(journal, run(MAKE_JOURNAL, &["5000", "16", "4"]).stdout);
    let output = output_of(Path::new(SECOND), &journal, 4096).unwrap();
    let text = String::from_utf8(output).unwrap();
    let calls = text.lines().filter(|line| line.len() != 48).count();
    // Four guests and sixteen endpoints print nothing; the end is no record.
    assert_eq!(calls, 5000 - 20 + 1);
    assert!(text.starts_with("S 0\n") && text.ends_with("\nE\n"));
}

/// Each program has its line, and each but the first a ratio held against its aim; no ratio makes
/// the measuring fail.
#[test]
fn measure_holds_ratios_against_aims() {
    let journal = concat!(env!("CARGO_TARGET_TMPDIR"), "/measured.journal");
    std::fs::write(journal, run(MAKE_JOURNAL, &["5000", "16", "4"]).stdout).unwrap();
    let others = ["--", "0", SECOND, "--trust", "--", "1000000", SECOND];
    let output = run(MEASURE, &[&["3", "5000", journal, "--", SECOND][..], &others].concat());
    assert!(output.status.success());
    let text = String::from_utf8(output.stdout).unwrap();
    let lines: Vec<&str> = text.lines().collect();
    let [first, trusting, again] = lines[..] else {
        panic!("three lines: {text}");
    };
    assert!(first.starts_with("  second ") && first.ends_with(" ns each"), "{first}");
    assert!(trusting.starts_with("  second --trust "), "{trusting}");
    assert!(trusting.ends_with(", aim 0.0: reached"), "{trusting}");
    assert!(again.ends_with(", aim 1000000.0: falls short"), "{again}");
    let failing = run(MEASURE, &["1", "1", journal, "--", "false"]);
    assert_eq!(failing.status.code(), Some(1));
}
