//! Times journal programs on one journal, in turn, by the processor time that each takes, and prints
//! how many times faster the first is than each of the others, beside the aim.

use crosscheck::children;
use crosscheck::figures::{held_against, Spread};
use std::env;
use std::fs::File;
use std::io::{self, Error};
use std::path::Path;
use std::process::{Command, ExitCode, Stdio};

const USAGE: &str = "usage: measure REPETITIONS RECORDS JOURNAL -- PROGRAM [ARGUMENT...] \
    [-- AIM PROGRAM [ARGUMENT...]]...";

/// What is measured: the journal and its number of records, the program, and those that it is held
/// against.
struct Plan<'a> {
    repetitions: usize,
    records: u64,
    journal: &'a Path,
    program: &'a [String],
    others: Vec<Other<'a>>,
}

/// A program that the first one is to be so many times faster than.
struct Other<'a> {
    aim: f64,
    program: &'a [String],
}

fn main() -> ExitCode {
    let arguments: Vec<String> = env::args().skip(1).collect();
    let Some(plan) = parse(&arguments) else {
        eprintln!("{USAGE}");
        return ExitCode::from(2);
    };
    match measure(&plan) {
        Ok(()) => ExitCode::SUCCESS,
        Err(error) => {
            eprintln!("measure: {error}");
            ExitCode::FAILURE
        }
    }
}

fn parse(arguments: &[String]) -> Option<Plan<'_>> {
    let mut parts = arguments.split(|word| word == "--");
    let [repetitions, records, journal] = parts.next()? else {
        return None;
    };
    Some(Plan {
        repetitions: repetitions.parse().ok().filter(|count| *count > 0)?,
        records: records.parse().ok().filter(|count| *count > 0)?,
        journal: Path::new(journal),
        program: parts.next().filter(|program| !program.is_empty())?,
        others: parts.map(parse_other).collect::<Option<_>>()?,
    })
}

fn parse_other(words: &[String]) -> Option<Other<'_>> {
    let (aim, program) = words.split_first().filter(|(_, program)| !program.is_empty())?;
    Some(Other { aim: aim.parse().ok().filter(|aim: &f64| aim.is_finite())?, program })
}

/// Runs the programs in turn, so that a slow moment of the machine hits all of them, after one run
/// of each that is not counted.
fn measure(plan: &Plan) -> io::Result<()> {
    let others = plan.others.iter().map(|other| other.program);
    let programs: Vec<&[String]> = [plan.program].into_iter().chain(others).collect();
    let mut times = vec![Vec::new(); programs.len()];
    for repetition in 0..=plan.repetitions {
        for (program, times) in programs.iter().zip(&mut times) {
            let nanoseconds = run(program, plan.journal)?;
            if repetition > 0 {
                times.push(nanoseconds / plan.records as f64);
            }
        }
    }
    let spreads: Vec<Spread> = times.iter().map(|times| Spread::of(times)).collect();
    println!("  {}", figures(plan.program, spreads[0]));
    for (other, spread) in plan.others.iter().zip(&spreads[1..]) {
        let held = held_against(other.aim, spread.median / spreads[0].median);
        println!("  {}, {held}", figures(other.program, *spread));
    }
    Ok(())
}

/// The nanoseconds that a program computes over the journal, what it prints thrown away.
fn run(program: &[String], journal: &Path) -> io::Result<f64> {
    let mut command = Command::new(&program[0]);
    command.args(&program[1..]).stdin(File::open(journal)?).stdout(Stdio::null());
    let ended = children::run(&mut command)?;
    if !ended.status.success() {
        return Err(Error::other(format!("{} ends with {}", program[0], ended.status)));
    }
    Ok(ended.processor_time.as_nanos() as f64)
}

/// A program's file name and arguments, the records that it does in a second, and the time of one.
fn figures(program: &[String], spread: Spread) -> String {
    let file = Path::new(&program[0]).file_name().unwrap_or_default();
    let words = program[1..].iter().map(|word| format!(" {word}"));
    let name = file.to_string_lossy().into_owned() + &words.collect::<String>();
    format!("{name:16} {:9.0} a second, {spread} ns each", 1e9 / spread.median)
}
