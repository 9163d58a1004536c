//! Reads a journal from standard input and prints its lines.

use crosscheck::journal;
use crosscheck::sound::SoundnessTest;
use std::env;
use std::io::{self, BufReader, BufWriter, Write};
use std::process::ExitCode;

const USAGE: &str =
    "usage: second [--trust] < JOURNAL   (--trust, to measure: no test of soundness at each call)";

fn main() -> ExitCode {
    let arguments: Vec<String> = env::args().skip(1).collect();
    let Some(soundness_test) = parse(&arguments) else {
        eprintln!("{USAGE}");
        return ExitCode::from(2);
    };
    match print_lines(soundness_test) {
        Ok(()) => ExitCode::SUCCESS,
        Err(error) => {
            eprintln!("second: {error}");
            ExitCode::FAILURE
        }
    }
}

/// No argument, or the one that leaves the test out.
fn parse(arguments: &[String]) -> Option<SoundnessTest> {
    match arguments {
        [] => Some(SoundnessTest::EachCall),
        [word] if word == "--trust" => Some(SoundnessTest::SetUpAlone),
        _ => None,
    }
}

fn print_lines(soundness_test: SoundnessTest) -> io::Result<()> {
    let input = BufReader::with_capacity(1 << 16, io::stdin().lock());
    let mut output = BufWriter::with_capacity(1 << 16, io::stdout().lock());
    journal::run(input, soundness_test, |line| writeln!(output, "{}", line.text))?;
    output.flush()
}
