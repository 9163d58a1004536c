//! Compares a program with the second implementation over seeded journals.

use crosscheck::run::Run;
use std::env;
use std::path::PathBuf;
use std::process::ExitCode;

const USAGE: &str = "usage: crosscheck PROGRAM SEED COUNT   (PROGRAM - : the second one alone)";

fn main() -> ExitCode {
    let arguments: Vec<String> = env::args().skip(1).collect();
    let Some((program, seed, count)) = parse(&arguments) else {
        eprintln!("{USAGE}");
        return ExitCode::from(2);
    };
    let mut run = Run::new(program, seed, &target_folder());
    if let Err(error) = run.work(count) {
        eprintln!("crosscheck: a journal cannot be kept: {error}");
        return ExitCode::from(2);
    }
    println!("{}", run.coverage);
    println!(
        "crosscheck: {} journals, {} pairs, {} lines compared, {} mismatches",
        run.journals, run.pairs, run.lines, run.mismatches
    );
    if run.mismatches == 0 {
        ExitCode::SUCCESS
    } else {
        ExitCode::FAILURE
    }
}

/// The program, none for `-`, with the seed and the count.
fn parse(arguments: &[String]) -> Option<(Option<PathBuf>, u64, u64)> {
    let [program, seed, count] = arguments else {
        return None;
    };
    let program = (program != "-").then(|| PathBuf::from(program));
    Some((program, seed.parse().ok()?, count.parse().ok()?))
}

/// The folder `target` that this program was built into, or the one where it is run.
fn target_folder() -> PathBuf {
    let own = env::current_exe().ok();
    let folder = own.as_deref().and_then(|path| path.ancestors().nth(2));
    folder.map_or_else(|| PathBuf::from("target"), |folder| folder.to_path_buf())
}
