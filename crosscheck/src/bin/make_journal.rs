//! Writes a long sound journal to standard output, for measuring.

use crosscheck::long_journal::{LongJournal, MOST_LIVE};
use std::env;
use std::io::{self, BufWriter, Write};
use std::process::ExitCode;

const USAGE: &str = "usage: make_journal RECORDS LIVE SEED   (LIVE: 0 to 256 live records)";

fn main() -> ExitCode {
    let arguments: Vec<String> = env::args().skip(1).collect();
    let Some((records, live, seed)) = parse(&arguments) else {
        eprintln!("{USAGE}");
        return ExitCode::from(2);
    };
    match write_journal(records, live, seed) {
        Ok(()) => ExitCode::SUCCESS,
        Err(error) => {
            eprintln!("make_journal: {error}");
            ExitCode::FAILURE
        }
    }
}

fn parse(arguments: &[String]) -> Option<(usize, u32, u64)> {
    let [records, live, seed] = arguments else {
        return None;
    };
    let live = live.parse().ok().filter(|live| *live <= MOST_LIVE)?;
    Some((records.parse().ok()?, live, seed.parse().ok()?))
}

fn write_journal(records: usize, live: u32, seed: u64) -> io::Result<()> {
    let mut output = BufWriter::with_capacity(1 << 16, io::stdout().lock());
    let mut bytes = Vec::new();
    for record in LongJournal::new(live, seed).take(records) {
        bytes.clear();
        record.encode(&mut bytes);
        output.write_all(&bytes)?;
    }
    output.flush()
}
