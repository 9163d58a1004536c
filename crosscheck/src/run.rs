//! A seeded run of cases, each compared line by line.

use crate::compare::{first_difference, lines_of, play, Difference, Played};
use crate::coverage::Coverage;
use crate::generate::{case, Case};
use crate::numbers::Guest;
use crate::program::output_of;
use std::io;
use std::path::{Path, PathBuf};

/// How many mismatches are told in full, with their journals kept.
const TOLD: u64 = 10;
/// The longest journal that is fed in small pieces, which takes a write for each.
const LONGEST_IN_PIECES: usize = 8192;

pub struct Run {
    /// The program compared with the second one, if there is one.
    pub program: Option<PathBuf>,
    pub seed: u64,
    /// Where the journals of mismatches are kept.
    pub folder: PathBuf,
    pub journals: u64,
    pub pairs: u64,
    pub lines: u64,
    pub mismatches: u64,
    pub coverage: Coverage,
}

/// One journal of a run: the case it comes from, and which half of a pair it is.
struct Made<'a> {
    index: u64,
    half: usize,
    bytes: &'a [u8],
}

impl Run {
    pub fn new(program: Option<PathBuf>, seed: u64, folder: &Path) -> Self {
        Run {
            program,
            seed,
            folder: folder.to_path_buf(),
            journals: 0,
            pairs: 0,
            lines: 0,
            mismatches: 0,
            coverage: Coverage::default(),
        }
    }

    /// Makes exactly this many journals, each half of a pair counted, and compares them.
    pub fn work(&mut self, count: u64) -> io::Result<()> {
        let mut index = 0;
        while self.journals < count {
            match case(self.seed, index) {
                Case::Single(bytes) => {
                    self.single(&Made { index, half: 0, bytes: &bytes })?;
                }
                // There is no room for both halves: the first stands alone.
                Case::Pair { journals, .. } if self.journals + 1 == count => {
                    self.single(&Made { index, half: 0, bytes: &journals[0] })?;
                }
                Case::Pair { guest, journals } => self.pair(index, guest, &journals)?,
            }
            index += 1;
        }
        Ok(())
    }

    /// Plays one journal through both programs; gives the second's lines and the texts that the
    /// other printed, or the second's own texts when there is no other.
    fn single(&mut self, made: &Made) -> io::Result<(Played, String)> {
        let played = play(made.bytes);
        self.journals += 1;
        self.coverage.add_played(made.bytes, &played);
        let expected = played.output();
        let Some(program) = &self.program else {
            return Ok((played, expected));
        };
        self.lines += played.lines.len() as u64;
        let printed = match output_of(program, made.bytes, piece_for(made)) {
            Ok(bytes) => String::from_utf8_lossy(&bytes).into_owned(),
            Err(cause) => {
                self.tell(&[made], &format!("the program {cause}"))?;
                return Ok((played, String::new()));
            }
        };
        if printed != expected {
            let difference = difference_of(&played, &printed);
            self.tell(&[made], &difference)?;
        }
        Ok((played, printed))
    }

    /// Plays both journals of a pair and compares what concerns the one guest.
    fn pair(&mut self, index: u64, guest: Guest, journals: &[Vec<u8>; 2]) -> io::Result<()> {
        let [first, second] = [0, 1].map(|half| Made { index, half, bytes: &journals[half] });
        let (first_played, first_output) = self.single(&first)?;
        let (second_played, second_output) = self.single(&second)?;
        self.pairs += 1;
        let first_own = first_played.own(guest, &first_output);
        let second_own = second_played.own(guest, &second_output);
        self.lines += first_own.len() as u64;
        if let Some(difference) = first_difference(&first_own, &second_own) {
            let sides = sides(&difference, ["first journal", "second journal"]);
            let text = format!("own lines of guest {}: {sides}", guest.0);
            self.tell(&[&first, &second], &text)?;
        } else if first_played.device.holdings(guest) != second_played.device.holdings(guest) {
            let text = format!("guest {} is left with different holdings", guest.0);
            self.tell(&[&first, &second], &text)?;
        }
        Ok(())
    }

    /// Counts a mismatch, and tells the first ones with the files that keep their journals.
    fn tell(&mut self, journals: &[&Made], text: &str) -> io::Result<()> {
        self.mismatches += 1;
        if self.mismatches > TOLD {
            return Ok(());
        }
        println!("mismatch: seed {}, case {}: {text}", self.seed, journals[0].index);
        for made in journals {
            println!("  journal: {}", self.keep(made)?.display());
        }
        Ok(())
    }

    /// Writes a journal to a file of its own.
    fn keep(&self, made: &Made) -> io::Result<PathBuf> {
        let name = format!("mismatch-{}-{}-{}.journal", self.seed, made.index, made.half);
        let file = self.folder.join(name);
        std::fs::create_dir_all(&self.folder)?;
        std::fs::write(&file, made.bytes)?;
        Ok(file)
    }
}

/// One journal in four is fed in small pieces, so that records are cut between reads.
fn piece_for(made: &Made) -> usize {
    if made.index.is_multiple_of(4) && made.bytes.len() <= LONGEST_IN_PIECES {
        1 + (made.index / 4 % 61) as usize
    } else {
        made.bytes.len().max(1)
    }
}

/// The first line in which a printed output differs from the second program's lines.
fn difference_of(played: &Played, printed: &str) -> String {
    let Some(lines) = lines_of(printed) else {
        return "the last line has no newline".to_string();
    };
    match first_difference(&played.texts(), &lines) {
        Some(difference) => sides(&difference, ["second program", "PROGRAM"]),
        None => "the bytes differ".to_string(),
    }
}

/// A difference in words, with the names of its two sides.
fn sides(difference: &Difference, names: [&str; 2]) -> String {
    let text = |side: &Option<String>| match side {
        Some(text) => format!("`{text}`"),
        None => "nothing".to_string(),
    };
    let (one, other) = (text(&difference.one), text(&difference.other));
    format!("line {}: {} {one}, {} {other}", difference.line, names[0], names[1])
}
