//! Lines compared with lines.

use crate::device::Device;
use crate::journal::{self, LineKind};
use crate::numbers::Guest;
use crate::sound::SoundnessTest;

/// One line of the second program, with whose call it answers.
pub struct PlayedLine {
    pub kind: LineKind,
    pub owner: Option<Guest>,
    pub text: String,
}

/// What the second program made of a journal.
pub struct Played {
    pub lines: Vec<PlayedLine>,
    pub device: Device,
}

impl Played {
    /// The texts of all lines.
    pub fn texts(&self) -> Vec<&str> {
        self.lines.iter().map(|line| line.text.as_str()).collect()
    }

    /// Of an output printed for the same journal, the lines that answer calls of this guest.
    pub fn own<'a>(&self, guest: Guest, output: &'a str) -> Vec<&'a str> {
        let lines = self.lines.iter().zip(output.split('\n'));
        lines.filter(|(line, _)| line.owner == Some(guest)).map(|(_, text)| text).collect()
    }

    /// All lines, each with its newline.
    pub fn output(&self) -> String {
        self.lines.iter().map(|line| format!("{}\n", line.text)).collect()
    }
}

/// Plays a journal through the second program.
pub fn play(journal: &[u8]) -> Played {
    let mut lines = Vec::new();
    let device = journal::run(journal, SoundnessTest::EachCall, |line| {
        lines.push(PlayedLine { kind: line.kind, owner: line.owner, text: line.text.to_string() });
        Ok(())
    });
    let device = device.expect("reading from memory and keeping lines does not fail");
    Played { lines, device }
}

/// Where two runs of lines first differ; none on a side that has ended.
#[derive(Debug, PartialEq, Eq)]
pub struct Difference {
    /// Counted from 1.
    pub line: usize,
    pub one: Option<String>,
    pub other: Option<String>,
}

/// The first line in which the two differ.
pub fn first_difference(one: &[&str], other: &[&str]) -> Option<Difference> {
    let longest = one.len().max(other.len());
    let line = (0..longest).find(|&line| one.get(line) != other.get(line))?;
    let text = |lines: &[&str]| lines.get(line).map(|text| text.to_string());
    Some(Difference { line: line + 1, one: text(one), other: text(other) })
}

/// The lines of an output, all of which end in a newline; none when the last does not.
pub fn lines_of(output: &str) -> Option<Vec<&str>> {
    if output.is_empty() {
        return Some(Vec::new());
    }
    Some(output.strip_suffix('\n')?.split('\n').collect())
}
