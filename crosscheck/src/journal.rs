//! A journal read record by record, and the lines that answer it.

use crate::answers::Status;
use crate::device::Device;
use crate::numbers::Guest;
use crate::player::Player;
use crate::sound::SoundnessTest;
use std::io::{self, ErrorKind, Read};

/// The kinds of record.
pub const GUEST: u8 = 0x01;
pub const ENDPOINT: u8 = 0x02;
pub const START: u8 = 0x03;
pub const REGION: u8 = 0x04;
pub const REQUEST_20: u8 = 0x11;
pub const REQUEST_28: u8 = 0x12;
pub const REQUEST_36: u8 = 0x13;
pub const REQUEST_72: u8 = 0x14;
pub const ACCESS: u8 = 0x21;
pub const RESET: u8 = 0x22;
pub const FETCH: u8 = 0x23;

/// The longest body: a guest number and 72 request bytes.
const LONGEST_BODY: usize = 73;

/// The bytes after the kind byte, if the kind is known.
pub fn body_bytes(kind: u8) -> Option<usize> {
    match kind {
        GUEST => Some(2 + 8 + 8),
        ENDPOINT => Some(4 + 1),
        START => Some(8 + 8 + 8 + 4 + 4),
        REGION => Some(4 + 1 + 8 + 8),
        REQUEST_20 => Some(1 + 20),
        REQUEST_28 => Some(1 + 28),
        REQUEST_36 => Some(1 + 36),
        REQUEST_72 => Some(1 + 72),
        ACCESS => Some(4 + 8 + 1),
        RESET => Some(1),
        FETCH => Some(1 + 1),
        _ => None,
    }
}

/// What a line answers.
#[derive(Clone, Copy, Debug, PartialEq, Eq)]
pub enum LineKind {
    Start,
    /// A request, with its type byte and, where it was handled, its status.
    Request(u8, Option<Status>),
    /// The properties after a PROBE's line.
    Properties,
    Access,
    Reset,
    Fetch,
    /// One of the fault records after a fetch's line.
    FaultRecord,
    End,
    BadJournal,
}

/// One printed line, without its newline.
pub struct Line<'a> {
    pub kind: LineKind,
    /// The guest whose own call, or whose device's access, the line answers.
    pub owner: Option<Guest>,
    pub text: &'a str,
}

/// The input with the count of bytes taken from it.
struct Records<R> {
    input: R,
    offset: u64,
    body: [u8; LONGEST_BODY],
}

impl<R: Read> Records<R> {
    /// The next kind byte, or none at the journal's end.
    fn kind(&mut self) -> io::Result<Option<u8>> {
        let mut byte = [0];
        let found = fill(&mut self.input, &mut byte)?;
        self.offset += 1;
        Ok(found.then_some(byte[0]))
    }

    /// The body of a record of this kind; none when the kind is unknown or the body is cut.
    fn body(&mut self, kind: u8) -> io::Result<Option<&[u8]>> {
        let Some(length) = body_bytes(kind) else {
            return Ok(None);
        };
        let body = &mut self.body[..length];
        let whole = fill(&mut self.input, body)?;
        self.offset += length as u64;
        Ok(whole.then_some(body))
    }
}

/// Fills the buffer however the input is cut into reads; false when the input ends before.
fn fill(input: &mut impl Read, buffer: &mut [u8]) -> io::Result<bool> {
    match input.read_exact(buffer) {
        Ok(()) => Ok(true),
        Err(error) if error.kind() == ErrorKind::UnexpectedEof => Ok(false),
        Err(error) => Err(error),
    }
}

/// Plays a journal, printing each line, and gives the device as the journal left it.
pub fn run(
    input: impl Read,
    soundness_test: SoundnessTest,
    print: impl FnMut(Line) -> io::Result<()>,
) -> io::Result<Device> {
    let mut records = Records { input, offset: 0, body: [0; LONGEST_BODY] };
    let mut player = Player::new(soundness_test, print);
    loop {
        let at = records.offset;
        let Some(kind) = records.kind()? else {
            player.say(LineKind::End, None, format_args!("E"))?;
            break;
        };
        let taken = match records.body(kind)? {
            Some(body) => player.play(kind, body)?,
            None => false,
        };
        if !taken {
            player.say(LineKind::BadJournal, None, format_args!("bad journal at {at}"))?;
            break;
        }
    }
    Ok(player.into_device())
}
