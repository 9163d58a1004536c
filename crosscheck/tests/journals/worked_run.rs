//! "One whole run", byte for byte in and byte for byte out.

use crosscheck::journal;
use crosscheck::sound::SoundnessTest;
use std::io::{self, Read};

/// The run's records in hex, written out by hand from "A journal is a run of records".
const JOURNAL: &str = "
    01 0200 0000008000000000 ffffff8f00000000
    01 0200 0000009000000000 ffffff9f00000000
    02 08000000 00
    02 09000000 01
    03 0010000000000000 0000000000000000 ffffffff00000000 01000000 0f000000
    11 00 01000000 01000000 08000000 0000000000000000
    13 00 03000000 01000000 0010000000000000 ff1f000000000000 00a0008000000000 01000000
    21 08000000 3412000000000000 00
    21 08000000 3412000000000000 01
    21 09000000 3412000000000000 00
    23 00 04
    11 00 02000000 01000000 08000000 0000000000000000
    11 00 01000000 01000000 08000000 0000000000000000
    21 08000000 3412000000000000 00
";

/// The printed block of document 01.
const OUTPUT: &str = "\
S 0
R 0 4 0
R 0 4 0
A 0 000000008000a234
A 8
A 7
F 0 1
020000000201000008000000000000003412000000000000
R 0 4 0
R 0 4 0
A 8
E
";

fn bytes_of(hex: &str) -> Vec<u8> {
    let digits: Vec<u8> = hex.bytes().filter(|byte| !byte.is_ascii_whitespace()).collect();
    let byte = |pair: &[u8]| u8::from_str_radix(std::str::from_utf8(pair).unwrap(), 16).unwrap();
    digits.chunks(2).map(byte).collect()
}

/// What is printed for an input, each line with its newline.
fn printed(input: impl Read) -> String {
    let mut output = String::new();
    journal::run(input, SoundnessTest::EachCall, |line| {
        output.push_str(line.text);
        output.push('\n');
        Ok(())
    })
    .unwrap();
    output
}

/// Gives its bytes in reads of at most `piece` bytes.
struct Pieces<'a> {
    bytes: &'a [u8],
    piece: usize,
}

impl Read for Pieces<'_> {
    fn read(&mut self, buffer: &mut [u8]) -> io::Result<usize> {
        let length = self.piece.min(buffer.len());
        self.bytes.read(&mut buffer[..length])
    }
}

#[test]
fn prints_the_block_of_document_01() {
    assert_eq!(printed(bytes_of(JOURNAL).as_slice()), OUTPUT);
}

#[test]
fn does_not_depend_on_where_reads_cut_the_records() {
    let bytes = bytes_of(JOURNAL);
    for piece in 1..=40 {
        assert_eq!(printed(Pieces { bytes: &bytes, piece }), OUTPUT, "pieces of {piece}");
    }
}
