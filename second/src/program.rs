//! The lines of the program `chains` for a bundle.

use crate::bundle::Reader;
use crate::law::{DONE, MOST_BUNDLE_BYTES, MOST_ROWS, ROW_WORDS};
use crate::operations;
use std::io::{self, Write};

/// Inserts each sheet into one store of full capacity and writes its line.
pub fn run(input: &[u8], out: &mut impl Write) -> io::Result<()> {
    if input.len() > MOST_BUNDLE_BYTES {
        return writeln!(out, "long");
    }
    let mut words = vec![0; 1 + MOST_ROWS * ROW_WORDS];
    let mut reader = Reader { bundle: input, at: 0 };
    for place in 1.. {
        let sheet = reader.step();
        if sheet.is_empty() {
            break;
        }
        writeln!(out, "{}", line(place, sheet, &mut words))?;
    }
    match input.len() - reader.at {
        0 => Ok(()),
        left => writeln!(out, "rest {left}"),
    }
}

/// Place, number, rows added and, if done, the rows' numbers.
fn line(place: usize, sheet: &[u8], words: &mut [u32]) -> String {
    let mut answers = [0; MOST_ROWS];
    let inserted = operations::insert(words, sheet, &mut answers);
    let mut line = format!("{place} {} {}", inserted.number, inserted.added);
    if inserted.number == DONE {
        // A done sheet is readable, so its row count stands in bytes 5 and 6.
        let rows = usize::from(u16::from_be_bytes([sheet[5], sheet[6]]));
        answers[..rows].iter().for_each(|number| line.push_str(&format!(" {number}")));
    }
    line
}
