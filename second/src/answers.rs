//! The line for each request, with all lent memory as it stands afterwards.

use crate::bundle::{next_sheet, Reader};
use crate::converting;
use crate::mending::{self, Mended};
use crate::operations;
use crate::requests::{Request, Source};
use crate::running;
use std::io::{self, Write};

/// Answers requests until they end or cannot be read further.
pub fn answer_all(input: &[u8], out: &mut impl Write) -> io::Result<()> {
    let mut source = Source::new(input);
    loop {
        match source.request() {
            Ok(Some(request)) => writeln!(out, "{}", line(request))?,
            Ok(None) => return Ok(()),
            Err(ending) => return writeln!(out, "{}", ending.word()),
        }
    }
}

/// The line without its newline.
pub fn line(request: Request) -> String {
    match request {
        Request::Check { words } => format!("1 {}", operations::check(&words)),
        Request::Insert { mut words, sheet, mut answers } => {
            inserted(2, operations::insert(&mut words, &sheet, &mut answers), &words, &answers)
        }
        Request::Key { words, row, mut buffer } => {
            let done = operations::write_key(&words, row, &mut buffer);
            format!("3 {} {} / {}", done.number, done.bytes, hex(&buffer))
        }
        Request::IsKey { bytes } => format!("4 {}", u8::from(operations::is_key(&bytes))),
        Request::Compare { first, row, second, other } => {
            yes_or_no(5, operations::compare(&first, row, &second, other))
        }
        Request::PartOf { words, whole, part } => yes_or_no(6, operations::part_of(&words, part, whole)),
        Request::Next { bytes } => format!("7 {}", next_sheet(&bytes).len()),
        Request::Reader { bundle, at, steps } => {
            format!("8 {}", steps_shown(&bundle, at as usize, steps))
        }
        Request::ReadSheet { sheet } => {
            let read = operations::read_sheet(&sheet);
            format!("9 {} {}", read.number, read.place)
        }
        Request::InsertStrict { mut words, sheet, mut answers } => {
            inserted(10, operations::insert_strict(&mut words, &sheet, &mut answers), &words, &answers)
        }
        Request::Mend { mut words, mut list } => mended(mending::mend(&mut words, &mut list), &words, &list),
        Request::Run { words, row, channels, values, mut output } => {
            let number = running::run(&words, row, channels, &values, &mut output);
            format!("12 {number} / {}", decimal(&output))
        }
        Request::Convert { words, sheet, mut buffer } => {
            let done = converting::convert(&words, &sheet, &mut buffer);
            format!("13 {} {} {} / {}", done.number, done.bytes, done.place, hex(&buffer))
        }
    }
}

fn inserted(kind: u8, done: operations::Inserted, words: &[u32], answers: &[u32]) -> String {
    let numbers = format!("{} {} {}", done.number, done.added, done.place);
    format!("{kind} {numbers} / {} / {}", decimal(words), decimal(answers))
}

fn mended(done: Mended, words: &[u32], list: &[u32]) -> String {
    let Mended { number, dropped, wires, merged, cleared } = done;
    format!("11 {number} {dropped} {wires} {merged} {cleared} / {} / {}", decimal(words), decimal(list))
}

fn yes_or_no(kind: u8, answer: operations::Answer) -> String {
    format!("{kind} {} {}", answer.number, u8::from(answer.yes))
}

/// The length shown and the place after moving, for each step.
fn steps_shown(bundle: &[u8], at: usize, steps: u32) -> String {
    let mut reader = Reader { bundle, at };
    let shown: Vec<String> = (0..steps).map(|_| format!("{}:{}", reader.step().len(), reader.at)).collect();
    shown.join(" ")
}

/// Words, or signed numbers with their signs.
fn decimal(numbers: &[impl ToString]) -> String {
    numbers.iter().map(ToString::to_string).collect::<Vec<_>>().join(" ")
}

fn hex(bytes: &[u8]) -> String {
    bytes.iter().map(|byte| format!("{byte:02x}")).collect()
}
