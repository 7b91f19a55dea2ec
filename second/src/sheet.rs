//! The sheet file: bytes, read as rows or written from them.

use crate::faults::{self, Fault};
use crate::law::{Refusal, Refused, INPUT_BYTES, MOST_INPUTS, MOST_ROWS, ROW_HEAD, SHEET_HEAD};
use crate::law::{LENGTH_PLACE, ROW_COUNT_PLACE, STORE_MARK, VERSION, VERSION_PLACE};
use crate::rows::Row;

/// A row as the file has it: each input is a sheet row, or in an old sheet a store row from 32,768 on.
#[derive(Clone, Debug, PartialEq, Eq)]
pub struct SheetRow {
    pub label: u32,
    pub inputs: Vec<u16>,
}

/// The rows of the bytes, or the lowest of 3, 4 and 5 that applies and where its fault starts.
pub fn read(bytes: &[u8]) -> Result<Vec<SheetRow>, Refused> {
    if bytes.len() < SHEET_HEAD || length_field(bytes) != bytes.len() as u64 - 4 {
        return Err(Refusal::WrongLength.at(LENGTH_PLACE));
    }
    if bytes[VERSION_PLACE] != VERSION {
        return Err(Refusal::WrongVersion.at(VERSION_PLACE));
    }
    let count = usize::from(u16::from_be_bytes([bytes[ROW_COUNT_PLACE], bytes[ROW_COUNT_PLACE + 1]]));
    if count > MOST_ROWS {
        return Err(Refusal::Unreadable.at(too_many_rows_place()));
    }
    read_rows(&bytes[SHEET_HEAD..], count)
}

fn too_many_rows_place() -> usize {
    if faults::planted(Fault::RowCountAtRows) {
        return SHEET_HEAD;
    }
    ROW_COUNT_PLACE
}

/// The number in the first four bytes, wide enough that adding 4 does not wrap.
pub fn length_field(bytes: &[u8]) -> u64 {
    bytes[..4].iter().fold(0, |number, &byte| number * 256 + u64::from(byte))
}

/// Rows one after another that end exactly where the bytes end. The first that cannot be read, or
/// else what is left over, is the fault, and starts where the rows before it end.
fn read_rows(mut rest: &[u8], count: usize) -> Result<Vec<SheetRow>, Refused> {
    let mut rows = Vec::new();
    for _ in 0..count {
        let Some((row, after)) = read_row(rest) else {
            return Err(Refusal::Unreadable.at(length_of(&rows)));
        };
        rows.push(row);
        rest = after;
    }
    if !rest.is_empty() {
        return Err(Refusal::Unreadable.at(length_of(&rows)));
    }
    Ok(rows)
}

fn read_row(bytes: &[u8]) -> Option<(SheetRow, &[u8])> {
    let (head, rest) = bytes.split_at_checked(ROW_HEAD)?;
    let count = usize::from(head[4]);
    if count > MOST_INPUTS {
        return None;
    }
    let (inputs, after) = rest.split_at_checked(INPUT_BYTES * count)?;
    let row = SheetRow {
        label: u32::from_be_bytes([head[0], head[1], head[2], head[3]]),
        inputs: inputs.chunks_exact(2).map(|pair| u16::from_be_bytes([pair[0], pair[1]])).collect(),
    };
    Some((row, after))
}

/// The bytes of a file of these rows: with r rows and e inputs, 7 + 5r + 2e.
fn length_of(rows: &[SheetRow]) -> usize {
    let inputs: usize = rows.iter().map(|row| row.inputs.len()).sum();
    SHEET_HEAD + ROW_HEAD * rows.len() + INPUT_BYTES * inputs
}

/// The file of these rows. It writes what it is given, so that unreadable sheets can be made too.
pub fn write(rows: &[SheetRow]) -> Vec<u8> {
    let mut body = vec![VERSION];
    body.extend((rows.len() as u16).to_be_bytes());
    for row in rows {
        body.extend(row.label.to_be_bytes());
        body.push(row.inputs.len() as u8);
        body.extend(row.inputs.iter().flat_map(|input| input.to_be_bytes()));
    }
    let mut file = (body.len() as u32).to_be_bytes().to_vec();
    file.extend(body);
    file
}

/// The rows of a sheet that is to be inserted, as they stand behind a store of `used` rows. An input of
/// 32,768 or more in any row is 19, whatever else is astray and whatever the store has.
pub fn inserted_behind(used: usize, rows: &[SheetRow]) -> Result<Vec<Row>, Refused> {
    if faults::planted(Fault::RetiredLast) {
        // Behind so many rows no store number points nowhere.
        behind_store(usize::from(STORE_MARK), rows)?;
    }
    if rows.iter().flat_map(|row| &row.inputs).any(|&input| is_retired(used, input)) {
        return Err(Refusal::Retired.into());
    }
    behind_store(used, rows)
}

fn is_retired(used: usize, input: u16) -> bool {
    if faults::planted(Fault::RetiredIfStored) {
        return input >= STORE_MARK && meant(used, 0, input).is_some();
    }
    let early = u16::from(faults::planted(Fault::RetiredEarly));
    input >= STORE_MARK - early && !faults::planted(Fault::StoreNumbersTaken)
}

/// The sheet's rows as they stand behind a store of `used` rows that it was drawn against, or where the
/// first input starts, row by row and from the left, that points nowhere.
pub fn behind_store(used: usize, rows: &[SheetRow]) -> Result<Vec<Row>, Refused> {
    let moved = |(number, row): (usize, &SheetRow)| {
        let row_of = |(before, &input): (usize, &u16)| {
            meant(used, rows.len(), input)
                .ok_or_else(|| Refusal::Astray.at(input_place(rows, number, before)))
        };
        let inputs: Result<Vec<usize>, Refused> = row.inputs.iter().enumerate().map(row_of).collect();
        Ok(Row { label: row.label, inputs: inputs? })
    };
    rows.iter().enumerate().map(moved).collect()
}

/// The row that an input means, where a sheet of `drawn` rows stands behind a store of `used`.
fn meant(used: usize, drawn: usize, input: u16) -> Option<usize> {
    match input.checked_sub(STORE_MARK) {
        Some(number) => Some(usize::from(number)).filter(|&number| number < used),
        None => Some(usize::from(input)).filter(|&row| row < drawn).map(|row| used + row),
    }
}

/// The first byte of an input of a row that has so many inputs before it.
fn input_place(rows: &[SheetRow], row: usize, before: usize) -> usize {
    let row_place = length_of(&rows[..row]);
    if faults::planted(Fault::RowForInput) {
        return row_place;
    }
    row_place + ROW_HEAD + INPUT_BYTES * before
}

/// The way back from `behind_store`.
pub fn from_behind_store(used: usize, rows: &[Row]) -> Vec<SheetRow> {
    let written = |place: usize| match place.checked_sub(used) {
        Some(row) => row as u16,
        None => STORE_MARK + place as u16,
    };
    let back = |row: &Row| SheetRow {
        label: row.label,
        inputs: row.inputs.iter().map(|&place| written(place)).collect(),
    };
    rows.iter().map(back).collect()
}
