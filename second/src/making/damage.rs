//! Sheets made wrong: as rows, before they are written, or as bytes afterwards.

use crate::dice::Dice;
use crate::law::{INPUT_BYTES, MOST_INPUTS, ROW_HEAD, SHEET_HEAD, STORE_MARK};
use crate::sheet::{length_field, SheetRow};

/// What is done to one row's inputs, of a sheet that is drawn over so many store rows.
pub type Misled = fn(&mut Dice, &mut [SheetRow], usize, usize);

/// The same in any row, where there is one.
pub fn somewhere(dice: &mut Dice, rows: &mut [SheetRow], used: usize, misled: Misled) {
    if !rows.is_empty() {
        let row = dice.below(rows.len());
        misled(dice, rows, used, row);
    }
}

/// An input that is no row of the sheet: often the first number that is not, or the last below the store's.
pub fn astray(dice: &mut Dice, rows: &mut [SheetRow], _used: usize, row: usize) {
    let count = rows.len() as u16;
    let to = dice.pick(&[count, count, count + 1, STORE_MARK - 1, STORE_MARK - 1]);
    mislead(dice, &mut rows[row], to);
}

/// An input that is a row of the store, or would be one if it had so many.
pub fn retired(dice: &mut Dice, rows: &mut [SheetRow], used: usize, row: usize) {
    let used = used as u16;
    let last = STORE_MARK + used.saturating_sub(1);
    let to = dice.pick(&[STORE_MARK, last, last, STORE_MARK + used, STORE_MARK + used, u16::MAX]);
    mislead(dice, &mut rows[row], to);
}

/// An input that points nowhere by the rule of old sheets: often the first number that is no row of sheet
/// or store.
pub fn astray_of_old(dice: &mut Dice, rows: &mut [SheetRow], used: usize, row: usize) {
    let (count, past_store) = (rows.len() as u16, STORE_MARK + used as u16);
    let to = dice.pick(&[count, past_store, past_store, STORE_MARK - 1, u16::MAX]);
    mislead(dice, &mut rows[row], to);
}

/// One of the row's inputs; a row without inputs gets one.
fn mislead(dice: &mut Dice, row: &mut SheetRow, to: u16) {
    if row.inputs.is_empty() {
        row.inputs.push(0);
    }
    let input = dice.below(row.inputs.len());
    row.inputs[input] = to;
}

/// A row with five inputs or more, which are all there.
pub fn five_inputs(dice: &mut Dice, rows: &mut [SheetRow]) {
    if rows.is_empty() {
        return;
    }
    let row = dice.below(rows.len());
    five_inputs_in(dice, rows, row);
}

/// The same in the row given.
pub fn five_inputs_in(dice: &mut Dice, rows: &mut [SheetRow], row: usize) {
    let count = dice.between(MOST_INPUTS + 1, MOST_INPUTS + 2);
    rows[row].inputs.resize(count, 0);
}

/// One of the ways to damage a written sheet.
pub fn bytes(dice: &mut Dice, sheet: &mut Vec<u8>) {
    match dice.below(10) {
        0 => length(dice, sheet),
        1 => version(dice, sheet),
        2 => row_count(dice, sheet),
        3 => input_count(dice, sheet),
        4 => cut(dice, sheet),
        5 => longer(dice, sheet),
        6 => sheet.truncate(dice.below(sheet.len() + 1)),
        7 => sheet.push(0),
        8 => shorter_than_a_head(dice, sheet),
        _ => anywhere(dice, sheet),
    }
}

/// A length field that is not the bytes less 4: by a little, the whole length, or all ones.
pub fn length(dice: &mut Dice, sheet: &mut [u8]) {
    let right = length_field(sheet) as u32;
    let wrong = dice.pick(&[
        right.wrapping_sub(1),
        right.wrapping_add(1),
        right.wrapping_add(4),
        right ^ 0x0100_0000,
        u32::MAX,
    ]);
    sheet[..4].copy_from_slice(&wrong.to_be_bytes());
}

/// Makes the length field right again after bytes were taken or added.
pub fn settle_length(sheet: &mut [u8]) {
    let right = sheet.len() as u32 - 4;
    sheet[..4].copy_from_slice(&right.to_be_bytes());
}

pub fn version(dice: &mut Dice, sheet: &mut [u8]) {
    sheet[4] = dice.pick(&[0, 2, 2, 128, 255]);
}

/// A row count that is off by one, or over 1,024.
pub fn row_count(dice: &mut Dice, sheet: &mut [u8]) {
    let right = u16::from_be_bytes([sheet[5], sheet[6]]);
    let wrong = dice.pick(&[right.wrapping_sub(1), right.wrapping_add(1), 1_025, right | 0x0400, u16::MAX]);
    sheet[5..7].copy_from_slice(&wrong.to_be_bytes());
}

/// A row count over 1,024, by one or by more; the rows themselves stand.
pub fn too_many_rows(dice: &mut Dice, sheet: &mut [u8]) {
    let right = u16::from_be_bytes([sheet[5], sheet[6]]);
    let wrong = dice.pick(&[1_025, 1_025, right | 0x8000, u16::MAX]);
    sheet[5..7].copy_from_slice(&wrong.to_be_bytes());
}

/// Another input count for one row, so that all rows behind it are read from the wrong place.
pub fn input_count(dice: &mut Dice, sheet: &mut [u8]) {
    let places = input_count_places(sheet);
    if !places.is_empty() {
        let place = dice.pick(&places);
        sheet[place] = dice.pick(&[0, 1, 2, 3, 4, 5, 255]);
    }
}

/// Where the input counts of a readable sheet stand.
fn input_count_places(sheet: &[u8]) -> Vec<usize> {
    let mut places = Vec::new();
    let mut row = SHEET_HEAD;
    while row + 4 < sheet.len() {
        places.push(row + 4);
        row += 5 + 2 * usize::from(sheet[row + 4]);
    }
    places
}

/// Bytes missing at the end, which the length field knows of.
pub fn cut(dice: &mut Dice, sheet: &mut Vec<u8>) {
    let least = SHEET_HEAD.min(sheet.len());
    let length = if dice.one_in(2) { least.max(sheet.len() - 1) } else { dice.between(least, sheet.len()) };
    sheet.truncate(length);
    settle_length(sheet);
}

/// The file ends in the row given, if it is still there, and may leave no byte of it; the length
/// field knows of it.
pub fn cut_in(dice: &mut Dice, sheet: &mut Vec<u8>, row: usize) {
    let Some(&count_place) = input_count_places(sheet).get(row) else {
        return;
    };
    let length = ROW_HEAD + INPUT_BYTES * usize::from(sheet[count_place]);
    let kept = dice.pick(&[0, 0, 1, 4, length / 2, length - 1, length - 1]);
    sheet.truncate(count_place - 4 + kept);
    settle_length(sheet);
}

/// Under 7 bytes, with a length field that is right wherever it is all there.
pub fn shorter_than_a_head(dice: &mut Dice, sheet: &mut Vec<u8>) {
    sheet.truncate(dice.below(SHEET_HEAD));
    if sheet.len() >= 4 {
        settle_length(sheet);
    }
}

/// Bytes too many at the end, which the length field knows of.
pub fn longer(dice: &mut Dice, sheet: &mut Vec<u8>) {
    let more = dice.between(1, 8);
    sheet.extend(dice.junk_bytes(more));
    settle_length(sheet);
}

/// One to three bytes changed, wherever they stand.
pub fn anywhere(dice: &mut Dice, bytes: &mut [u8]) {
    if bytes.is_empty() {
        return;
    }
    for _ in 0..dice.between(1, 3) {
        let place = dice.below(bytes.len());
        bytes[place] = if dice.one_in(2) { bytes[place] ^ (1 << dice.below(8)) } else { dice.junk() as u8 };
    }
}
