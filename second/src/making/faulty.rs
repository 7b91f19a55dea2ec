//! Sheets with a fault of each kind, in the first row, one between or the last, so that every place
//! of a fault is asked for.

use super::{damage, pictures, size, stores};
use crate::dice::Dice;
use crate::law::MOST_ROWS;
use crate::requests::Request;
use crate::rows::Row;
use crate::sheet::{self, SheetRow};

#[derive(Clone, Copy)]
enum Kind {
    Length,
    Version,
    RowCount,
    ManyInputs,
    PastTheFile,
    LeftOver,
    Retired,
    Astray,
    AstrayOfOld,
}

/// In the order in which they are tested; those that a row has stand once for each of three rows.
const KINDS: [Kind; 16] = [
    Kind::Length,
    Kind::Version,
    Kind::RowCount,
    Kind::ManyInputs,
    Kind::ManyInputs,
    Kind::ManyInputs,
    Kind::PastTheFile,
    Kind::PastTheFile,
    Kind::PastTheFile,
    Kind::LeftOver,
    Kind::Retired,
    Kind::Retired,
    Kind::Astray,
    Kind::Astray,
    Kind::Astray,
    Kind::Astray,
];

/// Those that are seen without a store, and those that a converter knows.
const READ_KINDS: usize = 10;
const OLD_KINDS: [Kind; 13] = [
    Kind::Length,
    Kind::Version,
    Kind::RowCount,
    Kind::ManyInputs,
    Kind::ManyInputs,
    Kind::ManyInputs,
    Kind::PastTheFile,
    Kind::PastTheFile,
    Kind::LeftOver,
    Kind::AstrayOfOld,
    Kind::AstrayOfOld,
    Kind::AstrayOfOld,
    Kind::AstrayOfOld,
];

/// A faulty sheet for a sound store, and now and then for one that is refused before the sheet is.
pub fn insert(dice: &mut Dice) -> Request {
    let used = size(dice);
    let store = stores::rows(dice, used);
    let rows = drawn(dice, &store);
    let rows = pictures::drawn_out(&store, &rows, MOST_ROWS);
    let sheet = with_fault(dice, &sheet::from_behind_store(store.len(), &rows), store.len(), &KINDS);
    let words = if dice.one_in(8) { stores::spoiled(dice, &store) } else { stores::roomy(dice, &store) };
    let answers = dice.below(rows.len() + 2);
    Request::Insert { words, sheet, answers: dice.junk_words(answers) }
}

/// A faulty old sheet to be converted, with any buffer.
pub fn convert(dice: &mut Dice) -> Request {
    let used = size(dice);
    let store = stores::rows(dice, used);
    let rows = sheet::from_behind_store(store.len(), &drawn(dice, &store));
    let sheet = with_fault(dice, &rows, store.len(), &OLD_KINDS);
    let words = if dice.one_in(8) { stores::spoiled(dice, &store) } else { stores::roomy(dice, &store) };
    let room = dice.pick(&[0, sheet.len(), 2 * sheet.len()]);
    Request::Convert { words, sheet, buffer: dice.junk_bytes(room) }
}

/// A faulty sheet to be read.
pub fn read(dice: &mut Dice) -> Request {
    let rows = sheet::from_behind_store(0, &drawn(dice, &[]));
    Request::ReadSheet { sheet: with_fault(dice, &rows, 0, &KINDS[..READ_KINDS]) }
}

/// A sheet over a store, long enough that a row lies between the first and the last.
fn drawn(dice: &mut Dice, store: &[Row]) -> Vec<Row> {
    let most = if dice.one_in(20) { MOST_ROWS } else { size(dice).max(6) };
    let mut rows = pictures::over_store(dice, store, most);
    if rows.len() < 3 {
        rows = pictures::moved(&pictures::tangle(dice, 3), store.len());
    }
    rows
}

/// One fault; in a third of the sheets there is another that is tested no earlier.
fn with_fault(dice: &mut Dice, rows: &[SheetRow], used: usize, kinds: &[Kind]) -> Vec<u8> {
    let first = dice.below(kinds.len());
    let mut faults = vec![kinds[first]];
    if dice.one_in(3) {
        faults.push(kinds[dice.between(first, kinds.len() - 1)]);
    }
    let mut rows = rows.to_vec();
    faults.iter().for_each(|&kind| spoil_rows(dice, &mut rows, used, kind));
    let mut bytes = sheet::write(&rows);
    // The file is cut and made longer before its head is spoiled, because that settles the length.
    faults.iter().rev().for_each(|&kind| spoil_bytes(dice, &mut bytes, rows.len(), kind));
    bytes
}

/// The first row, the last, or any between.
fn some_row(dice: &mut Dice, count: usize) -> usize {
    let between = dice.between(1, count - 2);
    dice.pick(&[0, between, count - 1])
}

fn spoil_rows(dice: &mut Dice, rows: &mut [SheetRow], used: usize, kind: Kind) {
    let row = some_row(dice, rows.len());
    match kind {
        Kind::ManyInputs => damage::five_inputs_in(dice, rows, row),
        Kind::Retired => damage::retired(dice, rows, used, row),
        Kind::Astray => damage::astray(dice, rows, used, row),
        Kind::AstrayOfOld => damage::astray_of_old(dice, rows, used, row),
        _ => {}
    }
}

fn spoil_bytes(dice: &mut Dice, bytes: &mut Vec<u8>, rows: usize, kind: Kind) {
    match kind {
        Kind::Length => damage::length(dice, bytes),
        Kind::Version => damage::version(dice, bytes),
        Kind::RowCount => damage::too_many_rows(dice, bytes),
        Kind::PastTheFile => {
            let row = some_row(dice, rows);
            damage::cut_in(dice, bytes, row);
        }
        Kind::LeftOver => damage::longer(dice, bytes),
        Kind::ManyInputs | Kind::Retired | Kind::Astray | Kind::AstrayOfOld => {}
    }
}
