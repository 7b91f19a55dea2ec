//! Old sheets made into sheets without store numbers: the store rows that the sheet reaches are drawn
//! behind its own. What is reached is a set, filled by going down from row to row.

use crate::faults::{self, Fault};
use crate::law::{Refusal, Refused, DONE, MOST_ROWS, STORE_MARK};
use crate::rows::{walk_from, Row};
use crate::sheet::{self, SheetRow};
use crate::{store, wires};
use std::collections::{BTreeMap, BTreeSet};

#[derive(Debug, PartialEq, Eq)]
pub struct Converted {
    pub number: u32,
    /// The bytes written: the result's length, or 0.
    pub bytes: u32,
    /// As an insert has it.
    pub place: usize,
}

/// Writes the result to the front of `buffer`; a refusal writes nothing.
pub fn convert(words: &[u32], bytes: &[u8], buffer: &mut [u8]) -> Converted {
    match result(words, bytes, buffer.len()) {
        Err(Refused { refusal, place }) => Converted { number: refusal.number(), bytes: 0, place },
        Ok(result) => {
            // A fault can make the result longer than the buffer.
            let fitting = result.len().min(buffer.len());
            buffer[..fitting].copy_from_slice(&result[..fitting]);
            if faults::planted(Fault::PastResultCleared) {
                buffer[fitting..].fill(0);
            }
            Converted { number: DONE, bytes: result.len() as u32, place: 0 }
        }
    }
}

/// Tests 1 to 6 by the rule that the sheet was drawn under, 14, 15, 20 and 10 in this order; then the
/// result.
fn result(words: &[u32], bytes: &[u8], room: usize) -> Result<Vec<u8>, Refused> {
    let known = store::read(words)?;
    let drawn = sheet::behind_store(known.len(), &sheet::read(bytes)?)?;
    let used = known.len();
    let all: Vec<Row> = known.into_iter().chain(drawn).collect();
    let order = order(used, &all);
    if faults::planted(Fault::LongBeforeWires) {
        test_rows(&all, order.len())?;
    }
    wires::test(&all)?;
    let result = sheet::write(&placed(used, &all, &order));
    let needed = if faults::planted(Fault::RoomForTheSheet) { bytes.len() } else { result.len() };
    let short = room < needed;
    if short && faults::planted(Fault::ShortBeforeLong) {
        return Err(Refusal::ShortBuffer.into());
    }
    test_rows(&all, order.len())?;
    if short {
        return Err(Refusal::ShortBuffer.into());
    }
    Ok(result)
}

/// 20, for a result of so many rows.
fn test_rows(all: &[Row], rows: usize) -> Result<(), Refusal> {
    let counted = if faults::planted(Fault::ResultByStore) { all.len() } else { rows };
    if counted > MOST_ROWS - usize::from(faults::planted(Fault::FullResultRefused)) {
        return Err(Refusal::LongResult);
    }
    Ok(())
}

/// The rows of the result, in their order: the sheet's own, then those of the store that are reached, by
/// rising number. The first `used` of all are the store's.
fn order(used: usize, all: &[Row]) -> Vec<usize> {
    let own = used..all.len();
    let appended = appended(used, all);
    if faults::planted(Fault::StoreRowsFirst) {
        return appended.into_iter().chain(own).collect();
    }
    own.chain(appended).collect()
}

fn appended(used: usize, all: &[Row]) -> Vec<usize> {
    if faults::planted(Fault::WholeStoreAppended) {
        return (0..used).collect();
    }
    if faults::planted(Fault::AppendedAsMet) {
        return walk_from(all, used..all.len()).into_iter().filter(|&row| row < used).collect();
    }
    let mut reached = BTreeSet::new();
    all[used..].iter().flat_map(|row| &row.inputs).for_each(|&input| reach(used, all, input, &mut reached));
    let merged = faults::merged_rows(used, all);
    reached.into_iter().filter(|row| !merged.contains_key(row)).collect()
}

/// The row, if it is the store's, and all that it leads to.
fn reach(used: usize, all: &[Row], row: usize, reached: &mut BTreeSet<usize>) {
    if row < used && reached.insert(row) && !faults::planted(Fault::NamedRowsOnly) {
        all[row].inputs.iter().for_each(|&input| reach(used, all, input, reached));
    }
}

/// The rows in this order, each input as the place of its row among them.
fn placed(used: usize, all: &[Row], order: &[usize]) -> Vec<SheetRow> {
    let mut places: BTreeMap<usize, usize> = order.iter().enumerate().map(|(at, &row)| (row, at)).collect();
    places.extend(faults::merged_rows(used, all));
    // Only a fault leaves a row without a place; its number then stands.
    let place = |&input: &usize| places.get(&input).map_or(STORE_MARK | input as u16, |&at| at as u16);
    let skipped = faults::planted(Fault::ResultSkipped).then(|| wires::skipped(all));
    let rows = skipped.as_deref().unwrap_or(all);
    let written = |&row: &usize| SheetRow {
        label: rows[row].label,
        inputs: rows[row].inputs.iter().map(place).collect(),
    };
    order.iter().map(written).collect()
}
