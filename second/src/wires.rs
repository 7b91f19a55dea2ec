//! Wires: rows of operation 7. A wire stands for the row that it leads to, so trees are read with
//! wires skipped, and stores and keys hold none.

use crate::faults::{self, Fault};
use crate::law::{operation, Refusal, WIRE};
use crate::rows::Row;

/// Whether a label is a wire's, whatever its setting.
pub fn is_wire(label: u32) -> bool {
    if faults::planted(Fault::WiresBySetting) {
        return label & 0xFFFF == WIRE;
    }
    operation(label) == WIRE && !faults::planted(Fault::WiresKept)
}

/// Tests 14 and 15 in their order, for rows that nothing leads to as well. The rows are those of a
/// store and a sheet as they are drawn; a sound store has no wires.
pub fn test(rows: &[Row]) -> Result<(), Refusal> {
    let short = rows.iter().any(|row| is_wire(row.label) && row.inputs.len() != 1);
    let looped = (0..rows.len()).any(|row| end(rows, row).is_none());
    if looped && faults::planted(Fault::WireLoopsFirst) {
        return Err(Refusal::WireLoop);
    }
    if short {
        return Err(Refusal::ShortWire);
    }
    if looped {
        return Err(Refusal::WireLoop);
    }
    Ok(())
}

/// The rows with wires skipped: each is the row that its wires lead to, and so is each input.
pub fn skipped(rows: &[Row]) -> Vec<Row> {
    let ends: Vec<usize> = (0..rows.len()).map(|row| read_at(rows, row)).collect();
    let read = |&end: &usize| Row {
        label: rows[end].label,
        inputs: rows[end].inputs.iter().map(|&input| ends[input]).collect(),
    };
    ends.iter().map(read).collect()
}

/// The row that a row is read at; itself where its wires come to no end.
fn read_at(rows: &[Row], row: usize) -> usize {
    if faults::planted(Fault::SkippedOnce) {
        return next(&rows[row]).unwrap_or(row);
    }
    end(rows, row).unwrap_or(row)
}

/// The first row on the way along wires that is none; nothing where they lead round for ever, which
/// shows after as many steps as there are rows.
pub fn end(rows: &[Row], start: usize) -> Option<usize> {
    let mut at = start;
    for _ in 0..=rows.len() {
        match next(&rows[at]) {
            Some(on) => at = on,
            None => return Some(at),
        }
    }
    None
}

/// What a wire leads to: its first input, where it has one.
fn next(row: &Row) -> Option<usize> {
    row.inputs.first().copied().filter(|_| is_wire(row.label))
}
