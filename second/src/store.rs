//! The store: a run of words, read as rows when it is sound.

use crate::faults::{self, Fault};
use crate::law::{Refusal, MOST_INPUTS, MOST_ROWS, ROW_WORDS};
use crate::rows::Row;
use crate::{sameness, wires};

/// How many rows the words have room for. A run of no words has none.
pub fn capacity(words: &[u32]) -> usize {
    MOST_ROWS.min(words.len().saturating_sub(1) / ROW_WORDS)
}

/// The store's rows, or why it is refused: no words, or not sound.
pub fn read(words: &[u32]) -> Result<Vec<Row>, Refusal> {
    let Some(&count) = words.first() else {
        return Err(Refusal::NoWords);
    };
    let count = count as usize;
    if count > capacity(words) {
        return Err(Refusal::NotSound);
    }
    let rows: Option<Vec<Row>> = (0..count).map(|number| read_row(row_words(words, number), count)).collect();
    rows.filter(|rows| sameness::all_different(rows)).ok_or(Refusal::NotSound)
}

/// Writes a row, unused input words as zero.
pub fn write_row(words: &mut [u32], number: usize, row: &Row) {
    let start = 1 + number * ROW_WORDS;
    let place = &mut words[start..start + ROW_WORDS];
    place.fill(0);
    place[0] = row.label;
    place[1] = row.inputs.len() as u32;
    for (word, &input) in place[2..].iter_mut().zip(&row.inputs) {
        *word = input as u32;
    }
}

/// The words of a row, whatever they are.
pub fn row_words(words: &[u32], number: usize) -> &[u32] {
    &words[1 + number * ROW_WORDS..][..ROW_WORDS]
}

/// A row that is no wire, and whose input count, used inputs and unused words are as a sound store
/// has them.
fn read_row(words: &[u32], count: usize) -> Option<Row> {
    let used = words[1] as usize;
    let wire = wires::is_wire(words[0]) && !faults::planted(Fault::StoreWiresTaken);
    if used > MOST_INPUTS || wire {
        return None;
    }
    let (inputs, unused) = words[2..].split_at(used);
    let in_use = inputs.iter().all(|&input| (input as usize) < count);
    let clean = unused.iter().all(|&word| word == 0);
    (in_use && clean)
        .then(|| Row { label: words[0], inputs: inputs.iter().map(|&input| input as usize).collect() })
}
