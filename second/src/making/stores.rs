//! Store words laid out from rows, sound and spoiled.

use super::{pictures, wiring};
use crate::dice::Dice;
use crate::law::{MOST_INPUTS, ROW_WORDS};
use crate::rows::{joined, Row};
use crate::store;

/// Rows of a sound store: at most `size`, each tree once, in any order.
pub fn rows(dice: &mut Dice, size: usize) -> Vec<Row> {
    let drawn = pictures::any(dice, size);
    let kept = pictures::minimal(&drawn);
    pictures::permuted(dice, 0, &kept)
}

/// The words of a count and its rows, with none to spare.
pub fn laid_out(rows: &[Row]) -> Vec<u32> {
    let mut words = vec![0; 1 + rows.len() * ROW_WORDS];
    words[0] = rows.len() as u32;
    rows.iter().enumerate().for_each(|(number, row)| store::write_row(&mut words, number, row));
    words
}

/// The words of a store with room for `capacity` rows and any few words more, or just as long as
/// the rows if they are more. Words past the used rows are zero or junk.
pub fn with_capacity(dice: &mut Dice, rows: &[Row], capacity: usize) -> Vec<u32> {
    let more = if dice.one_in(2) { 0 } else { dice.between(1, ROW_WORDS - 1) };
    with_words(dice, rows, 1 + capacity * ROW_WORDS + more)
}

/// The words of a store, made up to `length` with zeros or junk.
pub fn with_words(dice: &mut Dice, rows: &[Row], length: usize) -> Vec<u32> {
    let mut words = laid_out(rows);
    let missing = length.saturating_sub(words.len());
    words.extend(if dice.one_in(3) { vec![0; missing] } else { dice.junk_words(missing) });
    words
}

/// The words of a store with some room left.
pub fn roomy(dice: &mut Dice, rows: &[Row]) -> Vec<u32> {
    let spare = dice.pick(&[0, 0, 1, 2, 5, 12]);
    with_capacity(dice, rows, rows.len() + spare)
}

/// A store that is refused, in one of the ways there are.
pub fn spoiled(dice: &mut Dice, rows: &[Row]) -> Vec<u32> {
    match dice.below(11) {
        0 | 1 => Vec::new(),
        2 => twin(dice, rows),
        3 => drawn_again(dice, rows),
        4 => in_turns(dice, rows),
        5 => too_many_inputs(dice, rows),
        6 => used_astray(dice, rows),
        7 => unused_set(dice, rows),
        8 | 9 => with_wire(dice, rows),
        _ => over_capacity(dice, rows),
    }
}

/// Two rows of one tree, with the very same inputs.
fn twin(dice: &mut Dice, rows: &[Row]) -> Vec<u32> {
    let mut rows = rows.to_vec();
    let again = if rows.is_empty() {
        Row { label: 2 << 16, inputs: Vec::new() }
    } else {
        rows[dice.below(rows.len())].clone()
    };
    rows.push(again);
    roomy(dice, &rows)
}

/// Rows of one tree that use each other's copies, so that only comparing whole trees shows it.
fn drawn_again(dice: &mut Dice, rows: &[Row]) -> Vec<u32> {
    let rows = pictures::unrolled(dice, 0, rows, rows.len() + 3);
    let rows = pictures::permuted(dice, 0, &rows);
    roomy(dice, &rows)
}

/// The rows and a loop that is drawn in more turns than one.
fn in_turns(dice: &mut Dice, rows: &[Row]) -> Vec<u32> {
    let turns = pictures::turns(dice);
    let rows = pictures::permuted(dice, 0, &joined(rows, &turns));
    roomy(dice, &rows)
}

/// A row that is a wire: one of the rows, with the inputs it has, or one more, with one input or not.
fn with_wire(dice: &mut Dice, rows: &[Row]) -> Vec<u32> {
    let mut rows = rows.to_vec();
    let label = wiring::label(dice);
    if !rows.is_empty() && dice.one_in(2) {
        let row = dice.below(rows.len());
        rows[row].label = label;
    } else {
        let (count, places) = (dice.pick(&[1, 1, 1, 0, 2, 4]), rows.len() + 1);
        rows.push(Row { label, inputs: (0..count).map(|_| dice.below(places)).collect() });
        rows = pictures::permuted(dice, 0, &rows);
    }
    roomy(dice, &rows)
}

/// A count over the capacity, by one or by so much that six times the count would not fit a word.
fn over_capacity(dice: &mut Dice, rows: &[Row]) -> Vec<u32> {
    let mut words = roomy(dice, rows);
    let next = store::capacity(&words) as u32 + 1;
    words[0] = dice.pick(&[next, next, next + 1, 1_025, 0x2AAA_AAAB, 0x8000_0000, u32::MAX]);
    words
}

/// Puts something wrong into one row's words; with no rows, the count is wrong instead.
fn in_one_row(dice: &mut Dice, rows: &[Row], change: impl Fn(&mut Dice, &mut [u32], u32)) -> Vec<u32> {
    if rows.is_empty() {
        return over_capacity(dice, rows);
    }
    let mut words = roomy(dice, rows);
    let start = 1 + ROW_WORDS * dice.below(rows.len());
    change(dice, &mut words[start..start + ROW_WORDS], rows.len() as u32);
    words
}

fn too_many_inputs(dice: &mut Dice, rows: &[Row]) -> Vec<u32> {
    in_one_row(dice, rows, |dice, row, _| row[1] = dice.pick(&[5, 5, 6, 256, u32::MAX]))
}

/// A used input that is no row; a row without inputs gets one.
fn used_astray(dice: &mut Dice, rows: &[Row]) -> Vec<u32> {
    in_one_row(dice, rows, |dice, row, count| {
        row[1] = row[1].max(1);
        let input = 2 + dice.below(row[1] as usize);
        row[input] = dice.pick(&[count, count, count + 1, 32_768, u32::MAX]);
    })
}

/// An unused input word that is not zero; a row with all inputs loses its last, but not its word.
fn unused_set(dice: &mut Dice, rows: &[Row]) -> Vec<u32> {
    in_one_row(dice, rows, |dice, row, _| {
        row[1] = row[1].min(MOST_INPUTS as u32 - 1);
        let word = dice.between(2 + row[1] as usize, ROW_WORDS - 1);
        row[word] = dice.pick(&[1, 1, 2, u32::MAX]);
    })
}
