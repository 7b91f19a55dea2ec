//! Rows and words of old stores: wires, trees drawn more than once, rows spoiled by their drawing or
//! in their words, and unused input words that are set.

use super::{pictures, size, stores, wiring};
use crate::dice::Dice;
use crate::law::{MOST_INPUTS, ROW_WORDS};
use crate::rows::{joined, Row};

/// Rows of a store that was never sound: some drawn again, some in a loop of several turns, wires
/// between them, before them or behind.
pub fn old_rows(dice: &mut Dice) -> Vec<Row> {
    let size = size(dice);
    let mut rows = pictures::any(dice, size);
    if dice.one_in(2) {
        rows = pictures::unrolled(dice, 0, &rows, 2 * size + 2);
    }
    if dice.one_in(3) {
        rows = joined(&rows, &pictures::turns(dice));
    }
    if dice.one_in(3) {
        return pictures::permuted(dice, 0, &rows);
    }
    wiring::wired(dice, 0, &rows, 2 * size + 6)
}

/// Rows with wires that are wrong: of no input or of several, in loops, and such as lead into them.
pub fn wrongly_wired(dice: &mut Dice) -> Vec<Row> {
    let mut rows = old_rows(dice);
    if dice.one_in(2) {
        let length = dice.pick(&[1, 1, 2, 2, 3, 5, 17]);
        wiring::close(dice, 0, &mut rows, length);
    } else {
        wiring::shorten(dice, 0, &mut rows);
    }
    if dice.one_in(2) {
        rows = pictures::permuted(dice, 0, &rows);
    }
    rows
}

/// Spoils the words of one row of the first so many: over 4 inputs, or an input that is not below
/// their count.
pub fn spoil_words(dice: &mut Dice, words: &mut [u32], taken: usize) {
    if taken == 0 {
        return;
    }
    let row = row_at(words, dice.below(taken));
    if dice.one_in(2) {
        row[1] = dice.pick(&[5, 5, 6, 7, 256, u32::MAX]);
        return;
    }
    row[1] = row[1].clamp(1, MOST_INPUTS as u32);
    let (input, taken) = (2 + dice.below(row[1] as usize), taken as u32);
    row[input] = dice.pick(&[taken, taken, taken + 1, 1_024, 32_768, u32::MAX]);
}

/// Sets unused input words of some rows of the first so many; a row that uses all its words is left.
pub fn set_unused(dice: &mut Dice, words: &mut [u32], taken: usize) {
    let rows = if taken == 0 { 0 } else { dice.between(1, 4) };
    for _ in 0..rows {
        let row = row_at(words, dice.below(taken));
        let used = row[1].min(MOST_INPUTS as u32) as usize;
        let least = 2 + dice.between(used, MOST_INPUTS);
        row[least..].iter_mut().for_each(|word| *word = dice.pick(&[0, 1, 1, 7, u32::MAX]));
    }
}

fn row_at(words: &mut [u32], number: usize) -> &mut [u32] {
    &mut words[1 + number * ROW_WORDS..][..ROW_WORDS]
}

/// A store that is one tree alone: rows without inputs, or a loop in several turns with wires in it.
pub fn one_tree(dice: &mut Dice, count: usize) -> Vec<Row> {
    let label = dice.pick(&[1 << 16, 6 << 16, 5 << 16 | 7]);
    if dice.one_in(3) {
        return vec![Row { label, inputs: Vec::new() }; count];
    }
    // Not all may be wires.
    let wires = dice.pick(&[2, 4, 4]);
    let row = |row: usize| {
        let wire = row > 0 && dice.one_in(wires);
        Row { label: if wire { wiring::label(dice) } else { label }, inputs: vec![(row + 1) % count] }
    };
    (0..count).map(row).collect()
}

/// The words, with or without junk behind them, and now and then a count over the capacity.
pub fn words(dice: &mut Dice, rows: &[Row]) -> Vec<u32> {
    let mut words = stores::roomy(dice, rows);
    if dice.one_in(8) {
        // All that there is room for is taken, also what stood behind the rows.
        words[0] = dice.pick(&[words.len() as u32 / 6 + 1, 1_025, 0x2AAA_AAAB, u32::MAX]);
    }
    words
}
