//! Requests to mend a store: sound ones, such as have wires and trees more than once, spoiled ones of
//! every kind, and refusals.

use super::{pictures, shapes, size, spoiling, stores, wiring};
use crate::dice::Dice;
use crate::law::MOST_ROWS;
use crate::requests::Request;
use crate::rows::Row;
use crate::store;

/// How many rows are taken.
fn taken(words: &[u32]) -> usize {
    words.first().map_or(0, |&count| store::capacity(words).min(count as usize))
}

/// With a list that is just long enough, or longer.
fn with_list(dice: &mut Dice, words: Vec<u32>) -> Request {
    let entries = taken(&words) + dice.pick(&[0, 0, 1, 5]);
    Request::Mend { words, list: dice.junk_words(entries) }
}

/// Nothing is to be mended.
pub fn sound(dice: &mut Dice) -> Request {
    let size = size(dice);
    let rows = stores::rows(dice, size);
    let words = stores::roomy(dice, &rows);
    with_list(dice, words)
}

/// Wires, trees more than once and unused words set, but no row is spoiled, unless junk is taken.
pub fn merged(dice: &mut Dice) -> Request {
    let rows = spoiling::old_rows(dice);
    let mut words = spoiling::words(dice, &rows);
    if dice.one_in(2) {
        spoiling::set_unused(dice, &mut words, rows.len());
    }
    with_list(dice, words)
}

/// Rows spoiled in one way or in several.
pub fn spoiled(dice: &mut Dice) -> Request {
    let words = spoiled_words(dice);
    with_list(dice, words)
}

fn spoiled_words(dice: &mut Dice) -> Vec<u32> {
    let rows = if dice.one_in(2) { spoiling::wrongly_wired(dice) } else { spoiling::old_rows(dice) };
    let mut words = spoiling::words(dice, &rows);
    for _ in 0..dice.below(4) {
        spoiling::spoil_words(dice, &mut words, rows.len());
    }
    if dice.one_in(3) {
        spoiling::set_unused(dice, &mut words, rows.len());
    }
    words
}

/// Loops in several turns and nothing else, or rows all alike.
pub fn one_tree(dice: &mut Dice) -> Request {
    let count = dice.between(1, 12);
    let rows = spoiling::one_tree(dice, count);
    let mut words = spoiling::words(dice, &rows);
    if dice.one_in(3) {
        spoiling::spoil_words(dice, &mut words, rows.len());
    }
    with_list(dice, words)
}

/// No words, too few for a row, or a few; the count is 0 or more than there is room for.
pub fn tiny(dice: &mut Dice) -> Request {
    let length = dice.pick(&[0, 0, 0, 0, 1, 2, 3, 4, 5, 6, 6, 7, 13]);
    let mut words = dice.junk_words(length);
    if let Some(count) = words.first_mut() {
        *count = dice.pick(&[0, 1, 1, 2, 7, u32::MAX]);
    }
    let entries = dice.below(4);
    Request::Mend { words, list: dice.junk_words(entries) }
}

/// A list too short by one, or by more, beside anything; with no rows taken it is still long enough.
pub fn short_list(dice: &mut Dice) -> Request {
    let words = match dice.below(3) {
        0 => {
            let rows = spoiling::old_rows(dice);
            spoiling::words(dice, &rows)
        }
        _ => spoiled_words(dice),
    };
    let taken = taken(&words);
    let entries = if dice.one_in(3) { dice.below(taken + 1) } else { taken.saturating_sub(1) };
    Request::Mend { words, list: dice.junk_words(entries) }
}

/// Words that were never rows: small numbers, labels, anything.
pub fn junk(dice: &mut Dice) -> Request {
    let rows = dice.between(1, 12);
    let mut words = dice.junk_words(1 + 6 * rows);
    for row in words[1..].chunks_exact_mut(6) {
        row[1] = dice.below(6) as u32;
        let inputs: Vec<u32> = (0..4).map(|_| dice.below(rows) as u32).collect();
        if !dice.one_in(5) {
            row[2..].copy_from_slice(&inputs);
        }
    }
    words[0] = dice.pick(&[rows, rows, rows - 1, rows + 1]) as u32;
    with_list(dice, words)
}

/// Up to 1,024 rows: a chain above a spoiled row or a sound one, wires in a row or in a loop, one
/// tree drawn all over, or a deep drawing with a spoiled row somewhere.
pub fn deep(dice: &mut Dice) -> Request {
    let count = dice.pick(&[300, MOST_ROWS, MOST_ROWS, MOST_ROWS]);
    let rows = match dice.below(5) {
        0 => pictures::chain(count - 1, 1 << 16),
        1 => wires_on(dice, count, count - 1),
        2 => wires_on(dice, count, 0),
        3 => spoiling::one_tree(dice, count),
        _ => shapes::any(dice, count, 0),
    };
    // The end of a chain is the last row before it is put in order.
    let last = rows.len() - 1;
    let order = shapes::order(dice, rows.len());
    let place = order.iter().position(|&row| row == last).expect("every row");
    let mut words = stores::roomy(dice, &pictures::arranged(0, &rows, &order));
    match dice.below(4) {
        0 => words[2 + 6 * place] = 5,
        1 => spoiling::spoil_words(dice, &mut words, rows.len()),
        2 => spoiling::set_unused(dice, &mut words, rows.len()),
        _ => {}
    }
    with_list(dice, words)
}

/// So many rows: wires one on another, and the last a channel, or a wire to the row given, which makes
/// a loop of them.
fn wires_on(dice: &mut Dice, count: usize, to: usize) -> Vec<Row> {
    let mut rows: Vec<Row> = (1..count).map(|on| wiring::wire(dice, on)).collect();
    let channel = Row { label: 1 << 16, inputs: Vec::new() };
    rows.push(if to + 1 == count { channel } else { wiring::wire(dice, to) });
    rows
}
