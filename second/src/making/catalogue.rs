//! Drawings of catalogue operations with their input counts in which every loop passes a hold, and
//! the ways to spoil them for a strict insert. They stand behind `base` rows of a store. Wires are
//! put into them elsewhere, because a store has none.

use crate::dice::Dice;
use crate::law::{operation, CATALOGUE, HOLD, MOST_INPUTS, WIRE};
use crate::rows::Row;
use std::ops::Range;

/// Rows that use some of the store's, the `ties`. Inputs lead further on, and only a hold's lead
/// anywhere, so that no loop goes round without one.
pub fn drawn(dice: &mut Dice, base: usize, ties: Range<usize>, size: usize) -> Vec<Row> {
    let mut rows = Vec::new();
    for at in 0..size {
        let further = at + 1 < size || !ties.is_empty();
        let (operation, count) = thrown_operation(dice, further);
        let least = if operation == HOLD { 0 } else { at + 1 };
        let mut input = || {
            let tied = !ties.is_empty() && (least == size || dice.one_in(3));
            if tied {
                dice.between(ties.start, ties.end - 1)
            } else {
                base + dice.between(least, size - 1)
            }
        };
        let inputs = (0..count).map(|_| input()).collect();
        rows.push(Row { label: operation << 16 | dice.pick(&[0, 0, 1, 2]), inputs });
    }
    rows
}

/// One to three holds, one on another, and the last on one of the ties, of which there must be some,
/// mostly a low one, which leads to more: what lies behind is reached through the holds alone.
pub fn holds_on(dice: &mut Dice, base: usize, ties: Range<usize>) -> Vec<Row> {
    let count = dice.between(1, 3);
    let any = |dice: &mut Dice| dice.between(ties.start, ties.end - 1);
    let tie = any(dice).min(any(dice)).min(any(dice));
    let next = |at: usize| if at == count { tie } else { base + at };
    (1..=count).map(|at| Row { label: HOLD << 16, inputs: vec![next(at)] }).collect()
}

/// Any of the catalogue but wires, holds more often; one without inputs where no row can be one.
fn thrown_operation(dice: &mut Dice, further: bool) -> (u32, usize) {
    if !further {
        return dice.pick(&CATALOGUE[..2]);
    }
    if dice.one_in(4) {
        return (HOLD, 1);
    }
    let boxes: Vec<(u32, usize)> =
        CATALOGUE.into_iter().filter(|&(operation, _)| operation != WIRE).collect();
    dice.pick(&boxes)
}

/// What a drawing is spoiled by.
#[derive(Clone, Copy)]
pub enum Spoil {
    Free,
    Miscounted,
    Unheld,
}

pub const SPOILS: [Spoil; 5] = [Spoil::Free, Spoil::Free, Spoil::Miscounted, Spoil::Unheld, Spoil::Unheld];

/// Spoils a drawing, often far on where other rows lead, if it has a row that can be spoiled so.
pub fn spoil(dice: &mut Dice, base: usize, rows: &mut [Row], by: Spoil) {
    let fit = |row: &usize| !matches!(by, Spoil::Unheld) || goes_on(&rows[*row]);
    let fit: Vec<usize> = (0..rows.len()).filter(fit).collect();
    if fit.is_empty() {
        return;
    }
    let row = dice.pick(&fit).max(dice.pick(&fit));
    match by {
        Spoil::Free => rows[row].label = free_label(dice, rows[row].label),
        Spoil::Miscounted => {
            let other = base + dice.below(rows.len());
            miscount(dice, &mut rows[row], other);
        }
        Spoil::Unheld => close_loop(dice, base, rows, row),
    }
}

/// The label with an operation that the catalogue has not; often one that differs from the old in a
/// bit past the fifth, so that the lowest bits alone would look right.
fn free_label(dice: &mut Dice, label: u32) -> u32 {
    let old = operation(label);
    let free = dice.pick(&[0, 13, 31, 32, 33, 65_535, old + 32, old + 32, old | 1 << 15]);
    free << 16 | label & 0xFFFF
}

/// An input too few, or one too many where a row has room for it.
fn miscount(dice: &mut Dice, row: &mut Row, other: usize) {
    let count = row.inputs.len();
    if count == 0 || count < MOST_INPUTS && dice.one_in(2) {
        row.inputs.push(other);
    } else {
        row.inputs.pop();
    }
}

/// Whether a loop without a hold can lead through the row.
fn goes_on(row: &Row) -> bool {
    operation(row.label) != HOLD && !row.inputs.is_empty()
}

/// From the row down along rows that are no holds, as far as chance goes, and back to it.
fn close_loop(dice: &mut Dice, base: usize, rows: &mut [Row], start: usize) {
    let mut last = start;
    while !dice.one_in(3) {
        match dice.pick(&rows[last].inputs).checked_sub(base).filter(|&input| goes_on(&rows[input])) {
            Some(input) => last = input,
            None => break,
        }
    }
    let input = dice.below(rows[last].inputs.len());
    rows[last].inputs[input] = base + start;
}

/// A loop of scales with one odd row, and a hold in it or none: every row is another tree.
pub fn long_loop(dice: &mut Dice, size: usize, held: bool) -> Vec<Row> {
    let hold = if held { dice.below(size) } else { size };
    let label = |at: usize| if at == hold { HOLD << 16 } else { 5 << 16 | u32::from(at == 0) };
    (0..size).map(|at| Row { label: label(at), inputs: vec![(at + 1) % size] }).collect()
}

/// Negated again and again, a channel at the end: no loop at all.
pub fn long_chain(size: usize) -> Vec<Row> {
    let end = size - 1;
    let row = |at: usize| Row { label: 12 << 16, inputs: vec![at + 1] };
    (0..end).map(row).chain([Row { label: 1 << 16, inputs: Vec::new() }]).collect()
}
