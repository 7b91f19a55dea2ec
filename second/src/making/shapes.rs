//! Deep drawings: as many trees as rows, of which many agree very far down. Every row of a drawing
//! leads to its odd row, so that drawings with other odd rows share no tree.

use super::pictures;
use crate::dice::Dice;
use crate::rows::{joined, Row};

const CHANNEL: u32 = 1 << 16;
const DIFFERENCE: u32 = 3 << 16;
const SUM: u32 = 4 << 16;
const SCALE: u32 = 5 << 16;
const HOLD: u32 = 6 << 16;

/// At most so many rows (at least eight are asked for), and which odd row it is, 0 to 3.
pub type Shape = fn(usize, u32) -> Vec<Row>;

/// The odd row's label: 1 and 3 have its lowest bit, 2 and 3 its highest.
fn odd_one(label: u32, odd: u32) -> u32 {
    label | odd & 1 | odd >> 1 << 31
}

pub const SHAPES: [Shape; 6] = [chain, odd_loop, above_loop, stages, own_ring, braid];

/// One shape, or two side by side, of at most `most` rows, in some order.
pub fn any(dice: &mut Dice, most: usize, odd: u32) -> Vec<Row> {
    let rows = if dice.one_in(4) {
        let (first, second) = (dice.pick(&SHAPES), dice.pick(&SHAPES));
        let part = dice.between(most / 4, most / 2);
        joined(&first(part, odd), &second(most - part, odd + 1))
    } else {
        dice.pick(&SHAPES)(most, odd)
    };
    ordered(dice, 0, &rows)
}

/// Root first, leaf first, or shuffled.
pub fn ordered(dice: &mut Dice, base: usize, rows: &[Row]) -> Vec<Row> {
    let order = order(dice, rows.len());
    pictures::arranged(base, rows, &order)
}

/// The numbers below `count` as they are, turned round, or shuffled.
pub fn order(dice: &mut Dice, count: usize) -> Vec<usize> {
    match dice.below(3) {
        0 => (0..count).collect(),
        1 => (0..count).rev().collect(),
        _ => dice.order(count),
    }
}

fn row(label: u32, inputs: &[usize]) -> Row {
    Row { label, inputs: inputs.to_vec() }
}

/// Holds one on another, and a channel at the end.
fn chain(most: usize, odd: u32) -> Vec<Row> {
    pictures::chain(most - 1, odd_one(CHANNEL, odd))
}

/// A loop of holds in which one row is a scale.
fn odd_loop(most: usize, odd: u32) -> Vec<Row> {
    let label = |at| if at == 0 { odd_one(SCALE, odd) } else { HOLD };
    (0..most).map(|at| row(label(at), &[(at + 1) % most])).collect()
}

/// Holds one on another that lead into such a loop, past its scale: the loop has a hold before
/// each of its other rows already.
fn above_loop(most: usize, odd: u32) -> Vec<Row> {
    let above = most / 2;
    let next = |at| if at + 1 == above { above + 1 } else { at + 1 };
    let holds = (0..above).map(|at| row(HOLD, &[next(at)]));
    holds.chain(pictures::moved(&odd_loop(most - above, odd), above)).collect()
}

/// Smoothing stages in series, four rows each, and the channel that is smoothed: a stage sums its
/// scaled input and its own value, held and scaled.
fn stages(most: usize, odd: u32) -> Vec<Row> {
    let stage = |at: usize| {
        [row(SUM, &[at + 1, at + 2]), row(SCALE, &[at + 4]), row(SCALE | 1, &[at + 3]), row(HOLD, &[at])]
    };
    let ends = (most - 1) / 4 * 4;
    (0..ends).step_by(4).flat_map(stage).chain([row(odd_one(CHANNEL, odd), &[])]).collect()
}

/// A loop of sums, each of the next row and of itself, in which one row is a difference.
fn own_ring(most: usize, odd: u32) -> Vec<Row> {
    let label = |at| if at == 0 { odd_one(DIFFERENCE, odd) } else { SUM };
    (0..most).map(|at| row(label(at), &[(at + 1) % most, at])).collect()
}

/// Sums of the next four rows, as far as there are as many, and a channel at the end.
fn braid(most: usize, odd: u32) -> Vec<Row> {
    let end = most - 1;
    let inputs = |at: usize| [1, 2, 3, 4].map(|step| end.min(at + step));
    (0..end).map(|at| row(SUM, &inputs(at))).chain([row(odd_one(CHANNEL, odd), &[])]).collect()
}
