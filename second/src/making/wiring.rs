//! Wires put into drawings, rightly and wrongly. The drawings stand behind `base` rows of a store, to
//! which wires lead too.

use super::pictures;
use crate::dice::Dice;
use crate::law::WIRE;
use crate::rows::Row;

/// A wire's label, with any setting.
pub fn label(dice: &mut Dice) -> u32 {
    WIRE << 16 | dice.pick(&[0, 0, 0, 1, 7, 65_535])
}

/// A label that is no wire's, though some of its bits are.
pub fn nearly(dice: &mut Dice) -> u32 {
    dice.pick(&[7, 7, 6 << 16 | 7, 8 << 16 | 7, 0x0107_0000, 0x8007_0007, 0x0700_0000])
}

pub fn wire(dice: &mut Dice, to: usize) -> Row {
    Row { label: label(dice), inputs: vec![to] }
}

/// Wires between boxes, at most so many: before an input comes a wire, or two, or three, or one that
/// is there already. The boxes stay where they are, and the wires stand behind them.
pub fn between(dice: &mut Dice, base: usize, rows: &[Row], most: usize) -> Vec<Row> {
    let mut all = rows.to_vec();
    let inputs = |row: usize| (0..rows[row].inputs.len()).map(move |input| (row, input));
    for (row, input) in (0..rows.len()).flat_map(inputs) {
        let to = all[row].inputs[input];
        let drawn = (rows.len()..all.len()).find(|&wire| all[wire].inputs == [to]);
        let count = dice.pick(&[0, 1, 1, 1, 2, 3]).min(rows.len() + most - all.len());
        all[row].inputs[input] = match drawn {
            Some(wire) if dice.one_in(2) => base + wire,
            _ => before(dice, base, &mut all, to, count),
        };
    }
    all
}

/// So many wires behind the rows, one on another, the last of them on the row given. Where they start.
pub fn before(dice: &mut Dice, base: usize, rows: &mut Vec<Row>, to: usize, count: usize) -> usize {
    let mut start = to;
    for _ in 0..count {
        rows.push(wire(dice, start));
        start = base + rows.len() - 1;
    }
    start
}

/// Up to three wires that nothing leads to, each to a row of the store, of the drawing, or a wire
/// before it.
pub fn loose(dice: &mut Dice, base: usize, rows: &mut Vec<Row>) {
    for _ in 0..dice.below(4) {
        let places = base + rows.len();
        if places > 0 {
            let to = if base > 0 && dice.one_in(2) { dice.below(base) } else { dice.below(places) };
            rows.push(wire(dice, to));
        }
    }
}

/// The drawing with wires put in, in some order: behind the boxes, before them, or shuffled.
pub fn wired(dice: &mut Dice, base: usize, rows: &[Row], most: usize) -> Vec<Row> {
    let mut all = between(dice, base, rows, most.saturating_sub(3));
    if most >= 3 {
        loose(dice, base, &mut all);
    }
    placed(dice, base, &all, rows.len())
}

/// Behind the boxes, before them, or shuffled; the boxes are the first so many.
fn placed(dice: &mut Dice, base: usize, rows: &[Row], boxes: usize) -> Vec<Row> {
    match dice.below(3) {
        0 => rows.to_vec(),
        1 => {
            let order: Vec<usize> = (boxes..rows.len()).chain(0..boxes).collect();
            pictures::arranged(base, rows, &order)
        }
        _ => pictures::permuted(dice, base, rows),
    }
}

/// A wire of no inputs, or of two to four: one that is drawn, or one more that nothing leads to.
pub fn shorten(dice: &mut Dice, base: usize, rows: &mut Vec<Row>) {
    let wires: Vec<usize> = (0..rows.len()).filter(|&row| rows[row].label >> 16 == WIRE).collect();
    if wires.is_empty() || dice.one_in(3) {
        rows.push(Row { label: label(dice), inputs: Vec::new() });
    }
    let row = if wires.is_empty() { rows.len() - 1 } else { dice.pick(&wires) };
    let (count, places) = (dice.pick(&[0, 0, 2, 2, 3, 4]), base + rows.len());
    rows[row].inputs = (0..count).map(|_| dice.below(places)).collect();
}

/// So many wires in a loop, and now and then one or two that lead into it; a box may lead there too.
pub fn close(dice: &mut Dice, base: usize, rows: &mut Vec<Row>, length: usize) {
    let boxes = rows.len();
    let start = before(dice, base, rows, base + boxes + length - 1, length);
    if dice.one_in(2) {
        let into = base + boxes + dice.below(length);
        let count = dice.between(1, 2);
        before(dice, base, rows, into, count);
    }
    if boxes > 0 && dice.one_in(2) {
        let row = dice.below(boxes);
        rows[row].inputs.iter_mut().take(1).for_each(|input| *input = start);
    }
}
