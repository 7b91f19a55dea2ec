//! Counts for a trace, settings for the rows that are run over it, and small chains over the counts at
//! which an operation can go wrong.

use crate::dice::Dice;
use crate::law::{operation, CATALOGUE, CHANNEL, CONSTANT, DIFFERENCE, SCALE, WIRE};
use crate::rows::Row;

/// The ends of the numbers of 32 bits, and those about 0.
const ENDS: [i32; 5] = [i32::MIN, -1, 0, 1, i32::MAX];
/// Numbers beside them, the largest that 65,535 scales without a clamp, and such as a quotient parts.
const NEAR: [i32; 16] = [
    i32::MIN + 1,
    i32::MIN / 2,
    -8_388_737,
    -8_388_736,
    -257,
    -256,
    -255,
    -3,
    -2,
    2,
    3,
    255,
    257,
    8_388_736,
    8_388_737,
    i32::MAX - 1,
];

pub fn count(dice: &mut Dice) -> i32 {
    match dice.below(6) {
        0..=2 => dice.pick(&ENDS),
        3 => dice.pick(&NEAR),
        4 => dice.below(601) as i32 - 300,
        _ => dice.word() as i32,
    }
}

/// So many counts: any, or a slow wave, or all alike.
pub fn counts(dice: &mut Dice, many: usize) -> Vec<i32> {
    match dice.below(6) {
        0 => {
            let level = dice.below(400) as i32 - 100;
            (0..many).map(|_| level + dice.below(30) as i32).collect()
        }
        1 => vec![count(dice); many],
        _ => (0..many).map(|_| count(dice)).collect(),
    }
}

/// What stands in an output before it is written to.
pub fn junk(dice: &mut Dice, many: usize) -> Vec<i32> {
    (0..many).map(|_| dice.junk() as i32).collect()
}

/// Gives each row a setting that its operation means something by; the others have any.
pub fn set(dice: &mut Dice, rows: &mut [Row], channels: usize) {
    for row in rows {
        let operation = operation(row.label);
        let setting = match operation {
            CHANNEL => dice.below(channels) as u32,
            CONSTANT | SCALE => number(dice, operation),
            _ => dice.pick(&[0, 0, 0, 1, 65_535]),
        };
        row.label = operation << 16 | setting;
    }
}

/// The setting of a constant or of a scale.
fn number(dice: &mut Dice, operation: u32) -> u32 {
    let any = dice.below(1 << 16) as u32;
    if operation == CONSTANT {
        return dice.pick(&[0, 1, 40, 32_767, 32_768, 32_769, 65_535, any]);
    }
    dice.pick(&[0, 1, 3, 64, 255, 256, 257, 512, 65_535, any])
}

/// The chains below read so many channels.
pub const OPERANDS: usize = 4;

/// An operation over channels, mostly over a channel of its own for each input, and now and then one or
/// two more on top of it. Row 0 is the last.
pub fn operations(dice: &mut Dice) -> Vec<Row> {
    let leaf = |label: u32| Row { label, inputs: Vec::new() };
    let mut rows: Vec<Row> = (0..OPERANDS as u32).map(|channel| leaf(CHANNEL << 16 | channel)).collect();
    rows.push(leaf(CONSTANT << 16));
    for _ in 0..dice.pick(&[1, 1, 1, 2, 2, 3]) {
        let (operation, count) = with_inputs(dice);
        let (first, last) = (dice.below(OPERANDS), rows.len() - 1);
        let mut input = |place: usize| match dice.below(6) {
            0 => dice.below(last + 1),
            1 if last > OPERANDS => last,
            _ => (first + place) % OPERANDS,
        };
        let mut inputs: Vec<usize> = (0..count).map(&mut input).collect();
        if last > OPERANDS {
            // What stands below is used, so that it shows.
            inputs[dice.below(count)] = last;
        }
        rows.push(Row { label: operation << 16, inputs });
    }
    set(dice, &mut rows[OPERANDS..], OPERANDS);
    let last = rows.len() - 1;
    rows.iter_mut().flat_map(|row| &mut row.inputs).for_each(|input| *input = last - *input);
    rows.reverse();
    rows
}

/// An operation of the catalogue that has inputs, but no wire; scales and differences more often.
fn with_inputs(dice: &mut Dice) -> (u32, usize) {
    let boxes = CATALOGUE.into_iter().filter(|&(operation, count)| count > 0 && operation != WIRE);
    dice.pick(&boxes.chain([(SCALE, 1), (DIFFERENCE, 2)]).collect::<Vec<_>>())
}
