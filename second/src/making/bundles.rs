//! What `stress` writes: a deep chain and thousands of tiny sheets. What `bundle` writes: sheets for the program, each drawn over the store as the ones before
//! leave it. The seed throws the kind of bundle: plain; with refused sheets; with bytes damaged
//! anywhere; cut at the end; with bytes left over; of sheets that overfill the store; of exactly
//! 32,768 bytes; too long, by one byte or more. About one sheet in three has wires.

use super::{damage, pictures, wired, wiring};
use crate::dice::Dice;
use crate::law::{MOST_BUNDLE_BYTES, MOST_ROWS, ROW_WORDS, SHEET_HEAD, STORE_MARK};
use crate::rows::{walk_from, Row};
use crate::sheet::{self, SheetRow};
use crate::{operations, store};

/// More sheets than this do not fit the program's bundle, even without rows.
pub const MOST_SHEETS: usize = MOST_BUNDLE_BYTES / SHEET_HEAD;
/// No row is written longer, not even one with six inputs.
const LONGEST_ROW: usize = 17;
/// Channel 1.
const CHANNEL: u32 = 1 << 16 | 1;

/// A bundle of `count` sheets, which must be no more than fit.
pub fn bundle(seed: u64, count: usize) -> Vec<u8> {
    let mut dice = Dice::new(seed, u64::MAX);
    match dice.below(32) {
        0..=10 => sheets(&mut dice, count, 12, false),
        11..=17 => sheets(&mut dice, count, 12, true),
        18..=21 => damaged(&mut dice, count),
        22..=23 => cut(&mut dice, count),
        24..=26 => with_rest(&mut dice, count),
        27 => sheets(&mut dice, count, MOST_ROWS, false),
        28..=29 => exactly_full(&mut dice, count),
        _ => too_long(&mut dice, count),
    }
}

/// A chain drawn leaf first, and as many tiny sheets behind it as fit. The seed throws whether the
/// chain fills the store; odd seeds have sheets of one row without inputs alone.
pub fn stress(seed: u64) -> Vec<u8> {
    let mut dice = Dice::new(seed, u64::MAX - 1);
    let rows = dice.pick(&[MOST_ROWS, MOST_ROWS - 40]);
    let leaf_first: Vec<usize> = (0..rows).rev().collect();
    let chain = pictures::arranged(0, &pictures::chain(rows - 1, CHANNEL), &leaf_first);
    let mut bundle = sheet::write(&sheet::from_behind_store(0, &chain));
    loop {
        let kind = if seed % 2 == 1 { dice.below(4) } else { dice.below(8) };
        let next = sheet::write(&tiny(&mut dice, kind, rows));
        if bundle.len() + next.len() > MOST_BUNDLE_BYTES {
            return bundle;
        }
        bundle.extend(next);
    }
}

/// The chain's channel, another that is new or has no room, a store number, a hold of itself that is new,
/// known or has no room, the chain's end drawn again, or no rows.
fn tiny(dice: &mut Dice, kind: usize, known: usize) -> Vec<SheetRow> {
    let row = |label, inputs: &[u16]| SheetRow { label, inputs: inputs.to_vec() };
    match kind {
        0..=2 => vec![row(CHANNEL, &[])],
        3 => vec![row(CHANNEL ^ 1 << dice.below(32), &[])],
        4 if dice.one_in(2) => vec![row(6 << 16, &[STORE_MARK + dice.below(known) as u16])],
        4 | 5 => vec![row(6 << 16 | dice.below(64) as u32, &[0])],
        6 => vec![row(6 << 16, &[1]), row(CHANNEL, &[])],
        _ => Vec::new(),
    }
}

/// Sheets of at most `most` rows, each with its share of the bytes; some refused, if wanted.
fn sheets(dice: &mut Dice, count: usize, most: usize, refused: bool) -> Vec<u8> {
    let mut words = vec![0; 1 + MOST_ROWS * ROW_WORDS];
    let mut bundle = Vec::new();
    for left in (1..=count).rev() {
        let share = (MOST_BUNDLE_BYTES - bundle.len()) / left;
        let rows = most.min((share - SHEET_HEAD) / LONGEST_ROW);
        let sheet = next_sheet(dice, &words, rows, refused);
        operations::insert(&mut words, &sheet, &mut [0; MOST_ROWS]);
        bundle.extend(sheet);
    }
    bundle
}

/// A sheet over the store as it stands; if wanted, one in three is refused, and some for their wires.
fn next_sheet(dice: &mut Dice, words: &[u32], most: usize, refused: bool) -> Vec<u8> {
    let known = store::read(words).expect("inserting keeps the store sound");
    let drawn = drawing(dice, &known, most);
    let drawn = with_wires(dice, known.len(), drawn, most, refused);
    let drawn = pictures::drawn_out(&known, &drawn, most);
    let mut rows = sheet::from_behind_store(known.len(), &drawn);
    let wrong = if refused && dice.one_in(3) { dice.below(5) } else { 5 };
    match wrong {
        0 => damage::somewhere(dice, &mut rows, known.len(), damage::astray),
        4 => damage::somewhere(dice, &mut rows, known.len(), damage::retired),
        1 => damage::five_inputs(dice, &mut rows),
        _ => {}
    }
    let mut bytes = sheet::write(&rows);
    match wrong {
        2 => damage::version(dice, &mut bytes),
        3 => damage::row_count(dice, &mut bytes),
        _ => {}
    }
    bytes
}

/// Wires for one drawing in three, within so many rows; if wanted, some are wrong.
fn with_wires(dice: &mut Dice, base: usize, drawn: Vec<Row>, most: usize, refused: bool) -> Vec<Row> {
    let left = most - drawn.len();
    if refused && left >= 6 && dice.one_in(4) {
        return wired::spoiled(dice, base, drawn, 3);
    }
    if dice.one_in(3) {
        return wiring::wired(dice, base, &drawn, left);
    }
    drawn
}

/// Small drawings are of any kind; long ones are of different trees, so that the store fills, and
/// shallow, because every sheet behind them is compared with them again.
fn drawing(dice: &mut Dice, known: &[Row], most: usize) -> Vec<Row> {
    if most < 100 || dice.one_in(4) {
        return over_store(dice, known, most);
    }
    let size = dice.between(most / 2, most);
    let rows = pictures::different_but_shallow(dice, size);
    pictures::moved(&rows, known.len())
}

/// One of a few drawings that can be drawn out within so many rows, or else the last of them.
fn over_store(dice: &mut Dice, known: &[Row], most: usize) -> Vec<Row> {
    let mut drawn = pictures::over_store(dice, known, most);
    for _ in 0..4 {
        if leans_on(known, &drawn) + drawn.len() <= most {
            break;
        }
        drawn = pictures::over_store(dice, known, most);
    }
    drawn
}

/// How many store rows the drawing reaches.
fn leans_on(known: &[Row], drawn: &[Row]) -> usize {
    let all: Vec<Row> = known.iter().chain(drawn).cloned().collect();
    walk_from(&all, known.len()..all.len()).len() - drawn.len()
}

/// Bytes changed anywhere, length fields too.
fn damaged(dice: &mut Dice, count: usize) -> Vec<u8> {
    let mut bundle = sheets(dice, count, 12, false);
    damage::anywhere(dice, &mut bundle);
    bundle
}

/// The end is missing, from a byte to all of it.
fn cut(dice: &mut Dice, count: usize) -> Vec<u8> {
    let mut bundle = sheets(dice, count, 12, false);
    let missing = if dice.one_in(2) { dice.below(8) } else { dice.below(bundle.len() + 1) };
    bundle.truncate(bundle.len().saturating_sub(missing));
    bundle
}

/// Bytes behind the sheets that are no sheet: too few, or with a length that is not there.
fn with_rest(dice: &mut Dice, count: usize) -> Vec<u8> {
    let mut bundle = sheets(dice, count, 12, true);
    let field = dice.pick(&[[255; 4], [0, 0, 255, 255], [0, 0, 0, 9]]);
    let kept = dice.between(1, 4);
    bundle.extend(&field[..kept]);
    let more = dice.below(9);
    bundle.extend(if kept == 4 { vec![0; more] } else { Vec::new() });
    bundle.truncate(MOST_BUNDLE_BYTES);
    bundle
}

/// Made up to the last byte, by bytes left over or by a last sheet with bytes behind its rows.
fn exactly_full(dice: &mut Dice, count: usize) -> Vec<u8> {
    let mut bundle = sheets(dice, count, 12, false);
    fill_up(dice, &mut bundle, MOST_BUNDLE_BYTES);
    bundle
}

fn too_long(dice: &mut Dice, count: usize) -> Vec<u8> {
    let mut bundle = sheets(dice, count, 12, false);
    let length = MOST_BUNDLE_BYTES + dice.pick(&[1, 1, 2, 7, 5_000, 40_000]);
    fill_up(dice, &mut bundle, length);
    bundle
}

fn fill_up(dice: &mut Dice, bundle: &mut Vec<u8>, length: usize) {
    let missing = length - bundle.len();
    let mut last = vec![if dice.one_in(2) { 0 } else { 255 }; missing];
    if missing >= SHEET_HEAD && last[0] == 0 {
        last[4] = 1;
        damage::settle_length(&mut last);
    }
    bundle.extend(last);
}
