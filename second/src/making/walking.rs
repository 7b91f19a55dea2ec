//! Requests that walk a bundle.

use super::{damage, pictures};
use crate::dice::Dice;
use crate::requests::{Request, BYTE_ROOM};
use crate::sheet;

/// A few small sheets one after another.
fn bundle(dice: &mut Dice) -> Vec<u8> {
    let mut bytes = Vec::new();
    for _ in 0..dice.below(6) {
        let size = dice.below(5);
        bytes.extend(sheet::write(&sheet::from_behind_store(0, &pictures::any(dice, size))));
    }
    bytes
}

/// A bundle as it is, or with something wrong with it.
fn any_bundle(dice: &mut Dice) -> Vec<u8> {
    let mut bytes = bundle(dice);
    match dice.below(8) {
        0 => bytes.truncate(dice.below(bytes.len() + 1)),
        1 => cut_in_length_field(dice, &mut bytes),
        2 => all_ones(dice, &mut bytes),
        3 => damage::anywhere(dice, &mut bytes),
        4 => no_length(dice, &mut bytes),
        _ => {}
    }
    bytes
}

/// One to three bytes where the next length field should be.
fn cut_in_length_field(dice: &mut Dice, bytes: &mut Vec<u8>) {
    let left = dice.between(1, 3);
    bytes.extend(vec![0; left]);
}

/// A length field of all ones or nearly, at the front or behind other sheets. If 4 were added in
/// 32 bits, most of these would wrap to a length that is there.
fn all_ones(dice: &mut Dice, bytes: &mut Vec<u8>) {
    at_the_front_or_behind(dice, bytes);
    let field = dice.pick(&[u32::MAX, u32::MAX - 1, u32::MAX - 2, u32::MAX - 4, 0x8000_0000]);
    bytes.extend(field.to_be_bytes());
    let left = dice.pick(&[0, 3, 20]);
    bytes.extend(dice.junk_bytes(left));
}

/// A sheet of four bytes: it is shown, though no store would take it.
fn no_length(dice: &mut Dice, bytes: &mut Vec<u8>) {
    at_the_front_or_behind(dice, bytes);
    bytes.extend([0; 4]);
    if dice.one_in(3) {
        bytes.extend(bundle(dice));
    }
}

/// Half the time, what comes next shall be the first thing in the bundle.
fn at_the_front_or_behind(dice: &mut Dice, bytes: &mut Vec<u8>) {
    if dice.one_in(2) {
        bytes.clear();
    }
}

pub fn next(dice: &mut Dice) -> Request {
    let mut bytes = any_bundle(dice);
    if dice.one_in(40) {
        bytes.resize(BYTE_ROOM, 0);
        damage::settle_length(&mut bytes);
    }
    Request::Next { bytes }
}

/// A reader set at the front, at a sheet, between sheets, at the end or past it.
pub fn reader(dice: &mut Dice) -> Request {
    let bundle = any_bundle(dice);
    let end = bundle.len() as u32;
    let first = crate::bundle::next_sheet(&bundle).len() as u32;
    let inside = dice.below(bundle.len() + 1) as u32;
    let at = dice.pick(&[0, 0, 0, first, inside, end.saturating_sub(3), end, end + 1, end + 4, u32::MAX]);
    Request::Reader { bundle, at, steps: dice.below(13) as u32 }
}
