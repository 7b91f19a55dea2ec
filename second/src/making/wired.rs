//! Requests to insert a sheet with wires: right ones, wrong ones, and with other refusals beside.

use super::inserts::{self, Draft};
use super::{pictures, shapes, size, stores, wiring};
use crate::dice::Dice;
use crate::law::{MOST_ROWS, WIRE};
use crate::requests::Request;
use crate::rows::Row;

/// The draft with wires in its sheet, which may lead to store rows; now and then a wire's label becomes one
/// that only looks so.
pub fn with_wires(dice: &mut Dice, draft: Draft) -> Draft {
    let base = draft.store.len();
    let most = MOST_ROWS.saturating_sub(draft.sheet.len());
    let mut sheet = wiring::wired(dice, base, &draft.sheet, most);
    let wire = sheet.iter_mut().find(|row| row.label >> 16 == WIRE);
    wire.filter(|_| dice.one_in(6)).into_iter().for_each(|row| row.label = wiring::nearly(dice));
    Draft { sheet, ..draft }
}

fn draft(dice: &mut Dice) -> Draft {
    let draft = Draft::old(dice);
    with_wires(dice, draft).settled(dice)
}

/// Any sheet with wires, with room.
pub fn good(dice: &mut Dice) -> Request {
    let draft = draft(dice);
    let capacity = draft.needed() + dice.pick(&[0, 0, 1, 4]);
    draft.request(dice, capacity)
}

/// Rows that the store has, drawn again with wires between them, often into a store that is full.
pub fn known(dice: &mut Dice) -> Request {
    let (used, drawn) = (size(dice).max(1), size(dice).max(1));
    let store = stores::rows(dice, used);
    let (base, sheet) = (store.len(), pictures::copied(dice, &store, drawn));
    let sheet = wiring::wired(dice, base, &sheet, 3 * drawn);
    let capacity = base + dice.pick(&[0, 0, 1]);
    Draft { store, sheet }.settled(dice).request(dice, capacity)
}

/// Refused for the list, which may have an entry for each box alone, for room, or for several things.
pub fn refused(dice: &mut Dice) -> Request {
    let draft = draft(dice);
    match dice.below(6) {
        0 | 1 => {
            let boxes = draft.sheet.iter().filter(|row| row.label >> 16 != WIRE).count();
            let words = stores::roomy(dice, &draft.store);
            Request::Insert { words, sheet: draft.bytes(), answers: dice.junk_words(boxes) }
        }
        2 => inserts::short_listed(dice, &draft),
        3 => draft.request(dice, draft.needed().saturating_sub(1)),
        4 => inserts::into_spoiled(dice, &draft),
        _ => inserts::wrong_anyhow(dice, &draft),
    }
}

/// A wire without exactly one input, a loop of wires, or both, and now and then more that is wrong.
pub fn wrong(dice: &mut Dice) -> Request {
    let mut draft = if dice.one_in(2) { draft(dice) } else { Draft::any(dice) };
    draft.sheet = spoiled(dice, draft.store.len(), draft.sheet, 17);
    let draft = draft.settled(dice);
    match dice.below(6) {
        0 => inserts::wrong_anyhow(dice, &draft),
        1 => inserts::short_listed(dice, &draft),
        2 => inserts::into_spoiled(dice, &draft),
        _ => draft.request(dice, draft.needed()),
    }
}

/// The sheet with wires that are wrong, as it is or shuffled, with loops of at most so many. There are
/// at most three rows more than in the loop.
pub fn spoiled(dice: &mut Dice, base: usize, mut sheet: Vec<Row>, longest: usize) -> Vec<Row> {
    let how = dice.below(3);
    if how != 0 {
        let length = dice.pick(&[1, 1, 2, 2, 3, 5, 17]);
        wiring::close(dice, base, &mut sheet, length.min(longest));
    }
    if how != 1 {
        wiring::shorten(dice, base, &mut sheet);
    }
    if dice.one_in(2) {
        sheet = pictures::permuted(dice, base, &sheet);
    }
    sheet
}

/// Up to 1,000 wires in a row, from a hold to a channel or to a row of the store, or in a loop; root
/// first, leaf first or shuffled. Now and then one of them is short.
pub fn long(dice: &mut Dice) -> Request {
    let used = size(dice);
    let store = stores::rows(dice, used);
    let (base, count) = (store.len(), dice.pick(&[10, 100, 500, 1_000, 1_000]));
    let to = if base > 0 && dice.one_in(3) { dice.below(base) } else { base };
    let mut sheet = vec![Row { label: 1 << 16, inputs: Vec::new() }];
    let start = match dice.below(4) {
        0 => {
            wiring::close(dice, base, &mut sheet, count);
            base + 1
        }
        _ => wiring::before(dice, base, &mut sheet, to, count),
    };
    sheet.push(Row { label: 6 << 16, inputs: vec![start] });
    if dice.one_in(6) {
        wiring::shorten(dice, base, &mut sheet);
    }
    let draft = Draft { sheet: shapes::ordered(dice, base, &sheet), store }.settled(dice);
    draft.request(dice, draft.needed())
}
