//! Requests to convert an old sheet: drawn over a store, with its numbers. Small ones and such as come near
//! 1,024 rows, with buffers that are just long enough, longer and short, and each refusal alone and beside
//! those that come behind it.

use super::inserts::Draft;
use super::{damage, pictures, shapes, size, stores, wired};
use crate::converting::convert;
use crate::dice::Dice;
use crate::law::MOST_ROWS;
use crate::requests::{Request, BYTE_ROOM};
use crate::rows::{walk, Row};
use crate::sheet;

/// No result is longer: a head and 1,024 rows of four inputs.
const LONGEST: usize = 13_319;

/// An old sheet that leans on its store, a third of them with wires.
fn draft(dice: &mut Dice) -> Draft {
    let draft = match dice.below(3) {
        0 => Draft::old(dice),
        1 => named(dice),
        _ => {
            let used = size(dice).max(1);
            let store = stores::rows(dice, used);
            let sheet = pictures::copied(dice, &store, used.div_ceil(3));
            Draft { sheet: pictures::unrolled(dice, store.len(), &sheet, used + 2), store }
        }
    };
    if dice.one_in(3) {
        return wired::with_wires(dice, draft);
    }
    draft
}

/// A few rows whose inputs are mostly store rows.
fn named(dice: &mut Dice) -> Draft {
    let (used, drawn) = (size(dice).max(1), dice.between(1, 5));
    let store = stores::rows(dice, used);
    let base = store.len();
    let input = |dice: &mut Dice| if dice.one_in(4) { base + dice.below(drawn) } else { dice.below(base) };
    let row = |dice: &mut Dice| {
        let count = dice.between(0, 4);
        let label = dice.pick(&[3 << 16, 4 << 16, 6 << 16]);
        Row { label, inputs: (0..count).map(|_| input(dice)).collect() }
    };
    Draft { sheet: (0..drawn).map(|_| row(dice)).collect(), store }
}

/// How many bytes the result has, written by this program itself; the sheet's own where there is none.
fn result_length(words: &[u32], sheet: &[u8]) -> usize {
    let done = convert(words, sheet, &mut [0; LONGEST]);
    if done.number == 0 {
        done.bytes as usize
    } else {
        sheet.len()
    }
}

/// The request with a buffer that is long enough or, if wanted, short.
fn request(dice: &mut Dice, draft: &Draft, short: bool) -> Request {
    let words = stores::roomy(dice, &draft.store);
    let sheet = draft.bytes();
    let length = result_length(&words, &sheet);
    let room = if short {
        dice.pick(&[length - 1, length - 1, length - 1, sheet.len().min(length - 1), length / 2, 0])
    } else {
        dice.pick(&[length, length, length + 1, length + 9, LONGEST])
    };
    Request::Convert { words, sheet, buffer: dice.junk_bytes(room) }
}

/// Any old sheet.
pub fn good(dice: &mut Dice) -> Request {
    let draft = draft(dice);
    request(dice, &draft, false)
}

/// A buffer too short.
pub fn short(dice: &mut Dice) -> Request {
    let draft = draft(dice);
    request(dice, &draft, true)
}

/// A spoiled store, a damaged sheet, an input that points nowhere or wrong wires, and now and then two of
/// these, and a short buffer.
pub fn refused(dice: &mut Dice) -> Request {
    let mut draft = draft(dice);
    let wrong = dice.below(4);
    let also = if dice.one_in(3) { dice.below(4) } else { wrong };
    let is = |kind: usize| wrong == kind || also == kind;
    if is(3) {
        draft.sheet = wired::spoiled(dice, draft.store.len(), draft.sheet, 17);
    }
    let mut rows = draft.sheet_rows();
    if is(2) {
        damage::somewhere(dice, &mut rows, draft.store.len(), damage::astray_of_old);
    }
    let mut sheet = sheet::write(&rows);
    if is(1) {
        damage::bytes(dice, &mut sheet);
    }
    let words = if is(0) { stores::spoiled(dice, &draft.store) } else { stores::roomy(dice, &draft.store) };
    let room = dice.pick(&[0, sheet.len(), LONGEST]);
    Request::Convert { words, sheet, buffer: dice.junk_bytes(room) }
}

/// A result of exactly 1,024 rows, of one less or more, or of many more; with wires that are wrong or a
/// short buffer now and then.
pub fn long(dice: &mut Dice) -> Request {
    let mut draft = near_the_limit(dice);
    if dice.one_in(3) && draft.sheet.len() <= MOST_ROWS - 20 {
        draft.sheet = wired::spoiled(dice, draft.store.len(), draft.sheet, 17);
    }
    let short = dice.one_in(4);
    request(dice, &draft, short)
}

/// Holds one on another, the last on a row of the store that leads to many or to few, so many that the rows
/// together are about 1,024.
fn near_the_limit(dice: &mut Dice) -> Draft {
    let used = dice.pick(&[40, 300, 700, MOST_ROWS]);
    let store = if dice.one_in(2) { shapes::any(dice, used, 0) } else { pictures::different(dice, used) };
    let (base, last) = (store.len(), dice.below(store.len()));
    let left = MOST_ROWS - walk(&store, last).len();
    let count = dice.pick(&[left, left, left + 1, left + 1, left.saturating_sub(1), left / 2, MOST_ROWS]);
    let count = count.clamp(1, MOST_ROWS);
    let next = |at: usize| if at == count { last } else { base + at };
    let rows: Vec<Row> = (1..=count).map(|at| Row { label: 6 << 16, inputs: vec![next(at)] }).collect();
    Draft { sheet: shapes::ordered(dice, base, &rows), store }
}

/// A sheet without store numbers, which is its own result: few rows or 1,024, over any store.
pub fn its_own(dice: &mut Dice) -> Request {
    let (used, drawn) = (size(dice), size(dice));
    let (used, drawn) = dice.pick(&[(used, drawn), (used, drawn), (MOST_ROWS, drawn), (used, MOST_ROWS)]);
    let store = if used == MOST_ROWS { shapes::any(dice, used, 0) } else { stores::rows(dice, used) };
    let sheet = pictures::moved(&pictures::any(dice, drawn), store.len());
    let mut request = request(dice, &Draft { store, sheet }, false);
    if let Request::Convert { buffer, .. } = &mut request {
        if dice.one_in(12) {
            *buffer = dice.junk_bytes(BYTE_ROOM);
        }
    }
    request
}
