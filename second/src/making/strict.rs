//! Requests for a strict insert: chains of the catalogue, good or spoiled in the sheet, also in rows of it
//! that the store knows, or in other store rows, with wires and without; with other refusals before and behind; and
//! what a plain insert is asked for, asked strictly.

use super::catalogue::{self, Spoil, SPOILS};
use super::inserts::{self, Draft};
use super::{faulty, pictures, shapes, size, stores, wired, Kind};
use crate::dice::Dice;
use crate::law::MOST_ROWS;
use crate::requests::Request;
use crate::rows::{joined, Row};

/// A request to insert, asked strictly.
fn strictly(request: Request) -> Request {
    match request {
        Request::Insert { words, sheet, answers } => Request::InsertStrict { words, sheet, answers },
        other => unreachable!("not a request to insert: {other:?}"),
    }
}

/// What of a draft is spoiled.
#[derive(Clone, Copy)]
struct Spoils {
    store: Option<Spoil>,
    sheet: Option<Spoil>,
    /// Whether the sheet uses the part of the store that is spoiled.
    reaching: bool,
}

/// Of two places one is spoiled, the other now and then.
fn thrown_spoils(dice: &mut Dice) -> Spoils {
    let some = dice.pick(&SPOILS);
    let more = if dice.one_in(4) { Some(dice.pick(&SPOILS)) } else { None };
    let (store, sheet) = if dice.one_in(2) { (Some(some), more) } else { (more, Some(some)) };
    Spoils { store, sheet, reaching: !dice.one_in(3) }
}

/// A store in two parts, of which only the second is spoiled, and a sheet that uses one of them.
fn draft(dice: &mut Dice, spoils: Spoils) -> Draft {
    let (first, second, count) = (size(dice), size(dice), size(dice).max(1));
    let good = pictures::minimal(&catalogue::drawn(dice, 0, 0..0, first));
    let mut other = catalogue::drawn(dice, 0, 0..0, second);
    spoils.store.into_iter().for_each(|by| catalogue::spoil(dice, 0, &mut other, by));
    let store = pictures::minimal(&joined(&good, &other));
    let base = store.len();
    let ties = if spoils.reaching { good.len()..base } else { 0..good.len() };
    let mut sheet = if !ties.is_empty() && dice.one_in(4) {
        catalogue::holds_on(dice, base, ties)
    } else {
        catalogue::drawn(dice, base, ties, count)
    };
    spoils.sheet.into_iter().for_each(|by| catalogue::spoil(dice, base, &mut sheet, by));
    let draft = redrawn(dice, store, sheet);
    if dice.one_in(3) {
        return wired::with_wires(dice, draft).settled(dice);
    }
    draft.settled(dice)
}

/// The same trees: some rows drawn again, and both store and sheet in another order.
fn redrawn(dice: &mut Dice, store: Vec<Row>, mut sheet: Vec<Row>) -> Draft {
    let base = store.len();
    if dice.one_in(3) {
        sheet = pictures::unrolled(dice, base, &sheet, 2 * sheet.len());
    }
    if dice.one_in(2) {
        sheet = pictures::permuted(dice, base, &sheet);
    }
    let order = dice.order(base);
    Draft { store: pictures::arranged(0, &store, &order), sheet: pictures::over_arranged(&sheet, &order) }
}

const GOOD: Spoils = Spoils { store: None, sheet: None, reaching: true };

/// A good chain, with room: new, or copied from the store.
pub fn good(dice: &mut Dice) -> Request {
    let mut draft = draft(dice, GOOD);
    if dice.one_in(4) {
        let copied = pictures::copied(dice, &draft.store, 12);
        draft.sheet = pictures::unrolled(dice, draft.store.len(), &copied, 24);
        draft = draft.settled(dice);
    }
    let capacity = draft.needed() + dice.pick(&[0, 0, 1, 4]);
    strictly(draft.request(dice, capacity))
}

/// A spoiled chain, or a good one beside rows that are spoiled; the list or the room is short now
/// and then.
pub fn spoiled(dice: &mut Dice) -> Request {
    let spoils = thrown_spoils(dice);
    let draft = draft(dice, spoils);
    let short = usize::from(dice.one_in(4));
    let words = stores::with_capacity(dice, &draft.store, draft.needed().saturating_sub(short));
    let rows = draft.sheet.len();
    let entries = if dice.one_in(4) { rows.saturating_sub(1) } else { rows };
    Request::InsertStrict { words, sheet: draft.bytes(), answers: dice.junk_words(entries) }
}

/// A chain, good or spoiled, that is refused for its wires, for the list, for room, or for several
/// things at once.
pub fn refused(dice: &mut Dice) -> Request {
    let spoils = if dice.one_in(2) { thrown_spoils(dice) } else { GOOD };
    let mut draft = draft(dice, spoils);
    if dice.one_in(4) {
        draft.sheet = wired::spoiled(dice, draft.store.len(), draft.sheet, 17);
        draft = draft.settled(dice);
    }
    strictly(match dice.below(9) {
        0 => inserts::short_listed(dice, &draft),
        1 => draft.request(dice, draft.needed().saturating_sub(1)),
        2 => inserts::into_spoiled(dice, &draft),
        4 => Request::Insert { words: Vec::new(), sheet: draft.bytes(), answers: Vec::new() },
        3 => inserts::with_damaged_sheet(dice, &draft),
        _ => inserts::wrong_anyhow(dice, &draft),
    })
}

const PLAIN: [Kind; 10] = [
    inserts::ordinary,
    inserts::known,
    inserts::several_turns,
    inserts::exact_room,
    inserts::spoiled_store,
    inserts::tiny_store,
    inserts::long_store,
    inserts::retired,
    inserts::retired,
    faulty::insert,
];

/// What a plain insert is asked for, most of which the catalogue does not have.
pub fn of_plain(dice: &mut Dice) -> Request {
    let kind = dice.pick(&PLAIN);
    strictly(kind(dice))
}

const WIRED: [Kind; 5] = [wired::good, wired::known, wired::refused, wired::wrong, wired::long];

/// The sheets with wires that a plain insert is asked for.
pub fn of_wired(dice: &mut Dice) -> Request {
    let kind = dice.pick(&WIRED);
    strictly(kind(dice))
}

/// Up to 1,024 rows, beside as many or none: a long loop with a hold or without, or a long chain, in
/// the store or in the sheet, root first, leaf first or shuffled.
pub fn deep(dice: &mut Dice) -> Request {
    let (stored, count) = (dice.pick(&[0, 300, MOST_ROWS]), dice.pick(&[200, 700, MOST_ROWS]));
    let store = if stored == 0 { Vec::new() } else { long(dice, stored) };
    let base = store.len();
    let mut sheet = pictures::moved(&long(dice, count), base);
    if base > 0 && dice.one_in(2) {
        let end = sheet.len() - 1;
        sheet[end] = Row { label: 12 << 16, inputs: vec![dice.below(base)] };
    }
    let draft = Draft { store, sheet: shapes::ordered(dice, base, &sheet) }.settled(dice);
    let capacity = draft.needed().min(MOST_ROWS);
    strictly(draft.request(dice, capacity))
}

fn long(dice: &mut Dice, size: usize) -> Vec<Row> {
    let held = dice.one_in(2);
    let rows =
        if dice.one_in(2) { catalogue::long_chain(size) } else { catalogue::long_loop(dice, size, held) };
    shapes::ordered(dice, 0, &rows)
}
