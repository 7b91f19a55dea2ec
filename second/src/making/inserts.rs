//! Requests to insert a sheet.

use super::{damage, pictures, size, stores, wired};
use crate::dice::Dice;
use crate::law::MOST_ROWS;
use crate::requests::{Request, WORD_ROOM};
use crate::rows::Row;
use crate::sheet::{self, SheetRow};

/// A store's rows and a sheet drawn over them: most have no store numbers, and old ones may.
pub struct Draft {
    pub store: Vec<Row>,
    pub sheet: Vec<Row>,
}

impl Draft {
    pub fn any(dice: &mut Dice) -> Draft {
        let old = Draft::old(dice);
        old.settled(dice)
    }

    /// A sheet that may have store numbers.
    pub fn old(dice: &mut Dice) -> Draft {
        let (used, drawn) = (size(dice), size(dice));
        let store = stores::rows(dice, used);
        let sheet = pictures::over_store(dice, &store, drawn);
        Draft { store, sheet }
    }

    /// The draft with what it uses of the store drawn in the sheet; now and then it is left.
    pub fn settled(self, dice: &mut Dice) -> Draft {
        if dice.one_in(30) {
            return self;
        }
        let base = self.store.len();
        let mut sheet = pictures::drawn_out(&self.store, &self.sheet, MOST_ROWS.max(self.sheet.len()));
        if sheet.len() > self.sheet.len() && dice.one_in(2) {
            sheet = pictures::permuted(dice, base, &sheet);
        }
        Draft { sheet, ..self }
    }

    /// How many rows the store has when the sheet is in.
    pub fn needed(&self) -> usize {
        self.store.len() + pictures::new_trees(&self.store, &self.sheet)
    }

    pub fn sheet_rows(&self) -> Vec<SheetRow> {
        sheet::from_behind_store(self.store.len(), &self.sheet)
    }

    pub fn bytes(&self) -> Vec<u8> {
        sheet::write(&self.sheet_rows())
    }

    /// The request with room for `capacity` rows and answers long enough.
    pub fn request(&self, dice: &mut Dice, capacity: usize) -> Request {
        let words = stores::with_capacity(dice, &self.store, capacity);
        Request::Insert { words, sheet: self.bytes(), answers: enough_answers(dice, self.sheet.len()) }
    }
}

/// An answer list that is exactly long enough, or longer.
fn enough_answers(dice: &mut Dice, rows: usize) -> Vec<u32> {
    let more = dice.pick(&[0, 0, 0, 1, 3]);
    dice.junk_words(rows + more)
}

/// An answer list that is one short (or any number short), unless the sheet has no rows.
fn short_answers(dice: &mut Dice, rows: usize) -> Vec<u32> {
    let length = if dice.one_in(4) { dice.below(rows + 1) } else { rows.saturating_sub(1) };
    dice.junk_words(length)
}

/// Any sheet, with room.
pub fn ordinary(dice: &mut Dice) -> Request {
    let draft = Draft::any(dice);
    let capacity = draft.needed() + dice.pick(&[0, 1, 2, 7]);
    draft.request(dice, capacity)
}

/// Unrolled copies of rows the store has, often into a store that is full.
pub fn known(dice: &mut Dice) -> Request {
    let (used, drawn) = (size(dice).max(1), size(dice).max(1));
    let store = stores::rows(dice, used);
    let base = store.len();
    let copied = pictures::copied(dice, &store, drawn);
    let copied = pictures::unrolled(dice, base, &copied, 3 * drawn);
    let draft = Draft { sheet: pictures::permuted(dice, base, &copied), store }.settled(dice);
    let capacity = base + dice.pick(&[0, 0, 1]);
    draft.request(dice, capacity)
}

/// A new drawing with loops, each row in several turns, into a store that has some of it.
pub fn several_turns(dice: &mut Dice) -> Request {
    let drawn = size(dice).max(1);
    let picture = pictures::any(dice, drawn);
    let kept = pictures::minimal(&picture);
    let known = crate::rows::walk(&kept, dice.below(kept.len()));
    let store = if dice.one_in(2) { part(&kept, &known) } else { Vec::new() };
    let sheet = pictures::unrolled(dice, store.len(), &pictures::moved(&picture, store.len()), 3 * drawn);
    let draft = Draft { sheet: pictures::permuted(dice, store.len(), &sheet), store };
    let capacity = draft.needed() + dice.pick(&[0, 0, 1, 4]);
    draft.request(dice, capacity)
}

/// The listed rows alone, which must use no others, in the order listed.
fn part(rows: &[Row], listed: &[usize]) -> Vec<Row> {
    let place = |input: &usize| listed.iter().position(|row| row == input).expect("the walk has every input");
    let kept =
        |&row: &usize| Row { label: rows[row].label, inputs: rows[row].inputs.iter().map(place).collect() };
    listed.iter().map(kept).collect()
}

/// A sheet with trees drawn more than once, that fills the store to its last row.
pub fn exact_room(dice: &mut Dice) -> Request {
    let draft = with_repeats(dice);
    let capacity = draft.needed();
    draft.request(dice, capacity)
}

/// The same with one row less than is needed, where there is a new tree at all.
pub fn one_row_short(dice: &mut Dice) -> Request {
    let draft = with_repeats(dice);
    let capacity = draft.needed().saturating_sub(1);
    draft.request(dice, capacity)
}

fn with_repeats(dice: &mut Dice) -> Draft {
    let draft = Draft::any(dice);
    let most = 2 * draft.sheet.len() + 2;
    let sheet = pictures::unrolled(dice, draft.store.len(), &draft.sheet, most);
    Draft { sheet, ..draft }
}

/// Answer lists exactly long enough, one short, longer and much longer.
pub fn answer_lists(dice: &mut Dice) -> Request {
    let draft = Draft::any(dice);
    let capacity = draft.needed() + dice.below(2);
    let rows = draft.sheet.len();
    let length = dice.pick(&[rows, rows.saturating_sub(1), rows.saturating_sub(1), rows + 1, rows + 20]);
    let words = stores::with_capacity(dice, &draft.store, capacity);
    Request::Insert { words, sheet: draft.bytes(), answers: dice.junk_words(length) }
}

/// A good sheet for a store that is refused.
pub fn spoiled_store(dice: &mut Dice) -> Request {
    let draft = Draft::any(dice);
    into_spoiled(dice, &draft)
}

/// The same with the draft given.
pub fn into_spoiled(dice: &mut Dice, draft: &Draft) -> Request {
    let words = stores::spoiled(dice, &draft.store);
    Request::Insert { words, sheet: draft.bytes(), answers: enough_answers(dice, draft.sheet.len()) }
}

/// A damaged sheet for a sound store.
pub fn damaged_sheet(dice: &mut Dice) -> Request {
    let draft = Draft::any(dice);
    with_damaged_sheet(dice, &draft)
}

/// The same with the draft given.
pub fn with_damaged_sheet(dice: &mut Dice, draft: &Draft) -> Request {
    let mut rows = draft.sheet_rows();
    if dice.one_in(8) {
        damage::five_inputs(dice, &mut rows);
    }
    let mut bytes = sheet::write(&rows);
    damage::bytes(dice, &mut bytes);
    let words = stores::roomy(dice, &draft.store);
    Request::Insert { words, sheet: bytes, answers: enough_answers(dice, rows.len()) }
}

/// An input that points nowhere: past the sheet's rows.
pub fn astray(dice: &mut Dice) -> Request {
    let draft = Draft::any(dice);
    misled(dice, &draft, &[damage::astray])
}

/// An old sheet as it is, or with a store number, and now and then an input that points nowhere before it
/// or behind it, wires that are wrong, a list or room too short.
pub fn retired(dice: &mut Dice) -> Request {
    let mut draft = Draft::old(dice);
    if dice.one_in(6) {
        draft.sheet = wired::spoiled(dice, draft.store.len(), draft.sheet, 17);
    }
    match dice.below(8) {
        0 | 1 => draft.request(dice, draft.needed()),
        2 => draft.request(dice, draft.needed().saturating_sub(1)),
        3 => short_listed(dice, &draft),
        4 | 5 => misled(dice, &draft, &[damage::retired]),
        _ => misled(dice, &draft, &[damage::retired, damage::astray]),
    }
}

/// The draft with inputs misled so, in any rows.
fn misled(dice: &mut Dice, draft: &Draft, ways: &[damage::Misled]) -> Request {
    let mut rows = draft.sheet_rows();
    ways.iter().for_each(|&way| damage::somewhere(dice, &mut rows, draft.store.len(), way));
    let capacity = draft.needed() + dice.pick(&[0, 3, 9]);
    let words = stores::with_capacity(dice, &draft.store, capacity);
    Request::Insert { words, sheet: sheet::write(&rows), answers: enough_answers(dice, rows.len()) }
}

/// Several things wrong at once, so that their order matters.
pub fn many_refusals(dice: &mut Dice) -> Request {
    let draft = Draft::any(dice);
    wrong_anyhow(dice, &draft)
}

/// The draft with a list that is too short, unless the sheet has no rows.
pub fn short_listed(dice: &mut Dice, draft: &Draft) -> Request {
    let words = stores::roomy(dice, &draft.store);
    Request::Insert { words, sheet: draft.bytes(), answers: short_answers(dice, draft.sheet.len()) }
}

/// The draft with any of its parts wrong.
pub fn wrong_anyhow(dice: &mut Dice, draft: &Draft) -> Request {
    let mut rows = draft.sheet_rows();
    if dice.one_in(2) {
        damage::somewhere(dice, &mut rows, draft.store.len(), damage::astray);
    }
    if dice.one_in(8) {
        damage::somewhere(dice, &mut rows, draft.store.len(), damage::retired);
    }
    if dice.one_in(6) {
        damage::five_inputs(dice, &mut rows);
    }
    let mut bytes = sheet::write(&rows);
    damaged_head(dice, &mut bytes);
    let short = draft.needed().saturating_sub(1);
    let words = if dice.one_in(5) {
        stores::spoiled(dice, &draft.store)
    } else {
        stores::with_capacity(dice, &draft.store, short)
    };
    let answers =
        if dice.one_in(3) { enough_answers(dice, rows.len()) } else { short_answers(dice, rows.len()) };
    Request::Insert { words, sheet: bytes, answers }
}

/// Each part of a sheet's head, now and then wrong.
fn damaged_head(dice: &mut Dice, bytes: &mut [u8]) {
    if dice.one_in(6) {
        damage::row_count(dice, bytes);
    }
    if dice.one_in(6) {
        damage::version(dice, bytes);
    }
    if dice.one_in(6) {
        damage::length(dice, bytes);
    }
}

/// Stores of no room or room for one row, and a sheet of few rows or none.
pub fn tiny_store(dice: &mut Dice) -> Request {
    let most = dice.below(3);
    let sheet = sheet::write(&sheet::from_behind_store(0, &pictures::over_store(dice, &[], most)));
    let length = dice.pick(&[0, 1, 2, 6, 7, 8, 12, 13]);
    let mut words = dice.junk_words(length);
    if let Some(count) = words.first_mut() {
        *count = dice.pick(&[0, 0, 0, 1]);
    }
    let answers = dice.below(4);
    Request::Insert { words, sheet, answers: dice.junk_words(answers) }
}

/// A store of 6,200 words, few of them in use and the others junk.
pub fn long_store(dice: &mut Dice) -> Request {
    let draft = Draft::any(dice);
    let words = stores::with_words(dice, &draft.store, 6_200);
    Request::Insert { words, sheet: draft.bytes(), answers: enough_answers(dice, draft.sheet.len()) }
}

/// Stores and sheets at the limits.
pub fn at_the_limits(dice: &mut Dice) -> Request {
    match dice.below(6) {
        0 => full_store_known_sheet(dice),
        1 => last_room(dice),
        2 => empty_store_long_sheet(dice),
        3 => sheet_too_long(dice),
        4 => count_too_large(dice),
        _ => most_words(dice),
    }
}

/// 1,024 rows in the store, and 1,024 in a sheet of which it knows every one.
fn full_store_known_sheet(dice: &mut Dice) -> Request {
    let store = pictures::different(dice, MOST_ROWS);
    let copied = pictures::copied(dice, &store, MOST_ROWS);
    let copied = pictures::drawn_out(&store, &copied, MOST_ROWS);
    let sheet = pictures::unrolled_to(dice, MOST_ROWS, &copied, MOST_ROWS);
    let draft = Draft { sheet: pictures::permuted(dice, MOST_ROWS, &sheet), store };
    draft.request(dice, MOST_ROWS)
}

/// A sheet that fills the last of 1,024 rows, or needs one more than that; the words themselves
/// would have room for nine more.
fn last_room(dice: &mut Dice) -> Request {
    let used = dice.between(900, 1_000);
    let new = MOST_ROWS - used + dice.below(2);
    let store = pictures::different(dice, used);
    let fresh = pictures::different(dice, new);
    let relabelled: Vec<Row> =
        fresh.iter().map(|row| Row { label: row.label ^ 0x100, inputs: row.inputs.clone() }).collect();
    let sheet = pictures::unrolled(dice, used, &pictures::moved(&relabelled, used), MOST_ROWS);
    let words = stores::with_words(dice, &store, 6_200);
    let draft = Draft { store, sheet };
    Request::Insert { words, sheet: draft.bytes(), answers: enough_answers(dice, draft.sheet.len()) }
}

/// 1,024 sheet rows into an empty store that has room for all.
fn empty_store_long_sheet(dice: &mut Dice) -> Request {
    let trees = dice.between(300, MOST_ROWS);
    let rows = pictures::different(dice, trees);
    let sheet = pictures::unrolled_to(dice, 0, &rows, MOST_ROWS);
    Draft { store: Vec::new(), sheet }.request(dice, trees)
}

/// 1,025 readable rows.
fn sheet_too_long(dice: &mut Dice) -> Request {
    let sheet = pictures::tangle(dice, MOST_ROWS + 1);
    Draft { store: Vec::new(), sheet }.request(dice, 12)
}

/// A count of 1,025 whose rows are all there and all different, in 6,200 words.
fn count_too_large(dice: &mut Dice) -> Request {
    let rows = pictures::different(dice, MOST_ROWS + 1);
    let words = stores::with_words(dice, &rows, 6_200);
    Request::Insert { words, sheet: sheet::write(&[]), answers: Vec::new() }
}

/// As many words as a request has room for.
fn most_words(dice: &mut Dice) -> Request {
    let draft = Draft::any(dice);
    let words = stores::with_words(dice, &draft.store, WORD_ROOM);
    Request::Insert { words, sheet: draft.bytes(), answers: enough_answers(dice, draft.sheet.len()) }
}
