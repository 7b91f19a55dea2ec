//! Requests to run recorded counts through a chain: chains of the catalogue over traces of every kind,
//! and what is refused, for the store, the row, the chain, the trace or the output.

use super::catalogue::{self, Spoil, SPOILS};
use super::{pictures, shapes, size, stores, traces};
use crate::dice::Dice;
use crate::law::{CHANNEL, HOLD, MOST_CHANNELS, MOST_ROWS};
use crate::requests::{Request, WORD_ROOM};
use crate::rows::{joined, walk, Row};

/// The rows of a store, the row asked for, and the trace.
struct Draft {
    rows: Vec<Row>,
    row: usize,
    channels: usize,
    values: Vec<i32>,
}

impl Draft {
    /// The rows in another order; those of one tree are one row.
    fn new(dice: &mut Dice, drawn: &[Row], channels: usize, ticks: usize) -> Draft {
        let rows = pictures::minimal(drawn);
        let asked = if dice.one_in(5) { dice.below(rows.len()) } else { leads_to_most(&rows) };
        let order = shapes::order(dice, rows.len());
        let row = order.iter().position(|&row| row == asked).expect("every row");
        let values = traces::counts(dice, channels * ticks);
        Draft { rows: pictures::arranged(0, &rows, &order), row, channels, values }
    }

    /// Some chain beside some other rows.
    fn any(dice: &mut Dice) -> Draft {
        let (own, more) = (size(dice).max(1), size(dice));
        // Now and then so many that every operation may be among them.
        let own = if dice.one_in(6) { dice.between(30, 60) } else { own };
        let channels = dice.between(1, MOST_CHANNELS);
        let drawn = joined(&chain(dice, own, channels), &chain(dice, more, channels));
        let ticks = dice.pick(&[0, 1, 2, 3, 7, 7, 20]);
        Draft::new(dice, &drawn, channels, ticks)
    }

    fn ticks(&self) -> usize {
        self.values.len() / self.channels
    }

    /// With an output that is just long enough, or longer.
    fn request(self, dice: &mut Dice) -> Request {
        let room = self.ticks() + dice.pick(&[0, 0, 0, 1, 5]);
        let words = stores::roomy(dice, &self.rows);
        self.with(dice, words, room)
    }

    fn with(self, dice: &mut Dice, words: Vec<u32>, room: usize) -> Request {
        let (row, channels) = (self.row as u32, self.channels as u32);
        Request::Run { words, row, channels, values: self.values, output: traces::junk(dice, room) }
    }
}

/// A row that leads to the most rows; of a large drawing row 0, which leads to most of it.
fn leads_to_most(rows: &[Row]) -> usize {
    if rows.len() > 60 {
        return 0;
    }
    (0..rows.len()).rev().max_by_key(|&row| walk(rows, row).len()).unwrap_or(0)
}

/// A drawing of the catalogue in which every loop passes a hold, with settings that mean something.
fn chain(dice: &mut Dice, rows: usize, channels: usize) -> Vec<Row> {
    let mut drawn = catalogue::drawn(dice, 0, 0..0, rows);
    traces::set(dice, &mut drawn, channels);
    drawn
}

/// Any chain over any trace.
pub fn good(dice: &mut Dice) -> Request {
    let draft = Draft::any(dice);
    draft.request(dice)
}

/// One operation, or one on another, over a few channels or constants and the counts at which an
/// operation can go wrong.
pub fn arithmetic(dice: &mut Dice) -> Request {
    let drawn = traces::operations(dice);
    let ticks = dice.between(8, 24);
    let mut draft = Draft::new(dice, &drawn, traces::OPERANDS, ticks);
    draft.values = (0..draft.values.len()).map(|_| traces::count(dice)).collect();
    draft.request(dice)
}

/// A trace that is none: a channel count that there is not, a tick that is not whole, or a channel that
/// the chain reads, or another row, and the trace has not. The output is short now and then.
pub fn no_trace(dice: &mut Dice) -> Request {
    let mut draft = Draft::any(dice);
    match dice.below(4) {
        0 => draft.channels = dice.pick(&[0, 0, 9, 9, 10, 256, 65_536, u32::MAX as usize]),
        1 => uneven(dice, &mut draft.values),
        2 => lose_channel(dice, &mut draft.rows),
        _ => {
            // One channel less than the chain was drawn for, or any other count, and whole ticks again.
            draft.channels = dice.pick(&[draft.channels.saturating_sub(1), 1, MOST_CHANNELS]).max(1);
            draft.values.truncate(draft.ticks() * draft.channels);
        }
    }
    let room = draft.values.len().saturating_sub(usize::from(dice.one_in(3)));
    let words = stores::roomy(dice, &pictures::minimal(&draft.rows));
    draft.row = draft.row.min(words[0] as usize - 1);
    draft.with(dice, words, room)
}

/// Values more or fewer, so that a tick is cut.
fn uneven(dice: &mut Dice, values: &mut Vec<i32>) {
    if dice.one_in(2) {
        values.pop();
    } else {
        values.push(traces::count(dice));
    }
}

/// A channel with a setting that no trace has, or just past those of most.
fn lose_channel(dice: &mut Dice, rows: &mut [Row]) {
    let channels: Vec<usize> = (0..rows.len()).filter(|&row| rows[row].label >> 16 == CHANNEL).collect();
    if !channels.is_empty() {
        rows[dice.pick(&channels)].label = CHANNEL << 16 | dice.pick(&[1, 2, 7, 8, 8, 9, 256, 65_535]);
    }
}

/// An output that is short by one or by more; with no ticks it is still long enough.
pub fn short_output(dice: &mut Dice) -> Request {
    let draft = Draft::any(dice);
    let ticks = draft.ticks();
    let room = if dice.one_in(3) { dice.below(ticks + 1) } else { ticks.saturating_sub(1) };
    let words = stores::roomy(dice, &draft.rows);
    draft.with(dice, words, room)
}

/// A chain with a free operation, a wrong input count or a loop without a hold, or a good one beside
/// such rows; trace and output may be wrong too.
pub fn spoiled(dice: &mut Dice) -> Request {
    let (own, more) = (size(dice).max(1), size(dice));
    let channels = dice.between(1, MOST_CHANNELS);
    let (mut drawn, mut others) = (chain(dice, own, channels), chain(dice, more, channels));
    let beside = dice.one_in(4);
    for _ in 0..dice.pick(&[1, 1, 2]) {
        let by = if dice.one_in(2) { Spoil::Unheld } else { dice.pick(&SPOILS) };
        catalogue::spoil(dice, 0, if beside { &mut others } else { &mut drawn }, by);
    }
    let ticks = dice.pick(&[0, 1, 3, 7]);
    let mut draft = Draft::new(dice, &joined(&drawn, &others), channels, ticks);
    if !dice.one_in(3) {
        uneven(dice, &mut draft.values);
    }
    if dice.one_in(4) {
        draft.channels = dice.pick(&[0, 1, 9]);
    }
    let room = if dice.one_in(4) { 0 } else { draft.values.len() };
    let words = stores::roomy(dice, &draft.rows);
    draft.with(dice, words, room)
}

/// A store that is refused, of no words or no rows, or a row that is not in use; the rest may be wrong
/// too.
pub fn of_store(dice: &mut Dice) -> Request {
    let mut draft = Draft::any(dice);
    let count = draft.rows.len();
    if dice.one_in(3) {
        catalogue::spoil(dice, 0, &mut draft.rows, Spoil::Free);
    }
    let words = match dice.below(5) {
        0 | 1 => stores::spoiled(dice, &draft.rows),
        2 => {
            let length = dice.pick(&[0, 0, 0, 1, 6, 7, 13]);
            let mut words = dice.junk_words(length);
            words.iter_mut().take(1).for_each(|count| *count = 0);
            words
        }
        _ => {
            draft.row = dice.pick(&[count, count, count + 1, 1_024, u32::MAX as usize]);
            stores::roomy(dice, &pictures::minimal(&draft.rows))
        }
    };
    if dice.one_in(4) {
        draft.channels = dice.pick(&[0, 9]);
    }
    let room = dice.pick(&[0, draft.values.len()]);
    draft.with(dice, words, room)
}

/// Up to 1,024 rows: chains of every operation, long loops with a hold and without, and what is drawn
/// deep elsewhere; now and then more ticks than rows, so that what came first comes out.
pub fn deep(dice: &mut Dice) -> Request {
    let count = dice.pick(&[300, MOST_ROWS, MOST_ROWS]);
    let channels = dice.between(2, MOST_CHANNELS);
    let held = !dice.one_in(4);
    let drawn = match dice.below(5) {
        0 => chain(dice, count, channels),
        1 => catalogue::long_chain(count),
        2 => catalogue::long_loop(dice, count, held),
        3 => pictures::chain(count - 1, CHANNEL << 16 | 1),
        _ => dice.pick(&shapes::SHAPES)(count, 1),
    };
    let ticks = if dice.one_in(3) { 1_100.min(WORD_ROOM / channels) } else { dice.between(1, 12) };
    let draft = Draft::new(dice, &drawn, channels, ticks);
    draft.request(dice)
}

/// As many values as there is room for, or nearly, through a few rows with a loop among them.
pub fn long(dice: &mut Dice) -> Request {
    let (rows, channels) = (dice.between(1, 6), dice.between(1, MOST_CHANNELS));
    let mut drawn = chain(dice, rows, channels);
    let least = drawn.len();
    drawn.push(Row { label: HOLD << 16, inputs: vec![dice.below(least)] });
    let ticks = WORD_ROOM / channels - dice.pick(&[0, 0, 1]);
    let draft = Draft::new(dice, &drawn, channels, ticks);
    let room = dice.pick(&[ticks, ticks, WORD_ROOM, WORD_ROOM, ticks - 1]);
    let words = stores::roomy(dice, &draft.rows);
    draft.with(dice, words, room)
}
