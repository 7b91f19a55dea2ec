//! Requests that ask about rows of stores: checking, comparing, and part-of.

use super::{pictures, size, stores};
use crate::dice::Dice;
use crate::law::MOST_ROWS;
use crate::requests::Request;
use crate::rows::{self, Row};

/// A sound store.
pub fn check_sound(dice: &mut Dice) -> Request {
    let size = size(dice);
    let rows = stores::rows(dice, size);
    Request::Check { words: stores::roomy(dice, &rows) }
}

pub fn check_spoiled(dice: &mut Dice) -> Request {
    let size = size(dice);
    let rows = stores::rows(dice, size);
    Request::Check { words: stores::spoiled(dice, &rows) }
}

/// No words, one, six, or a few; the count is 0 or more than there is room for.
pub fn check_tiny(dice: &mut Dice) -> Request {
    let length = dice.pick(&[0, 1, 6, 7, 13]);
    let mut words = dice.junk_words(length);
    if let Some(count) = words.first_mut() {
        *count = dice.pick(&[0, 0, 1, u32::MAX]);
    }
    Request::Check { words }
}

/// 6,200 words with 1,024 or 1,025 rows in use, or with a tree drawn twice.
pub fn check_at_the_limits(dice: &mut Dice) -> Request {
    let count = MOST_ROWS + dice.pick(&[0, 0, 1]);
    let mut rows = pictures::different(dice, count);
    if dice.one_in(3) {
        let (row, other) = (dice.below(count), dice.below(count));
        rows[row] = rows[other].clone();
    }
    Request::Check { words: stores::with_words(dice, &rows, 6_200) }
}

/// Two stores that number the same trees differently, each with some of its own, and a row of each.
pub fn renumbered(dice: &mut Dice) -> Request {
    let size = size(dice).max(1);
    let shared = stores::rows(dice, size);
    let order = dice.order(shared.len());
    let mut place = vec![0; shared.len()];
    order.iter().enumerate().for_each(|(at, &row)| place[row] = at);
    let moved = |&row: &usize| Row {
        label: shared[row].label,
        inputs: shared[row].inputs.iter().map(|&input| place[input]).collect(),
    };
    let again: Vec<Row> = order.iter().map(moved).collect();
    let row = dice.below(shared.len());
    let other = if dice.one_in(4) { dice.below(shared.len()) } else { place[row] };
    let second = with_more(dice, again);
    asked(dice, &shared, row, &second, other)
}

/// A few more trees behind the rows, which keep their numbers.
fn with_more(dice: &mut Dice, mut rows: Vec<Row>) -> Vec<Row> {
    let more = dice.pick(&[0, 0, 2, 5]);
    let fresh = pictures::any(dice, more);
    let all = rows::joined(&rows, &fresh);
    // Left as they were if one of the new trees is known, because then two rows would be one.
    if crate::sameness::all_different(&all) {
        rows = all;
    }
    rows
}

fn asked(dice: &mut Dice, first: &[Row], row: usize, second: &[Row], other: usize) -> Request {
    Request::Compare {
        first: stores::roomy(dice, first),
        row: row as u32,
        second: stores::roomy(dice, second),
        other: other as u32,
    }
}

/// Two chains that are one down to the last row, which may differ in label.
pub fn deep(dice: &mut Dice) -> Request {
    let length = if dice.one_in(10) { dice.between(50, 200) } else { dice.between(3, 30) };
    let end = dice.pick(&[2 << 16 | 1, 2 << 16 | 2]);
    let first = pictures::chain(length, 2 << 16 | 1);
    let second = pictures::chain(length, end);
    let row = dice.below(length);
    let other = if dice.one_in(5) { dice.below(length) } else { row };
    asked(dice, &first, row, &second, other)
}

/// Two stores drawn apart from few labels, so that small trees are sometimes one.
pub fn apart(dice: &mut Dice) -> Request {
    let (one, two) = (size(dice).max(1), size(dice).max(1));
    let (first, second) = (stores::rows(dice, one), stores::rows(dice, two));
    let (row, other) = (dice.below(first.len()), dice.below(second.len()));
    asked(dice, &first, row, &second, other)
}

/// Numbers out of use on either side or both.
pub fn compare_not_in_use(dice: &mut Dice) -> Request {
    let (one, two) = (size(dice), size(dice));
    let (first, second) = (stores::rows(dice, one), stores::rows(dice, two));
    let (row, other) = (near_the_end(dice, first.len()), near_the_end(dice, second.len()));
    Request::Compare { first: stores::roomy(dice, &first), row, second: stores::roomy(dice, &second), other }
}

/// A number that is in use or just past that, or far from it.
fn near_the_end(dice: &mut Dice, count: usize) -> u32 {
    let count = count as u32;
    dice.pick(&[0, count.saturating_sub(1), count, count + 1, u32::MAX])
}

/// Stores that are refused, one of them or both, with numbers that may be out of use as well.
pub fn compare_spoiled(dice: &mut Dice) -> Request {
    let (one, two) = (size(dice), size(dice));
    let (first, second) = (stores::rows(dice, one), stores::rows(dice, two));
    let (row, other) = (near_the_end(dice, first.len()), near_the_end(dice, second.len()));
    let which = dice.below(4);
    let first = if which == 1 { stores::roomy(dice, &first) } else { stores::spoiled(dice, &first) };
    let second = if which == 2 { stores::roomy(dice, &second) } else { stores::spoiled(dice, &second) };
    Request::Compare { first, row, second, other }
}

/// Two full stores that are one but for their numbers.
pub fn compare_at_the_limits(dice: &mut Dice) -> Request {
    let first = pictures::different(dice, MOST_ROWS);
    let second = pictures::permuted(dice, 0, &first);
    let row = dice.below(MOST_ROWS);
    let label = |other: &usize| second[*other].label == first[row].label;
    let other = (0..MOST_ROWS).filter(label).nth(dice.below(3)).unwrap_or(0);
    asked(dice, &first, row, &second, other)
}

/// A part that is reached, asked for either way round; often without loops, so that the way back
/// is closed.
pub fn part_reached(dice: &mut Dice) -> Request {
    let size = size(dice).max(1);
    let drawn = if dice.one_in(2) { pictures::branches(dice, size) } else { pictures::any(dice, size) };
    let rows = pictures::permuted(dice, 0, &pictures::minimal(&drawn));
    let whole = dice.below(rows.len());
    let part = dice.pick(&rows::walk(&rows, whole));
    let (whole, part) = if dice.one_in(2) { (whole, part) } else { (part, whole) };
    Request::PartOf { words: stores::roomy(dice, &rows), whole: whole as u32, part: part as u32 }
}

/// Any two numbers, in use or not.
pub fn part_anyhow(dice: &mut Dice) -> Request {
    let size = size(dice);
    let rows = stores::rows(dice, size);
    let (whole, part) = (some_number(dice, rows.len()), some_number(dice, rows.len()));
    Request::PartOf { words: stores::roomy(dice, &rows), whole, part }
}

/// A store that is refused, with numbers that may be out of use as well.
pub fn part_spoiled(dice: &mut Dice) -> Request {
    let size = size(dice);
    let rows = stores::rows(dice, size);
    let (whole, part) = (some_number(dice, rows.len()), some_number(dice, rows.len()));
    Request::PartOf { words: stores::spoiled(dice, &rows), whole, part }
}

/// A number of which about one in five is not in use.
fn some_number(dice: &mut Dice, count: usize) -> u32 {
    if count == 0 || dice.one_in(5) {
        return near_the_end(dice, count);
    }
    dice.below(count) as u32
}
