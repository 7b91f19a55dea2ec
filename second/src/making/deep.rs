//! Requests about deep chains and long loops, with up to 1,024 rows in a store and as many in a
//! sheet, because rows that agree very far down are sorted by other steps than most.

use super::inserts::Draft;
use super::{keys, pictures, shapes, stores};
use crate::dice::Dice;
use crate::law::MOST_ROWS;
use crate::requests::Request;
use crate::rows::{walk, Row};

/// How many rows: often as many as there may be.
fn count(dice: &mut Dice) -> usize {
    let any = dice.between(MOST_ROWS / 8, MOST_ROWS);
    dice.pick(&[MOST_ROWS, MOST_ROWS, MOST_ROWS, MOST_ROWS / 2, any])
}

/// The rows of a sound store.
fn rows(dice: &mut Dice) -> Vec<Row> {
    let count = count(dice);
    shapes::any(dice, count, 0)
}

pub fn insert(dice: &mut Dice) -> Request {
    let store = if dice.one_in(8) { Vec::new() } else { rows(dice) };
    let base = store.len();
    let drawn = match dice.below(6) {
        0 => pictures::moved(&store, base),
        1 => in_turns(dice, &store),
        2 | 3 => fresh(dice, base),
        4 => stood_on(dice, &store),
        _ => pictures::over_store(dice, &store, MOST_ROWS),
    };
    let sheet = shapes::ordered(dice, base, &drawn);
    let draft = Draft { store, sheet }.settled(dice);
    let needed = draft.needed();
    let capacity = dice.pick(&[needed, needed, needed + 3, needed.saturating_sub(1), MOST_ROWS]);
    draft.request(dice, capacity.min(MOST_ROWS))
}

/// The store's rows in 1,024 rows of the sheet, so that loops come in several turns.
fn in_turns(dice: &mut Dice, store: &[Row]) -> Vec<Row> {
    if store.is_empty() {
        return Vec::new();
    }
    let base = store.len();
    pictures::unrolled_to(dice, base, &pictures::moved(store, base), MOST_ROWS)
}

/// Rows that the store has not, though many agree with its rows very far down; few enough for the
/// store's room, or 1,024.
fn fresh(dice: &mut Dice, base: usize) -> Vec<Row> {
    let left = MOST_ROWS - base;
    let most = if left >= 64 && dice.one_in(2) { left } else { count(dice) };
    pictures::moved(&shapes::any(dice, most, 2), base)
}

/// Holds one on another, and the last on a row of the store, which may know some of them. They are so many
/// that there is room in a sheet for what that row leads to.
fn stood_on(dice: &mut Dice, store: &[Row]) -> Vec<Row> {
    if store.is_empty() {
        return Vec::new();
    }
    let (base, last) = (store.len(), dice.below(store.len()));
    let count = count(dice).min(MOST_ROWS - walk(store, last).len());
    let hold = |input| Row { label: 6 << 16, inputs: vec![input] };
    (1..=count).map(|at| hold(if at == count { last } else { base + at })).collect()
}

/// A sound store, or one with a row drawn twice.
pub fn check(dice: &mut Dice) -> Request {
    let twice = dice.one_in(3);
    let most = count(dice) - usize::from(twice);
    let mut rows = shapes::any(dice, most, 0);
    if twice {
        rows = pictures::unrolled_to(dice, 0, &rows, rows.len() + 1);
        rows = shapes::ordered(dice, 0, &rows);
    }
    Request::Check { words: stores::roomy(dice, &rows) }
}

pub fn key(dice: &mut Dice) -> Request {
    let rows = rows(dice);
    keys::written_of(dice, &rows)
}

pub fn is_key(dice: &mut Dice) -> Request {
    let rows = rows(dice);
    keys::asked_of(dice, &rows)
}

/// A drawing in two orders, of which one may have another odd row, and a row of each: the same or
/// not far from it.
pub fn compare(dice: &mut Dice) -> Request {
    let (count, shape) = (count(dice), dice.pick(&shapes::SHAPES));
    let odd = dice.pick(&[0, 0, 0, 0, 1, 2]);
    let (first, second) = (shape(count, 0), shape(count, odd));
    let (order, other_order) = (shapes::order(dice, first.len()), shapes::order(dice, first.len()));
    let place = |order: &[usize], row: usize| order.iter().position(|&one| one == row).expect("every row");
    let row = dice.below(first.len());
    let near = (row + dice.pick(&[0, 0, 0, 1, 4])) % first.len();
    Request::Compare {
        first: stores::roomy(dice, &pictures::arranged(0, &first, &order)),
        row: place(&order, row) as u32,
        second: stores::roomy(dice, &pictures::arranged(0, &second, &other_order)),
        other: place(&other_order, near) as u32,
    }
}

pub fn part_of(dice: &mut Dice) -> Request {
    let rows = rows(dice);
    let (whole, part) = (dice.below(rows.len()) as u32, dice.below(rows.len()) as u32);
    Request::PartOf { words: stores::roomy(dice, &rows), whole, part }
}
