//! Rows drawn for stores and sheets. A sheet drawn over a store has `base` store rows before it:
//! an input below `base` is that store row, any other is a row of the sheet.

use crate::dice::Dice;
use crate::rows::{walk, walk_from, Row};
use crate::sameness;
use crate::wires::{is_wire, skipped};

/// Labels from here on are for floors alone, so that their trees are not met on the ground.
const FLOOR: u32 = 6 << 16 | 40;

/// A few labels with the input count each usually has, so that different rows often share both.
struct Palette(Vec<(u32, usize)>);

impl Palette {
    fn draw(dice: &mut Dice) -> Palette {
        let colours = dice.between(1, 4);
        let mut palette = Palette((0..colours).map(|_| colour(dice)).collect());
        if dice.one_in(4) {
            palette.nearly_one(dice);
        }
        palette
    }

    /// All become one label of any 32 bits, with one bit turned in each but the first, so that
    /// every bit of a label matters.
    fn nearly_one(&mut self, dice: &mut Dice) {
        let first = (some_label(dice), self.0[0].1);
        self.0.iter_mut().for_each(|colour| *colour = (turned(dice, first.0), first.1));
        self.0[0] = first;
    }

    /// A label and an input count; now and then not the usual one, so that the count matters.
    fn throw(&self, dice: &mut Dice) -> (u32, usize) {
        let (label, usual) = dice.pick(&self.0);
        (label, if dice.one_in(6) { dice.between(0, 4) } else { usual })
    }
}

/// Any 32 bits that are no wire's label: wires are drawn on purpose alone.
fn some_label(dice: &mut Dice) -> u32 {
    let label = dice.word();
    if is_wire(label) {
        label ^ 1 << 31
    } else {
        label
    }
}

/// The label with one bit turned, often the highest; its lowest where it would be a wire's.
fn turned(dice: &mut Dice, label: u32) -> u32 {
    let other = label ^ 1 << if dice.one_in(4) { 31 } else { dice.below(32) };
    if is_wire(other) {
        label ^ 1
    } else {
        other
    }
}

fn colour(dice: &mut Dice) -> (u32, usize) {
    let operation = dice.between(1, 6);
    let setting = dice.pick(&[0, 0, 1, 2, 7]);
    let usual = match operation {
        1 | 2 => 0,
        5 | 6 => 1,
        _ => dice.between(2, 4),
    };
    ((operation as u32) << 16 | setting, usual)
}

/// Some drawing of about `size` rows that uses no store and has no wires; now and then with other
/// labels throughout, which changes no sameness.
pub fn any(dice: &mut Dice, size: usize) -> Vec<Row> {
    let mut rows = match (size, dice.below(6)) {
        (0, _) => Vec::new(),
        (_, 0) => branches(dice, size),
        (_, 1) => ring(dice, size),
        (_, 2) => rings(dice, size),
        _ => tangle(dice, size),
    };
    let turned = if dice.one_in(8) { dice.word() } else { 0 };
    if !rows.iter().any(|row| is_wire(row.label ^ turned)) {
        rows.iter_mut().for_each(|row| row.label ^= turned);
    }
    rows
}

/// Inputs anywhere, so that loops cross each other.
pub fn tangle(dice: &mut Dice, size: usize) -> Vec<Row> {
    let palette = Palette::draw(dice);
    let mut rows = Vec::new();
    for _ in 0..size {
        let (label, count) = palette.throw(dice);
        rows.push(Row { label, inputs: (0..count).map(|_| dice.below(size)).collect() });
    }
    rows
}

/// Inputs only further on, so that there is no loop.
pub fn branches(dice: &mut Dice, size: usize) -> Vec<Row> {
    let palette = Palette::draw(dice);
    let mut rows = Vec::new();
    for row in 0..size {
        let (label, count) = palette.throw(dice);
        let count = if row + 1 == size { 0 } else { count };
        rows.push(Row { label, inputs: (0..count).map(|_| dice.between(row + 1, size - 1)).collect() });
    }
    rows
}

/// One loop of a few labels drawn in several turns; sometimes one row breaks the pattern, so that
/// the others differ only as far on as that row.
fn ring(dice: &mut Dice, size: usize) -> Vec<Row> {
    let period = dice.between(1, size.min(4));
    let length = size / period * period;
    let labels: Vec<u32> =
        (0..period).map(|_| (dice.between(5, 6) as u32) << 16 | dice.below(2) as u32).collect();
    let twice = dice.one_in(3);
    let mut rows = Vec::new();
    for row in 0..length {
        let next = (row + 1) % length;
        rows.push(Row {
            label: labels[row % period],
            inputs: if twice { vec![next, row] } else { vec![next] },
        });
    }
    if dice.one_in(3) {
        let row = dice.below(length);
        rows[row].label = turned(dice, rows[row].label);
    }
    rows
}

/// A loop of one to three labels drawn in two turns or more, and nothing else, so that no leaf
/// helps to show which rows are one.
pub fn turns(dice: &mut Dice) -> Vec<Row> {
    let period = dice.between(1, 3);
    let length = period * dice.between(2, 4);
    let label = |row: usize| 6 << 16 | (row % period) as u32;
    (0..length).map(|row| Row { label: label(row), inputs: vec![(row + 1) % length] }).collect()
}

/// Two loops side by side.
fn rings(dice: &mut Dice, size: usize) -> Vec<Row> {
    if size < 2 {
        return ring(dice, size);
    }
    let part = dice.between(1, size - 1);
    let (first, second) = (ring(dice, part), ring(dice, size - part));
    crate::rows::joined(&first, &second)
}

/// A chain of holds that ends in the given label, so that two of them differ only at the end.
pub fn chain(length: usize, end: u32) -> Vec<Row> {
    let hold = |row| Row { label: 6 << 16, inputs: vec![row + 1] };
    (0..length).map(hold).chain([Row { label: end, inputs: Vec::new() }]).collect()
}

/// Exactly `count` rows of as many trees, in any order.
pub fn different(dice: &mut Dice, count: usize) -> Vec<Row> {
    let size = dice.between(count / 2, count);
    let ground = minimal(&any(dice, size));
    let floor = if count < 40 || dice.one_in(8) { tower_row } else { heap_row };
    built_up(dice, ground, floor, count)
}

/// The same, with rows that differ after a few inputs.
pub fn different_but_shallow(dice: &mut Dice, count: usize) -> Vec<Row> {
    let ground = minimal(&tangle(dice, count / 2));
    built_up(dice, ground, heap_row, count)
}

/// Floors upon the ground until there are `count` rows, then all in any order.
fn built_up(dice: &mut Dice, ground: Vec<Row>, floor: Floor, count: usize) -> Vec<Row> {
    let lowest = ground.len();
    let mut rows = ground;
    for height in 0..count - lowest {
        rows.push(floor(dice, lowest, height));
    }
    permuted(dice, 0, &rows)
}

/// A row that stands on the rows of the ground and the floors below it, and is unlike all of them.
type Floor = fn(&mut Dice, usize, usize) -> Row;

/// Each floor stands on the one before, so its way down along the first inputs is longest.
fn tower_row(dice: &mut Dice, ground: usize, floor: usize) -> Row {
    let inputs = if floor == 0 { Vec::new() } else { vec![ground + floor - 1, dice.below(ground + floor)] };
    Row { label: FLOOR, inputs }
}

/// Each floor stands on the half of its number, and its labels on the way down spell the number.
fn heap_row(dice: &mut Dice, ground: usize, floor: usize) -> Row {
    let below = ground + floor.saturating_sub(1) / 2;
    let inputs = if floor == 0 { Vec::new() } else { vec![below, dice.below(ground + floor)] };
    Row { label: FLOOR + (floor % 2) as u32, inputs }
}

/// One row for each tree, numbered by its first row.
pub fn minimal(rows: &[Row]) -> Vec<Row> {
    let classes = sameness::classes(rows);
    let mut number = vec![None; sameness::how_many(&classes)];
    let mut firsts = Vec::new();
    for (row, &class) in classes.iter().enumerate() {
        if number[class].is_none() {
            number[class] = Some(firsts.len());
            firsts.push(row);
        }
    }
    let place = |input: &usize| number[classes[*input]].expect("every class has a first row");
    let kept =
        |&row: &usize| Row { label: rows[row].label, inputs: rows[row].inputs.iter().map(place).collect() };
    firsts.iter().map(kept).collect()
}

/// The same rows in another order.
pub fn permuted(dice: &mut Dice, base: usize, rows: &[Row]) -> Vec<Row> {
    let order = dice.order(rows.len());
    arranged(base, rows, &order)
}

/// The same rows, the one that the order names first at the front, and so on.
pub fn arranged(base: usize, rows: &[Row], order: &[usize]) -> Vec<Row> {
    let mut place = vec![0; rows.len()];
    order.iter().enumerate().for_each(|(at, &row)| place[row] = base + at);
    order
        .iter()
        .map(|&row| redirected(&rows[row], |input| if input < base { input } else { place[input - base] }))
        .collect()
}

/// A sheet over store rows that are put into this order: its own rows stay where they are.
pub fn over_arranged(rows: &[Row], order: &[usize]) -> Vec<Row> {
    let mut place = vec![0; order.len()];
    order.iter().enumerate().for_each(|(at, &row)| place[row] = at);
    rows.iter().map(|row| redirected(row, |input| place.get(input).copied().unwrap_or(input))).collect()
}

/// The same trees with up to `most` rows: some rows drawn several times, inputs to any copy.
pub fn unrolled(dice: &mut Dice, base: usize, rows: &[Row], most: usize) -> Vec<Row> {
    if rows.is_empty() || rows.len() >= most {
        return rows.to_vec();
    }
    let more = dice.between(1, (2 * rows.len()).min(most - rows.len()));
    unrolled_to(dice, base, rows, rows.len() + more)
}

/// The same trees with exactly `size` rows, which must be no fewer than there are.
pub fn unrolled_to(dice: &mut Dice, base: usize, rows: &[Row], size: usize) -> Vec<Row> {
    let mut copied: Vec<usize> = (0..rows.len()).collect();
    copied.extend((rows.len()..size).map(|_| dice.below(rows.len())));
    let mut copies = vec![Vec::new(); rows.len()];
    copied.iter().enumerate().for_each(|(at, &row)| copies[row].push(base + at));
    let any_copy = |dice: &mut Dice, input: usize| {
        if input < base {
            input
        } else {
            dice.pick(&copies[input - base])
        }
    };
    copied.iter().map(|&row| redirected(&rows[row], |input| any_copy(dice, input))).collect()
}

fn redirected(row: &Row, way: impl FnMut(usize) -> usize) -> Row {
    Row { label: row.label, inputs: row.inputs.iter().copied().map(way).collect() }
}

/// A sheet of at most `most` rows over a store: fresh, tied to store rows, copied from the store,
/// or copied with new rows on top; then sometimes unrolled, permuted and with store numbers.
pub fn over_store(dice: &mut Dice, store: &[Row], most: usize) -> Vec<Row> {
    if most == 0 {
        return Vec::new();
    }
    let base = store.len();
    let size = dice.between(most.div_ceil(3), most);
    let mut rows = match dice.below(5) {
        0 => moved(&any(dice, size), base),
        1 => tied(dice, base, size),
        2 => copied(dice, store, size),
        _ => {
            let under = copied(dice, store, size / 2 + 1);
            topped(dice, base, under, size)
        }
    };
    if dice.one_in(2) {
        rows = unrolled(dice, base, &rows, most);
    }
    if dice.one_in(2) {
        rows = permuted(dice, base, &rows);
    }
    if dice.one_in(3) {
        rows = leaning(dice, store, &rows);
    }
    rows
}

/// The sheet without store numbers: the store rows that it reaches are drawn again behind its own rows, as
/// they are met. Where there would be more than `most` rows, inputs of the store become rows of the sheet
/// instead, which makes other trees.
pub fn drawn_out(store: &[Row], rows: &[Row], most: usize) -> Vec<Row> {
    let base = store.len();
    let all: Vec<Row> = store.iter().chain(rows).cloned().collect();
    let met: Vec<usize> = walk_from(&all, base..all.len()).into_iter().filter(|&row| row < base).collect();
    let (own, count) = (rows.len(), rows.len() + met.len());
    if count > most {
        let turned = |input| if input < base { base + input % own } else { input };
        return rows.iter().map(|row| redirected(row, turned)).collect();
    }
    let mut place: Vec<usize> = (0..all.len()).collect();
    met.iter().enumerate().for_each(|(at, &row)| place[row] = base + own + at);
    (base..all.len()).chain(met).map(|row| redirected(&all[row], |input| place[input])).collect()
}

/// A drawing set behind the store.
pub fn moved(rows: &[Row], base: usize) -> Vec<Row> {
    rows.iter().map(|row| redirected(row, |input| input + base)).collect()
}

/// A drawing of which some inputs are store rows instead.
fn tied(dice: &mut Dice, base: usize, size: usize) -> Vec<Row> {
    let rows = moved(&any(dice, size), base);
    let mut tie = |input| {
        if base > 0 && dice.one_in(3) {
            dice.below(base)
        } else {
            input
        }
    };
    rows.iter().map(|row| redirected(row, &mut tie)).collect()
}

/// The first rows of the walk from a store row, drawn again. Past the last copy, inputs are store
/// rows, so every row of the sheet is known.
pub fn copied(dice: &mut Dice, store: &[Row], most: usize) -> Vec<Row> {
    if store.is_empty() {
        return Vec::new();
    }
    let order = walk(store, dice.below(store.len()));
    let taken = &order[..order.len().min(most)];
    let mut place: Vec<usize> = (0..store.len()).collect();
    taken.iter().enumerate().for_each(|(at, &row)| place[row] = store.len() + at);
    taken.iter().map(|&row| redirected(&store[row], |input| place[input])).collect()
}

/// New rows, up to `size` in all, that use the rows given and the store, and that these do not use.
fn topped(dice: &mut Dice, base: usize, mut rows: Vec<Row>, size: usize) -> Vec<Row> {
    let palette = Palette::draw(dice);
    let places = base + rows.len().max(size);
    for _ in rows.len()..size {
        let (label, count) = palette.throw(dice);
        rows.push(Row { label, inputs: (0..count).map(|_| dice.below(places)).collect() });
    }
    rows
}

/// The same trees with some inputs written as store numbers where the store has their tree.
fn leaning(dice: &mut Dice, store: &[Row], rows: &[Row]) -> Vec<Row> {
    let all: Vec<Row> = store.iter().chain(rows).cloned().collect();
    let classes = sameness::classes(&all);
    let mut known = vec![None; sameness::how_many(&classes)];
    (0..store.len()).for_each(|row| known[classes[row]] = Some(row));
    let mut lean = |input: usize| {
        if dice.one_in(2) {
            known[classes[input]].unwrap_or(input)
        } else {
            input
        }
    };
    rows.iter().map(|row| redirected(row, &mut lean)).collect()
}

/// How many trees the sheet has that the store has not.
pub fn new_trees(store: &[Row], sheet: &[Row]) -> usize {
    let all: Vec<Row> = store.iter().chain(sheet).cloned().collect();
    sameness::how_many(&sameness::classes(&skipped(&all))) - store.len()
}
