//! Which rows have the same tree, after algorithm 2.6 of the paper (Hopcroft's splitting).
//! Classes start as label and input count; a class is then split wherever some of its rows, and
//! not others, reach a splitter (a class and an input position). Of two halves the smaller gets
//! the new class number and goes on the agenda, which keeps the work to n log n.

use crate::faults;
use crate::law::MOST_INPUTS;
use crate::rows::Row;
use std::ops::Range;

/// The class of each row, numbered from 0: two rows have one class when they have one tree.
pub fn classes(rows: &[Row]) -> Vec<usize> {
    faults::classes(rows).unwrap_or_else(|| split(rows))
}

/// Whether no two rows have the same tree.
pub fn all_different(rows: &[Row]) -> bool {
    how_many(&classes(rows)) == rows.len()
}

/// How many classes there are.
pub fn how_many(classes: &[usize]) -> usize {
    classes.iter().max().map_or(0, |last| last + 1)
}

/// The splitting itself, for honest classes and for faults that only change what it is given.
pub fn split(rows: &[Row]) -> Vec<usize> {
    let users = users(rows);
    let mut partition = Partition::by_label_and_count(rows);
    let mut agenda = Vec::new();
    (0..partition.stretch.len()).for_each(|class| put_on(&mut agenda, class));
    while let Some((class, position)) = agenda.pop() {
        let members = partition.members(class).iter();
        let reaching: Vec<usize> = members.flat_map(|&row| &users[position][row]).copied().collect();
        for new in partition.split_by(&reaching) {
            put_on(&mut agenda, new);
        }
    }
    partition.class
}

/// A new class with every input position. The half that kept the old number needs no entry: it
/// stays on the agenda if it was there, and if it was not, the new half alone is enough.
fn put_on(agenda: &mut Vec<(usize, usize)>, class: usize) {
    agenda.extend((0..MOST_INPUTS).map(|position| (class, position)));
}

/// For each input position and each row, the rows that have it there.
fn users(rows: &[Row]) -> Vec<Vec<Vec<usize>>> {
    let mut users = vec![vec![Vec::new(); rows.len()]; MOST_INPUTS];
    for (user, row) in rows.iter().enumerate() {
        for (position, &input) in row.inputs.iter().enumerate() {
            users[position][input].push(user);
        }
    }
    users
}

/// The rows laid out so that each class is one stretch.
struct Partition {
    order: Vec<usize>,
    /// Where each row stands in `order`.
    place: Vec<usize>,
    class: Vec<usize>,
    /// The part of `order` that each class takes.
    stretch: Vec<Range<usize>>,
    /// How many rows at the front of each stretch are marked.
    marked: Vec<usize>,
}

impl Partition {
    fn by_label_and_count(rows: &[Row]) -> Partition {
        let kind = |row: usize| (rows[row].label, rows[row].inputs.len());
        let mut order: Vec<usize> = (0..rows.len()).collect();
        order.sort_by_key(|&row| kind(row));
        let stretch = stretches(&order, |a, b| kind(a) == kind(b));
        let mut partition = Partition {
            place: vec![0; rows.len()],
            class: vec![0; rows.len()],
            marked: vec![0; stretch.len()],
            order,
            stretch,
        };
        (0..rows.len()).for_each(|at| partition.place[partition.order[at]] = at);
        (0..partition.stretch.len()).for_each(|class| partition.name(class));
        partition
    }

    fn members(&self, class: usize) -> &[usize] {
        &self.order[self.stretch[class].clone()]
    }

    /// Gives every row of the class's stretch that class.
    fn name(&mut self, class: usize) {
        for at in self.stretch[class].clone() {
            self.class[self.order[at]] = class;
        }
    }

    /// Splits every class into the rows listed and the others; gives back the new classes.
    fn split_by(&mut self, rows: &[usize]) -> Vec<usize> {
        let mut touched = Vec::new();
        for &row in rows {
            if self.marked[self.class[row]] == 0 {
                touched.push(self.class[row]);
            }
            self.mark(row);
        }
        touched.into_iter().filter_map(|class| self.divide(class)).collect()
    }

    /// Moves a row behind the marked ones at the front of its stretch.
    fn mark(&mut self, row: usize) {
        let class = self.class[row];
        let (from, to) = (self.place[row], self.stretch[class].start + self.marked[class]);
        let other = self.order[to];
        self.order.swap(from, to);
        self.place[row] = to;
        self.place[other] = from;
        self.marked[class] += 1;
    }

    /// Parts the marked rows from the others, if there are both. The smaller half is the new one.
    fn divide(&mut self, class: usize) -> Option<usize> {
        let marked = std::mem::take(&mut self.marked[class]);
        let Range { start, end } = self.stretch[class].clone();
        let middle = start + marked;
        if middle == end {
            return None;
        }
        let front_is_smaller = marked <= end - middle;
        let (new, kept) =
            if front_is_smaller { (start..middle, middle..end) } else { (middle..end, start..middle) };
        self.stretch[class] = kept;
        self.stretch.push(new);
        self.marked.push(0);
        self.name(self.stretch.len() - 1);
        Some(self.stretch.len() - 1)
    }
}

/// The longest stretches of neighbours that are alike.
fn stretches(order: &[usize], alike: impl Fn(usize, usize) -> bool) -> Vec<Range<usize>> {
    let mut found = Vec::new();
    let mut start = 0;
    for at in 1..=order.len() {
        if at == order.len() || !alike(order[at - 1], order[at]) {
            found.push(start..at);
            start = at;
        }
    }
    found
}
