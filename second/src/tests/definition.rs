//! The splitting against the definition of agreement, depth by depth, pair by pair; and what wires
//! and ways mean, straight from the rules.

use crate::dice::Dice;
use crate::rows::Row;
use crate::sameness::classes;

/// A table of which rows agree.
pub type Agreement = Vec<Vec<bool>>;

pub fn at_depth_0(rows: &[Row]) -> Agreement {
    let agree = |a: &Row, b: &Row| a.label == b.label && a.inputs.len() == b.inputs.len();
    rows.iter().map(|a| rows.iter().map(|b| agree(a, b)).collect()).collect()
}

/// Agreement one depth further than the table given.
pub fn one_deeper(rows: &[Row], before: &Agreement) -> Agreement {
    let zero = at_depth_0(rows);
    let inputs = |a: usize, b: usize| {
        let mut pairs = rows[a].inputs.iter().zip(&rows[b].inputs);
        pairs.all(|(&x, &y)| before[x][y])
    };
    let places = 0..rows.len();
    let line = |a: usize| places.clone().map(|b| zero[a][b] && inputs(a, b)).collect();
    places.clone().map(line).collect()
}

/// Agreement at every depth: once a depth changes nothing, no later one does.
pub fn at_every_depth(rows: &[Row]) -> Agreement {
    let mut table = at_depth_0(rows);
    loop {
        let next = one_deeper(rows, &table);
        if next == table {
            return table;
        }
        table = next;
    }
}

pub fn is_wire(row: &Row) -> bool {
    row.label / 65_536 == 7
}

/// The rows with wires skipped, a step at a time: an input that is a wire becomes what that wire leads
/// to, as often as there are rows, and then each wire becomes the row that it leads to.
pub fn with_wires_skipped(rows: &[Row]) -> Vec<Row> {
    let mut rows = rows.to_vec();
    for _ in 0..rows.len() {
        let before = rows.clone();
        let on = |input: usize| if is_wire(&before[input]) { before[input].inputs[0] } else { input };
        rows.iter_mut().flat_map(|row| &mut row.inputs).for_each(|input| *input = on(*input));
    }
    let ends = rows.clone();
    rows.iter_mut().filter(|row| is_wire(row)).for_each(|row| *row = ends[row.inputs[0]].clone());
    rows
}

/// Which rows lead to which in one step or more, where steps are taken from some rows alone.
pub fn closed(rows: &[Row], from: impl Fn(&Row) -> bool) -> Vec<Vec<bool>> {
    let step = |row: &Row| (0..rows.len()).map(|to| from(row) && row.inputs.contains(&to)).collect();
    let mut leads: Vec<Vec<bool>> = rows.iter().map(step).collect();
    for middle in 0..rows.len() {
        let on = leads[middle].clone();
        for way in leads.iter_mut().filter(|way| way[middle]) {
            way.iter_mut().zip(&on).for_each(|(leads, &more)| *leads |= more);
        }
    }
    leads
}

/// 14, 15 or neither.
pub fn wires_verdict(rows: &[Row]) -> u32 {
    if rows.iter().any(|row| is_wire(row) && row.inputs.len() != 1) {
        return 14;
    }
    let leads = closed(rows, is_wire);
    if (0..rows.len()).any(|row| leads[row][row]) {
        return 15;
    }
    0
}

fn as_table(classes: &[usize]) -> Agreement {
    classes.iter().map(|a| classes.iter().map(|b| a == b).collect()).collect()
}

/// Few labels and few rows, so that many rows have one tree.
fn thrown_rows(dice: &mut Dice, count: usize) -> Vec<Row> {
    let labels = dice.between(1, 3);
    let fullest = dice.between(0, 4);
    let row = |dice: &mut Dice| {
        let inputs = dice.between(fullest / 2, fullest);
        Row { label: dice.below(labels) as u32, inputs: (0..inputs).map(|_| dice.below(count)).collect() }
    };
    (0..count).map(|_| row(dice)).collect()
}

#[test]
fn small_drawings() {
    for index in 0..4_000 {
        let mut dice = Dice::new(1, index);
        let count = dice.below(13);
        let rows = thrown_rows(&mut dice, count);
        assert_eq!(as_table(&classes(&rows)), at_every_depth(&rows), "drawing {index}: {rows:?}");
    }
}

#[test]
fn larger_drawings() {
    for index in 0..60 {
        let mut dice = Dice::new(2, index);
        let count = dice.between(30, 90);
        let rows = thrown_rows(&mut dice, count);
        assert_eq!(as_table(&classes(&rows)), at_every_depth(&rows), "drawing {index}");
    }
}

/// Rings whose rows differ only as far on as one row that breaks the pattern.
#[test]
fn broken_rings() {
    for length in 1..60 {
        for broken in [0, length / 2, length - 1] {
            let label = |row| u32::from(row == broken && length % 3 == 0);
            let rows: Vec<Row> =
                (0..length).map(|row| Row { label: label(row), inputs: vec![(row + 1) % length] }).collect();
            assert_eq!(as_table(&classes(&rows)), at_every_depth(&rows), "length {length}");
        }
    }
}

#[test]
fn classes_are_numbered_without_gaps() {
    for index in 0..200 {
        let mut dice = Dice::new(3, index);
        let rows = thrown_rows(&mut dice, 12);
        let mut found = classes(&rows);
        found.sort_unstable();
        found.dedup();
        assert!(found.iter().copied().eq(0..found.len()));
    }
}

/// The rules' chain of hold, hold, channel.
#[test]
fn agreement_by_depth() {
    let row = |label, inputs: &[usize]| Row { label, inputs: inputs.to_vec() };
    let rows = [row(super::HOLD, &[1]), row(super::HOLD, &[2]), row(super::CHANNEL_1, &[])];
    let zero = at_depth_0(&rows);
    assert!(zero[0][1]);
    assert!(!one_deeper(&rows, &zero)[0][1]);
    let classes = classes(&rows);
    assert_ne!(classes[0], classes[1]);
}
