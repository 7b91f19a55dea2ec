//! Rows as they are compared: a label, and inputs as places in one list of rows.

use std::ops::Range;

#[derive(Clone, Debug, PartialEq, Eq)]
pub struct Row {
    pub label: u32,
    pub inputs: Vec<usize>,
}

/// Two lists as one: the second list's rows stand after the first's and keep their own inputs.
pub fn joined(first: &[Row], second: &[Row]) -> Vec<Row> {
    let moved = second.iter().map(|row| Row {
        label: row.label,
        inputs: row.inputs.iter().map(|input| input + first.len()).collect(),
    });
    first.iter().cloned().chain(moved).collect()
}

/// The rows reachable from `start`, breadth first, inputs left to right, each when first met.
pub fn walk(rows: &[Row], start: usize) -> Vec<usize> {
    walk_from(rows, start..start + 1)
}

/// The same from several rows.
pub fn walk_from(rows: &[Row], starts: Range<usize>) -> Vec<usize> {
    let mut met = vec![false; rows.len()];
    met[starts.clone()].fill(true);
    let mut order: Vec<usize> = starts.collect();
    let mut next = 0;
    while next < order.len() {
        for &input in &rows[order[next]].inputs {
            if !met[input] {
                met[input] = true;
                order.push(input);
            }
        }
        next += 1;
    }
    order
}
