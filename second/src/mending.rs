//! Mending an old store: spoiled rows go, with all that reach them, wires and rows of one tree become
//! one row, and a list says what each old number is now. All is worked out beside the store, and
//! written as the last act.

use crate::faults::{self, Fault};
use crate::law::{Refusal, DONE, DROPPED, MOST_INPUTS, ROW_WORDS};
use crate::rows::Row;
use crate::{sameness, store, wires};

#[derive(Debug, Default, PartialEq, Eq)]
pub struct Mended {
    pub number: u32,
    /// Rows that are spoiled or reach a spoiled one.
    pub dropped: u32,
    /// Wires that are not dropped.
    pub wires: u32,
    /// Rows that are neither, with the tree of a lower such row.
    pub merged: u32,
    /// Unused input words of rows not dropped that were not zero.
    pub cleared: u32,
}

pub fn mend(words: &mut [u32], list: &mut [u32]) -> Mended {
    match plan(words, list.len()) {
        Err(refusal) => Mended { number: refusal.number(), ..Mended::default() },
        Ok(plan) => {
            write_rows(words, plan.entries.len(), &plan.rows);
            list[..plan.entries.len()].copy_from_slice(&plan.entries);
            plan.counts
        }
    }
}

/// What is written: the rows kept, and an entry of the list for each row taken.
struct Plan {
    rows: Vec<Row>,
    entries: Vec<u32>,
    counts: Mended,
}

/// Tests 1 and 16; nothing is written yet.
fn plan(words: &[u32], entries: usize) -> Result<Plan, Refusal> {
    let count = *words.first().ok_or(Refusal::NoWords)?;
    let taken = store::capacity(words).min(count as usize);
    if entries < taken {
        return Err(Refusal::ShortList);
    }
    let old: Vec<Option<Row>> =
        (0..taken).map(|number| readable(store::row_words(words, number), taken)).collect();
    let dropped = dropped(&old);
    let left: Vec<usize> = (0..taken).filter(|&row| !dropped[row]).collect();
    let rows = gathered(&old, &left);
    let skipped = wires::skipped(&rows);
    let classes = sameness::classes(&skipped);
    let (numbers, firsts) = numbered(&rows, &classes);
    let mut entries = vec![DROPPED; taken];
    left.iter().zip(&numbers).for_each(|(&row, &number)| entries[row] = number as u32);
    let renumbered = |&row: &usize| Row {
        label: skipped[row].label,
        inputs: skipped[row].inputs.iter().map(|&input| numbers[input]).collect(),
    };
    let cleared = left.iter().map(|&row| unused_set(store::row_words(words, row))).sum();
    let dropped = (taken - left.len()) as u32;
    let counts = Mended { dropped, cleared, ..counted(&rows, &classes) };
    Ok(Plan { rows: firsts.iter().map(renumbered).collect(), entries, counts })
}

/// The row of these words, whatever its unused words are; nothing where it is spoiled by itself: by
/// its input count, by an input that is not taken, or as a wire that has not one input.
fn readable(words: &[u32], taken: usize) -> Option<Row> {
    let (label, count) = (words[0], words[1] as usize);
    let inputs = words[2..].get(..count)?;
    let astray = inputs.iter().any(|&input| input as usize >= taken);
    let wrong_wire = wires::is_wire(label) && count != 1;
    (!astray && !wrong_wire)
        .then(|| Row { label, inputs: inputs.iter().map(|&input| input as usize).collect() })
}

/// Which rows are spoiled or lead to a spoiled one: from the spoiled ones back to all that use them.
fn dropped(old: &[Option<Row>]) -> Vec<bool> {
    let mut gone: Vec<bool> = old.iter().map(Option::is_none).collect();
    endless(old).for_each(|row| gone[row] = true);
    let users = users(old);
    let mut next: Vec<usize> = (0..old.len()).filter(|&row| gone[row]).collect();
    while let Some(row) = next.pop() {
        for &user in users[row].iter().filter(|&&user| !std::mem::replace(&mut gone[user], true)) {
            if !faults::planted(Fault::DroppedOneStep) {
                next.push(user);
            }
        }
    }
    gone
}

/// The wires that lead round for ever, in a loop of wires or into one. A row that is spoiled by itself
/// ends a way here; what leads there goes anyhow.
fn endless(old: &[Option<Row>]) -> impl Iterator<Item = usize> {
    let end = Row { label: 0, inputs: Vec::new() };
    let rows: Vec<Row> = old.iter().map(|row| row.clone().unwrap_or_else(|| end.clone())).collect();
    (0..rows.len()).filter(move |&row| wires::end(&rows, row).is_none())
}

/// For each row, the rows that have it as an input.
fn users(old: &[Option<Row>]) -> Vec<Vec<usize>> {
    let looked_at = if faults::planted(Fault::FirstInputOnly) { 1 } else { MOST_INPUTS };
    let mut users = vec![Vec::new(); old.len()];
    for (user, row) in old.iter().enumerate() {
        let inputs = row.iter().flat_map(|row| row.inputs.iter().take(looked_at));
        inputs.for_each(|&input| users[input].push(user));
    }
    users
}

/// The rows left, one behind another.
fn gathered(old: &[Option<Row>], left: &[usize]) -> Vec<Row> {
    let mut place = vec![0; old.len()];
    left.iter().enumerate().for_each(|(at, &row)| place[row] = at);
    let kept = left.iter().filter_map(|&row| old[row].as_ref());
    kept.map(|row| Row { label: row.label, inputs: row.inputs.iter().map(|&input| place[input]).collect() })
        .collect()
}

/// The number of each row left, and the first row of each number. Trees are numbered as they first
/// appear, and a wire is an appearance of what it leads to.
fn numbered(rows: &[Row], classes: &[usize]) -> (Vec<usize>, Vec<usize>) {
    let mut of_class = vec![None; sameness::how_many(classes)];
    let mut firsts = Vec::new();
    for row in appearances(rows) {
        of_class[classes[row]].get_or_insert_with(|| {
            firsts.push(row);
            firsts.len() - 1
        });
    }
    let number = |&class: &usize| of_class[class].expect("every row appears");
    (classes.iter().map(number).collect(), firsts)
}

/// The rows in the order in which they count: their own.
fn appearances(rows: &[Row]) -> Vec<usize> {
    let mut order: Vec<usize> = (0..rows.len()).collect();
    if faults::planted(Fault::NumberedByBoxes) {
        order.sort_by_key(|&row| wires::is_wire(rows[row].label));
    }
    order
}

/// How many of the rows left are wires, and how many of the others have the tree of a lower other.
fn counted(rows: &[Row], classes: &[usize]) -> Mended {
    let mut met = vec![false; sameness::how_many(classes)];
    let (mut wires, mut merged) = (0, 0);
    for (row, &class) in rows.iter().zip(classes) {
        if wires::is_wire(row.label) {
            wires += 1;
        } else {
            merged += u32::from(std::mem::replace(&mut met[class], true));
        }
    }
    if faults::planted(Fault::WiresAsMerged) {
        return Mended { number: DONE, merged: merged + wires, ..Mended::default() };
    }
    Mended { number: DONE, wires, merged, ..Mended::default() }
}

/// How many of a row's unused input words are not zero.
fn unused_set(words: &[u32]) -> u32 {
    let unused = words[2..].iter().skip(words[1] as usize);
    let set = unused.filter(|&&word| word != 0).count() as u32;
    if faults::planted(Fault::ClearedRows) {
        return set.min(1);
    }
    set
}

/// The count, the rows, and zero in the words of the rows that are free now.
fn write_rows(words: &mut [u32], taken: usize, rows: &[Row]) {
    words[0] = rows.len() as u32;
    rows.iter().enumerate().for_each(|(number, row)| store::write_row(words, number, row));
    if !faults::planted(Fault::FreedRowsLeft) {
        words[1 + rows.len() * ROW_WORDS..1 + taken * ROW_WORDS].fill(0);
    }
}
