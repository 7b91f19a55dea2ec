//! The operations on stores and sheets. Each works its answer out from what it reads and writes to
//! lent memory only as its last act, so a refusal cannot change anything.

use crate::faults::{self, Fault};
use crate::law::{Refusal, Refused, DONE};
use crate::rows::{self, Row};
use crate::sheet::{self, SheetRow};
use crate::{sameness, store, strict, wires};

#[derive(Debug, PartialEq, Eq)]
pub struct Inserted {
    pub number: u32,
    pub added: u32,
    /// The byte of the sheet at which its fault starts; 0 unless the number is 3 to 6.
    pub place: usize,
}

#[derive(Debug, PartialEq, Eq)]
pub struct SheetRead {
    pub number: u32,
    /// As an insert has it.
    pub place: usize,
}

#[derive(Debug, PartialEq, Eq)]
pub struct Written {
    pub number: u32,
    pub bytes: u32,
}

#[derive(Debug, PartialEq, Eq)]
pub struct Answer {
    pub number: u32,
    pub yes: bool,
}

impl From<Result<bool, Refusal>> for Answer {
    fn from(result: Result<bool, Refusal>) -> Answer {
        match result {
            Ok(yes) => Answer { number: DONE, yes },
            Err(refusal) => Answer { number: refusal.number(), yes: false },
        }
    }
}

/// Whether the words are a sound store.
pub fn check(words: &[u32]) -> u32 {
    store::read(words).map_or_else(Refusal::number, |_| DONE)
}

/// Whether bytes are a readable sheet. Where its inputs point is not looked at.
pub fn read_sheet(bytes: &[u8]) -> SheetRead {
    match sheet::read(bytes) {
        Err(Refused { refusal, place }) => SheetRead { number: refusal.number(), place },
        Ok(_) => SheetRead { number: DONE, place: 0 },
    }
}

/// Adds the sheet's new trees to the store and lists the number of each sheet row.
pub fn insert(words: &mut [u32], bytes: &[u8], answers: &mut [u32]) -> Inserted {
    insert_judged(words, bytes, answers, |_, _| Ok(()))
}

/// The same, but it takes only catalogue operations with their input counts, and no loop without a
/// hold.
pub fn insert_strict(words: &mut [u32], bytes: &[u8], answers: &mut [u32]) -> Inserted {
    insert_judged(words, bytes, answers, strict::judge)
}

/// Looks at the rows of store and sheet, of which the first so many are the store's.
type Judge = fn(usize, &[Row]) -> Result<(), Refusal>;

fn insert_judged(words: &mut [u32], bytes: &[u8], answers: &mut [u32], judge: Judge) -> Inserted {
    match plan(words, bytes, answers.len(), judge) {
        Err(Refused { refusal, place }) => Inserted { number: refusal.number(), added: 0, place },
        Ok(plan) => {
            let used = words[0] as usize;
            for (place, row) in plan.new_rows.iter().enumerate() {
                store::write_row(words, used + place, row);
            }
            words[0] += plan.new_rows.len() as u32;
            answers[..plan.numbers.len()].copy_from_slice(&plan.numbers);
            Inserted { number: DONE, added: plan.new_rows.len() as u32, place: 0 }
        }
    }
}

/// What a done insert writes.
struct Plan {
    numbers: Vec<u32>,
    new_rows: Vec<Row>,
}

/// Tests 1 to 8 in their order, between 5 and 6 for store numbers, and between 6 and 7 the wires and then
/// what the judge tests, both on rows as they are drawn; nothing is written yet.
fn plan(words: &[u32], bytes: &[u8], answers: usize, judge: Judge) -> Result<Plan, Refused> {
    let known = store::read(words)?;
    let drawn = sheet::inserted_behind(known.len(), &sheet::read(bytes)?)?;
    let used = known.len();
    let all: Vec<Row> = known.into_iter().chain(drawn).collect();
    wires::test(&all)?;
    judge(used, &all)?;
    if answers < all.len() - used {
        return Err(Refusal::ShortAnswers.into());
    }
    let all = wires::skipped(&all);
    let (numbers, firsts) = number_rows(used, &sameness::classes(&all));
    let wanted = if faults::planted(Fault::RowsForTrees) { all.len() - used } else { firsts.len() };
    if used + wanted > store::capacity(words) {
        return Err(Refusal::NoRoom.into());
    }
    let renumbered = |&row: &usize| Row {
        label: all[row].label,
        inputs: all[row].inputs.iter().map(|&input| numbers[input]).collect(),
    };
    Ok(Plan {
        new_rows: firsts.iter().map(renumbered).collect(),
        numbers: numbers[used..].iter().map(|&number| number as u32).collect(),
    })
}

/// The number of every row of store and sheet, and the first row of each new tree. New numbers
/// follow the used ones, in the order in which the sheet first has their trees.
fn number_rows(used: usize, classes: &[usize]) -> (Vec<usize>, Vec<usize>) {
    let mut of_class = vec![None; sameness::how_many(classes)];
    let mut numbers: Vec<usize> = (0..used).collect();
    let mut new = Vec::new();
    numbers.iter().for_each(|&row| of_class[classes[row]] = of_class[classes[row]].or(Some(row)));
    for row in used..classes.len() {
        let number = *of_class[classes[row]].get_or_insert_with(|| {
            new.push(row);
            used + new.len() - 1
        });
        numbers.push(number);
    }
    if faults::planted(Fault::OneKnownAllKnown) {
        return faults::all_known(used, numbers, new);
    }
    (numbers, new)
}

/// Writes the key of a row.
pub fn write_key(words: &[u32], row: u32, buffer: &mut [u8]) -> Written {
    let fitting = key_of(words, row).and_then(|key| {
        if key.len() <= buffer.len() {
            Ok(key)
        } else {
            Err(Refusal::ShortBuffer)
        }
    });
    match fitting {
        Err(refusal) => Written { number: refusal.number(), bytes: 0 },
        Ok(key) => {
            buffer[..key.len()].copy_from_slice(&key);
            Written { number: DONE, bytes: key.len() as u32 }
        }
    }
}

/// The key of a row, after tests 1, 2 and 9.
fn key_of(words: &[u32], row: u32) -> Result<Vec<u8>, Refusal> {
    let rows = store::read(words)?;
    let order = key_order(&rows, in_use(&rows, row)?);
    let mut place = vec![0; rows.len()];
    order.iter().enumerate().for_each(|(at, &row)| place[row] = at);
    let placed = |&row: &usize| SheetRow {
        label: rows[row].label,
        inputs: rows[row].inputs.iter().map(|&input| place[input] as u16).collect(),
    };
    Ok(sheet::write(&order.iter().map(placed).collect::<Vec<_>>()))
}

fn key_order(rows: &[Row], start: usize) -> Vec<usize> {
    let order = rows::walk(rows, start);
    if faults::planted(Fault::DrawnOrder) {
        return faults::as_drawn(order);
    }
    order
}

/// Whether the bytes are a key.
pub fn is_key(bytes: &[u8]) -> bool {
    let Ok(drawn) = sheet::read(bytes) else {
        return false;
    };
    // Held against a store of no rows, so every store number points nowhere.
    let Ok(rows) = sheet::behind_store(0, &drawn) else {
        return false;
    };
    if rows.is_empty() || rows.iter().any(|row| wires::is_wire(row.label)) {
        return false;
    }
    sameness::all_different(&rows) && key_order(&rows, 0).into_iter().eq(0..rows.len())
}

/// Whether a row of one store and a row of another have the same tree.
pub fn compare(first: &[u32], row: u32, second: &[u32], other: u32) -> Answer {
    same_tree(first, row, second, other).into()
}

fn same_tree(first: &[u32], row: u32, second: &[u32], other: u32) -> Result<bool, Refusal> {
    let (first, second) = (store::read(first)?, store::read(second)?);
    let (row, other) = (in_use(&first, row)?, in_use(&second, other)?);
    let classes = sameness::classes(&rows::joined(&first, &second));
    Ok(classes[row] == classes[first.len() + other])
}

/// Whether some path leads from the whole to the part. In a sound store a row stands for its tree.
pub fn part_of(words: &[u32], part: u32, whole: u32) -> Answer {
    leads_to(words, whole, part).into()
}

fn leads_to(words: &[u32], whole: u32, part: u32) -> Result<bool, Refusal> {
    let rows = store::read(words)?;
    let (whole, part) = (in_use(&rows, whole)?, in_use(&rows, part)?);
    Ok(rows::walk(&rows, whole).contains(&part))
}

/// The row of a number, if there is one: otherwise it is not in use.
pub fn in_use(rows: &[Row], number: u32) -> Result<usize, Refusal> {
    let number = number as usize;
    if number < rows.len() {
        Ok(number)
    } else {
        Err(Refusal::NotInUse)
    }
}
