//! The rules held against thrown requests, by the definition of agreement and not by the
//! splitting.

use super::definition::{at_every_depth, is_wire, with_wires_skipped};
use super::seeded;
use crate::making;
use crate::operations::{check, compare, insert, is_key, part_of, read_sheet, write_key, Answer};
use crate::requests::Request;
use crate::rows::{self, Row};
use crate::{sheet, store};
use std::collections::BTreeSet;

/// Tables of all pairs are slow, so larger requests are left to other tests.
const MOST_TABLE_ROWS: usize = 60;

fn requests() -> impl Iterator<Item = (String, Request)> {
    seeded(20).map(|(seed, place)| (format!("seed {seed} place {place}"), making::request(seed, place)))
}

#[test]
fn inserts() {
    let mut tried = 0;
    for (name, request) in requests() {
        let Request::Insert { words, sheet, answers } = request else {
            continue;
        };
        let (mut after, mut list) = (words.clone(), answers.clone());
        let inserted = insert(&mut after, &sheet, &mut list);
        if inserted.number != 0 {
            assert_eq!((&after, &list, inserted.added), (&words, &answers, 0), "{name}");
        } else if small(&words, &sheet) {
            done_insert(&name, (&words, &answers), &sheet, (&after, &list), inserted.added as usize);
            tried += 1;
        }
    }
    assert!(tried > 300, "only {tried} done inserts were tried");
}

fn small(words: &[u32], bytes: &[u8]) -> bool {
    words[0] as usize + 2 * sheet::read(bytes).map_or(0, |rows| rows.len()) <= MOST_TABLE_ROWS
}

/// All that a done insert promises.
fn done_insert(name: &str, before: (&[u32], &[u32]), bytes: &[u8], after: (&[u32], &[u32]), added: usize) {
    let drawn = sheet::read(bytes).expect("done, so readable");
    let (old, new) = (before.0[0] as usize, after.0[0] as usize);
    assert_eq!(new - old, added, "{name}: the count");
    assert_eq!(after.1[drawn.len()..], before.1[drawn.len()..], "{name}: answers past the rows");
    assert_eq!(after.0[1..1 + 6 * old], before.0[1..1 + 6 * old], "{name}: old rows");
    assert_eq!(after.0[1 + 6 * new..], before.0[1 + 6 * new..], "{name}: words past the rows");
    let rows = store::read(after.0).expect("the store stays sound");
    assert!(!rows.iter().any(is_wire), "{name}: a wire in the store");
    assert_eq!(rows.len(), new);
    right_numbers(name, old, &rows, &drawn, after.1);
}

/// Each sheet row's number is a row of its tree, no two store rows have one tree, and new numbers
/// go by the first sheet row with the tree.
fn right_numbers(name: &str, old: usize, rows: &[Row], drawn: &[sheet::SheetRow], numbers: &[u32]) {
    let placed = sheet::behind_store(old, drawn).expect("done, so no input is astray");
    let shift = |input: &usize| {
        if *input < old {
            *input
        } else {
            input - old + rows.len()
        }
    };
    let moved =
        placed.iter().map(|row| Row { label: row.label, inputs: row.inputs.iter().map(shift).collect() });
    let all: Vec<Row> = rows.iter().cloned().chain(moved).collect();
    let agree = at_every_depth(&with_wires_skipped(&all));
    let mut next = old;
    for place in 0..drawn.len() {
        let number = numbers[place] as usize;
        let same: Vec<usize> = (0..rows.len()).filter(|&row| agree[row][rows.len() + place]).collect();
        assert_eq!(same, [number], "{name}: sheet row {place}");
        assert!(number <= next, "{name}: numbers are skipped before sheet row {place}");
        next = next.max(number + 1);
    }
    assert_eq!(next, rows.len(), "{name}: rows that no sheet row asked for");
}

/// The number and the place of every sheet against a walk along its bytes; a store that is refused
/// leaves no place.
#[test]
fn places() {
    let (mut tried, mut hidden) = (0, 0);
    for (name, request) in requests() {
        if let Request::ReadSheet { sheet } = &request {
            let found = unreadable_at(sheet).unwrap_or((0, 0));
            let read = read_sheet(sheet);
            assert_eq!((read.number, read.place), found, "{name}");
        }
        let Request::Insert { mut words, sheet, mut answers } = request else {
            continue;
        };
        let used = words.first().map_or(0, |&count| count as usize);
        let retired = || names_store(&sheet).then_some((19, 0));
        let astray = || astray_at(&sheet, used).map(|place| (6, place));
        let found = unreadable_at(&sheet).or_else(retired).or_else(astray);
        let inserted = insert(&mut words, &sheet, &mut answers);
        match found {
            Some(found) if inserted.number > 2 => {
                assert_eq!((inserted.number, inserted.place), found, "{name}")
            }
            _ => assert_eq!(inserted.place, 0, "{name}"),
        }
        tried += usize::from(inserted.place > 0);
        hidden += usize::from(found.is_some() && (1..=2).contains(&inserted.number));
    }
    assert!(tried > 100 && hidden > 10, "{tried} places, and {hidden} behind a store that is refused");
}

pub fn two_bytes(sheet: &[u8], at: usize) -> usize {
    usize::from(sheet[at]) * 256 + usize::from(sheet[at + 1])
}

/// 3, 4 or 5 and its place.
pub fn unreadable_at(sheet: &[u8]) -> Option<(u32, usize)> {
    let followed = sheet.len().wrapping_sub(4);
    if sheet.len() < 7 || sheet[..4] != (followed as u32).to_be_bytes() {
        return Some((3, 0));
    }
    if sheet[4] != 1 {
        return Some((4, 4));
    }
    if two_bytes(sheet, 5) > 1_024 {
        return Some((5, 5));
    }
    let mut at = 7;
    for _ in 0..two_bytes(sheet, 5) {
        match row_end(sheet, at) {
            Some(end) => at = end,
            None => return Some((5, at)),
        }
    }
    (at < sheet.len()).then_some((5, at))
}

/// Where a row ends that can be read.
fn row_end(sheet: &[u8], at: usize) -> Option<usize> {
    let inputs = usize::from(*sheet.get(at + 4)?);
    let end = at + 5 + 2 * inputs;
    (inputs <= 4 && end <= sheet.len()).then_some(end)
}

/// Where the inputs of a readable sheet start.
fn input_places(sheet: &[u8]) -> Vec<usize> {
    let (mut at, mut places) = (7, Vec::new());
    for _ in 0..two_bytes(sheet, 5) {
        let end = row_end(sheet, at).expect("a readable row");
        places.extend((at + 5..end).step_by(2));
        at = end;
    }
    places
}

/// Whether an input of a readable sheet is a row of a store.
fn names_store(sheet: &[u8]) -> bool {
    input_places(sheet).into_iter().any(|at| sheet[at] >= 128)
}

/// The first input of a readable sheet that points nowhere, where a store has so many rows.
pub fn astray_at(sheet: &[u8], used: usize) -> Option<usize> {
    let count = two_bytes(sheet, 5);
    let nowhere = |at: &usize| match two_bytes(sheet, *at) {
        input if input < 32_768 => input >= count,
        input => input - 32_768 >= used,
    };
    input_places(sheet).into_iter().find(nowhere)
}

/// Each clause of soundness, straight from the rules.
#[test]
fn soundness() {
    let (mut sound, mut refused) = (0, 0);
    for (name, request) in requests() {
        let Request::Check { words } = request else {
            continue;
        };
        if words.is_empty() || words.len() > 6 * MOST_TABLE_ROWS {
            continue;
        }
        let expected = by_clauses(&words);
        assert_eq!(check(&words), if expected { 0 } else { 2 }, "{name}");
        *if expected { &mut sound } else { &mut refused } += 1;
    }
    assert!(sound > 40 && refused > 40, "{sound} sound and {refused} refused");
}

fn by_clauses(words: &[u32]) -> bool {
    let capacity = (words.len() as u64 - 1) / 6;
    if u64::from(words[0]) > capacity {
        return false;
    }
    let rows: Vec<&[u32]> = words[1..].chunks_exact(6).take(words[0] as usize).collect();
    let counts = rows.iter().all(|row| row[1] <= 4);
    let used = |row: &&[u32]| (0..row[1] as usize).all(|input| row[2 + input] < words[0]);
    let unused = |row: &&[u32]| (row[1] as usize..4).all(|input| row[2 + input] == 0);
    let plain = rows.iter().all(|row| row[0] / 65_536 != 7);
    counts && plain && rows.iter().all(used) && rows.iter().all(unused) && no_tree_twice(&rows)
}

fn no_tree_twice(rows: &[&[u32]]) -> bool {
    let inputs = |row: &[u32]| row[2..2 + row[1] as usize].iter().map(|&input| input as usize).collect();
    let rows: Vec<Row> = rows.iter().map(|row| Row { label: row[0], inputs: inputs(row) }).collect();
    let agree = at_every_depth(&rows);
    (0..rows.len()).all(|a| (0..a).all(|b| !agree[a][b]))
}

/// Comparing against the definition of agreement.
#[test]
fn comparisons() {
    let (mut yes, mut no) = (0, 0);
    for (name, request) in requests() {
        let Request::Compare { first, row, second, other } = request else {
            continue;
        };
        let answer = compare(&first, row, &second, other);
        let (Ok(one), Ok(two)) = (store::read(&first), store::read(&second)) else {
            continue;
        };
        if answer.number != 0 || one.len() + two.len() > MOST_TABLE_ROWS {
            continue;
        }
        let agree = at_every_depth(&rows::joined(&one, &two));
        assert_eq!(answer.yes, agree[row as usize][one.len() + other as usize], "{name}");
        *if answer.yes { &mut yes } else { &mut no } += 1;
    }
    assert!(yes > 40 && no > 40, "{yes} yes and {no} no");
}

/// Part-of against steps taken as often as there are rows.
#[test]
fn parts() {
    for (name, request) in requests() {
        let Request::PartOf { words, whole, part } = request else {
            continue;
        };
        let answer = part_of(&words, part, whole);
        let Ok(rows) = store::read(&words) else {
            continue;
        };
        if whole as usize >= rows.len() || part as usize >= rows.len() {
            assert_eq!(answer, Answer { number: 9, yes: false }, "{name}");
            continue;
        }
        let mut reached: BTreeSet<usize> = [whole as usize].into();
        for _ in 0..rows.len() {
            let further: Vec<usize> = reached.iter().flat_map(|&row| rows[row].inputs.clone()).collect();
            reached.extend(further);
        }
        assert_eq!(answer, Answer { number: 0, yes: reached.contains(&(part as usize)) }, "{name}");
    }
}

/// A sheet that is in already adds nothing and gets the same numbers.
#[test]
fn a_second_insert_adds_nothing() {
    for (name, request) in requests() {
        let Request::Insert { mut words, sheet, mut answers } = request else {
            continue;
        };
        if insert(&mut words, &sheet, &mut answers).number == 0 {
            let (once, numbers) = (words.clone(), answers.clone());
            let again = insert(&mut words, &sheet, &mut answers);
            assert_eq!((again.number, again.added), (0, 0), "{name}");
            assert_eq!((words, answers), (once, numbers), "{name}");
        }
    }
}

/// Every key written is a key, brings its own row back, and is one for two rows exactly when they
/// have one tree.
#[test]
fn keys() {
    for (name, request) in requests() {
        let Request::Compare { first, row, second, other } = request else {
            continue;
        };
        let (one, two) = (key(&first, row), key(&second, other));
        if let (Some(one), Some(two)) = (&one, &two) {
            assert!(is_key(one) && is_key(two), "{name}");
            assert_eq!(one == two, compare(&first, row, &second, other).yes, "{name}");
            let mut answers = [9; 1_024];
            assert_eq!(insert(&mut first.clone(), one, &mut answers).number, 0, "{name}");
            assert_eq!(answers[0], row, "{name}");
        }
    }
}

fn key(words: &[u32], row: u32) -> Option<Vec<u8>> {
    let mut buffer = vec![0; 14_000];
    let written = write_key(words, row, &mut buffer);
    buffer.truncate(written.bytes as usize);
    (written.number == 0).then_some(buffer)
}

/// Bytes are a key exactly when inserting them into an empty store and writing row 0's key gives
/// the same bytes.
#[test]
fn is_a_key() {
    let (mut yes, mut no) = (0, 0);
    for (name, request) in requests() {
        let Request::IsKey { bytes } = request else {
            continue;
        };
        let mut words = vec![0; 6_145];
        let mut answers = [0; 1_024];
        let inserted = insert(&mut words, &bytes, &mut answers);
        let expected = inserted.number == 0 && key(&words, answers[0]).as_ref() == Some(&bytes);
        assert_eq!(is_key(&bytes), expected, "{name}");
        *if expected { &mut yes } else { &mut no } += 1;
    }
    assert!(yes > 30 && no > 30, "{yes} keys and {no} others");
}
