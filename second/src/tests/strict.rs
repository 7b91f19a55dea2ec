//! The strict insert: each operation of the catalogue, loops with and without a hold, what is
//! judged, the order of refusals, and the verdict held against its definition on thrown requests.

use super::definition::{closed, wires_verdict};
use super::*;
use crate::dice::Dice;
use crate::making::{self, pictures};
use crate::operations::{insert, insert_strict, Inserted};
use crate::requests::Request;
use crate::rows::Row;
use crate::strict::judge;
use crate::{sheet as sheets, store as stores};
use std::collections::HashMap;

const SUM: u32 = 0x0004_0000;
const SCALE: u32 = 0x0005_0000;
const FREE: u32 = 0x000D_0000;

/// The rows of a sheet, each a label and its inputs.
type Drawn<'a> = &'a [(u32, &'a [u16])];

/// The number a strict insert gives; a refusal must leave all memory as it was, and no place.
fn number(words: &[u32], file: &[u8], answers: usize) -> u32 {
    let (mut after, mut list) = (words.to_vec(), vec![5; answers]);
    let Inserted { number, added, place } = insert_strict(&mut after, file, &mut list);
    if number != 0 {
        assert_eq!((after, list, added), (words.to_vec(), vec![5; answers], 0));
    }
    assert!(place == 0 || (3..=6).contains(&number));
    number
}

/// The number for a sheet into a store of no rows, which has room.
fn alone(rows: Drawn) -> u32 {
    number(&store(8, &[]), &sheet(rows), rows.len())
}

/// A row of the operation with so many inputs, all of them one channel.
fn with_inputs(operation: u32, count: usize) -> u32 {
    alone(&[(operation << 16 | 7, &vec![1; count]), (CHANNEL_1, &[])])
}

/// The catalogue as the rules have it, and every other count of its operations. A wire of another
/// count is refused as a wire.
#[test]
fn the_catalogue() {
    let counts = [0, 0, 2, 2, 1, 1, 1, 2, 2, 3, 4, 1];
    for (operation, count) in (1..).zip(counts) {
        let miscounted = if operation == 7 { 14 } else { 12 };
        for other in 0..=4 {
            let expected = if other == count { 0 } else { miscounted };
            assert_eq!(with_inputs(operation, other), expected, "{operation} with {other} inputs");
        }
    }
}

/// No other operation is in it, though its lowest bits may be those of one that is.
#[test]
fn free_operations() {
    for operation in [0, 13, 14, 31, 32, 33, 36, 38, 255, 257, 32_769, 65_535] {
        for count in 0..=4 {
            assert_eq!(with_inputs(operation, count), 12, "{operation} with {count} inputs");
        }
    }
}

/// The setting is not looked at.
#[test]
fn settings_do_not_matter() {
    assert_eq!(alone(&[(CHANNEL_1 | 0xFFFF, &[])]), 0);
    assert_eq!(alone(&[(HOLD | 0x0004, &[0])]), 0);
    assert_eq!(alone(&[(SCALE | 0x0006, &[0])]), 13);
}

#[test]
fn loops() {
    assert_eq!(alone(&[(SUM, &[0, 1]), (CHANNEL_1, &[])]), 13);
    assert_eq!(alone(&[(SUM, &[1, 0]), (CHANNEL_1, &[])]), 13);
    assert_eq!(alone(&[(HOLD, &[0])]), 0);
    assert_eq!(number(&store(8, &[]), &bytes(B), 2), 0);
    // Three rows round, with a hold in each place or none.
    assert_eq!(alone(&[(SCALE, &[1]), (SCALE, &[2]), (SCALE, &[0])]), 13);
    assert_eq!(alone(&[(HOLD, &[1]), (SCALE, &[2]), (SCALE, &[0])]), 0);
    assert_eq!(alone(&[(SCALE, &[1]), (HOLD, &[2]), (SCALE, &[0])]), 0);
    assert_eq!(alone(&[(SCALE, &[1]), (SCALE, &[2]), (HOLD, &[0])]), 0);
    // A row that is met again on another way is no loop.
    assert_eq!(alone(&[(SUM, &[1, 1]), (SUM, &[2, 2]), (CHANNEL_1, &[])]), 0);
}

/// A sum, its scaled channel, and its own value held and scaled; then the hold is left out.
#[test]
fn the_smoothing_loop() {
    let stage: Drawn = &[(SUM, &[1, 2]), (SCALE, &[4]), (SCALE | 1, &[3]), (HOLD, &[0]), (CHANNEL_1, &[])];
    assert_eq!(alone(stage), 0);
    assert_eq!(alone(&[(SUM, &[1, 2]), (SCALE, &[3]), (SCALE | 1, &[0]), (CHANNEL_1, &[])]), 13);
}

/// Every loop has to pass a hold: one that does is no help to another through the same row.
#[test]
fn two_loops_that_share_a_row() {
    assert_eq!(alone(&[(SUM, &[1, 2]), (HOLD, &[0]), (SCALE, &[0])]), 13);
    assert_eq!(alone(&[(SUM, &[1, 2]), (SCALE, &[0]), (HOLD, &[0])]), 13);
    assert_eq!(alone(&[(SUM, &[1, 2]), (HOLD, &[0]), (HOLD | 1, &[0])]), 0);
}

/// Rows that nothing uses are judged if they are the sheet's.
#[test]
fn sheet_rows_are_all_judged() {
    assert_eq!(alone(&[(CHANNEL_1, &[]), (FREE, &[])]), 12);
    assert_eq!(alone(&[(CHANNEL_1, &[]), (SCALE, &[1])]), 13);
}

/// A store's rows are never judged; drawn again they are the sheet's.
#[test]
fn store_rows_are_not_judged() {
    let good = sheet(&[(HOLD | 9, &[1]), (CHANNEL_1, &[])]);
    for (row, again, expected) in [
        ((FREE, &[] as &[u32]), sheet(&[(HOLD, &[1]), (FREE, &[])]), 12),
        ((SUM, &[0]), sheet(&[(SUM, &[1]), (CHANNEL_1, &[])]), 12),
        ((SCALE, &[2]), sheet(&[(HOLD, &[1]), (SCALE, &[1])]), 13),
        ((SUM, &[0, 2]), sheet(&[(SUM, &[1, 0]), (CHANNEL_1, &[])]), 13),
    ] {
        let words = store(8, &[(CHANNEL_1, &[]), (HOLD, &[2]), row]);
        assert_eq!(number(&words, &good, 2), 0);
        assert_eq!(number(&words, &bytes(EMPTY), 0), 0);
        assert_eq!(number(&words, &again, 2), expected);
        for input in [32_768, 32_769, 32_770, 32_771] {
            assert_eq!(number(&words, &sheet(&[(HOLD | 9, &[input])]), 1), 19);
        }
    }
}

/// A loop of one row at the end of a long way.
#[test]
fn a_long_way_to_a_loop() {
    let scale = |at: usize| Row { label: SCALE, inputs: vec![at + 1] };
    let ring = |end: usize| Row { label: SCALE | 1, inputs: vec![end] };
    let rows: Vec<Row> = (0..1_023).map(scale).chain([ring(1_023)]).collect();
    let drawn = |rows: &[Row]| sheets::write(&sheets::from_behind_store(0, rows));
    assert_eq!(number(&store(1_024, &[]), &drawn(&rows), 1_024), 13);
    let mut held = rows.clone();
    held[1_023].label = HOLD;
    assert_eq!(number(&store(1_024, &[]), &drawn(&held), 1_024), 0);
    held.reverse();
    held.iter_mut().for_each(|row| row.inputs[0] = 1_023 - row.inputs[0]);
    assert_eq!(number(&store(1_024, &[]), &drawn(&held), 1_024), 0);
}

/// Takes one wrong after another away, and the next in the list is given each time.
#[test]
fn the_order_of_refusals() {
    let full: &[(u32, &[u32])] = &[(CHANNEL_1, &[]), (HOLD, &[1])];
    let mut file = sheet(&[(SCALE, &[9]), (FREE, &[0, 0, 0, 0, 0])]);
    file[3] += 1;
    file[4] = 7;
    assert_eq!(number(&[], &file, 0), 1);
    let mut unsound = store(2, full);
    unsound[0] = 3;
    let words = store(2, full);
    let both = sheet(&[(SCALE, &[0]), (FREE, &[])]);
    let looped = sheet(&[(SCALE, &[0]), (CONSTANT_40, &[])]);
    for file in [&file, &both, &looped] {
        assert_eq!(number(&unsound, file, 0), 2);
    }
    assert_eq!(number(&words, &file, 0), 3);
    file[3] -= 1;
    assert_eq!(number(&words, &file, 0), 4);
    file[4] = 1;
    assert_eq!(number(&words, &file, 0), 5);
    assert_eq!(number(&words, &sheet(&[(SCALE, &[9]), (FREE, &[32_768])]), 0), 19);
    assert_eq!(number(&words, &sheet(&[(SCALE, &[9]), (FREE, &[])]), 0), 6);
    assert_eq!(number(&words, &both, 0), 12);
    assert_eq!(number(&words, &looped, 0), 13);
    let good = sheet(&[(HOLD, &[0]), (CONSTANT_40, &[])]);
    assert_eq!(number(&words, &good, 1), 7);
    assert_eq!(number(&words, &good, 2), 8);
    assert_eq!(number(&store(3, full), &good, 2), 0);
}

/// 12 and 13 by their definition, over the sheet's rows: which of them lead back to themselves along rows
/// that are no holds, by joining ways until none is new.
fn by_definition(used: usize, rows: &[Row]) -> u32 {
    let counts = [0, 0, 2, 2, 1, 1, 1, 2, 2, 3, 4, 1];
    let listed = |row: &Row| {
        let place = (row.label / 65_536).checked_sub(1).map(|place| place as usize);
        place.and_then(|place| counts.get(place)) == Some(&row.inputs.len())
    };
    let unheld = closed(rows, |row| row.label / 65_536 != 6);
    if rows[used..].iter().any(|row| !listed(row)) {
        return 12;
    }
    if (used..rows.len()).any(|row| unheld[row][row]) {
        return 13;
    }
    0
}

/// What is given between 6 and 7: the wires come first.
fn verdict(used: usize, rows: &[Row]) -> u32 {
    match wires_verdict(rows) {
        0 => by_definition(used, rows),
        number => number,
    }
}

/// The strict inserts of the seeds that the comparison starts with.
fn requests() -> impl Iterator<Item = (String, Vec<u32>, Vec<u8>, Vec<u32>)> {
    seeded(SEEDS).filter_map(|(seed, place)| match making::request(seed, place) {
        Request::InsertStrict { words, sheet, answers } => {
            Some((format!("seed {seed} place {place}"), words, sheet, answers))
        }
        _ => None,
    })
}

/// The rows of store and sheet and how many are the store's, where nothing up to 6 is wrong.
fn together(words: &[u32], file: &[u8]) -> Option<(usize, Vec<Row>)> {
    let known = stores::read(words).ok()?;
    let drawn = sheets::inserted_behind(known.len(), &sheets::read(file).ok()?).ok()?;
    Some((known.len(), known.into_iter().chain(drawn).collect()))
}

/// A strict insert is refused by the verdict, and otherwise does what the plain one does.
#[test]
fn plain_but_for_the_verdict() {
    let (mut tried, mut refused) = (0, 0);
    for (name, words, file, answers) in requests() {
        let verdict = match together(&words, &file) {
            Some((_, rows)) if rows.len() > 300 => continue,
            Some((used, rows)) => verdict(used, &rows),
            None => 0,
        };
        let (mut after, mut list) = (words.clone(), answers.clone());
        let mut expected = Inserted { number: verdict, added: 0, place: 0 };
        if verdict == 0 {
            expected = insert(&mut after, &file, &mut list);
        }
        let (mut strict_after, mut strict_list) = (words, answers);
        assert_eq!(insert_strict(&mut strict_after, &file, &mut strict_list), expected, "{name}");
        assert_eq!((strict_after, strict_list), (after, list), "{name}");
        tried += 1;
        refused += usize::from(verdict > 0);
    }
    assert!(tried > 300 && refused > 100, "{tried} strict inserts, {refused} refused by the verdict");
}

/// The verdict depends on the trees alone: the sheet drawn with more rows and in another order gets
/// the same one, and so does the store in another order.
#[test]
fn the_same_trees_get_the_same_verdict() {
    let mut refused = 0;
    for (place, (name, words, file, _)) in requests().enumerate() {
        let Some((used, rows)) = together(&words, &file) else {
            continue;
        };
        let mut dice = Dice::new(9, place as u64);
        let drawn = pictures::unrolled(&mut dice, used, &rows[used..], 2 * rows.len());
        let drawn = pictures::permuted(&mut dice, used, &drawn);
        let order = dice.order(used);
        let mut again = pictures::arranged(0, &rows[..used], &order);
        again.extend(pictures::over_arranged(&drawn, &order));
        assert_eq!(judge(used, &rows), judge(used, &again), "{name}");
        refused += usize::from(judge(used, &rows).is_err());
    }
    assert!(refused > 100, "{refused} refused");
}

/// Where a request's fault lies, or what it has that is no fault.
fn case_of(used: usize, rows: &[Row]) -> &'static str {
    match by_definition(used, rows) {
        12 => "12 in the sheet",
        13 => "13 in the sheet",
        _ => match by_definition(0, &rows[..used]) {
            12 => "12 in the store",
            13 => "13 in the store",
            _ if closed(rows, |_| true).iter().enumerate().any(|(row, leads)| leads[row]) => "held",
            _ => "good",
        },
    }
}

/// Each case comes often enough.
#[test]
fn every_case_comes() {
    let mut seen: HashMap<&str, usize> = HashMap::new();
    for (_, words, file, _) in requests() {
        if let Some((used, rows)) = together(&words, &file).filter(|(_, rows)| rows.len() <= 300) {
            *seen.entry(case_of(used, &rows)).or_default() += 1;
        }
    }
    for case in ["12 in the sheet", "13 in the sheet", "12 in the store", "13 in the store", "held", "good"] {
        let count = seen.get(case).copied().unwrap_or(0);
        assert!(count >= 5, "only {count} of {case}: {seen:?}");
    }
}
