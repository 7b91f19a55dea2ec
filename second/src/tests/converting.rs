//! The converter: its result byte for byte, each refusal and their order, and its sentences held against
//! thrown requests by steps taken and by the definition of agreement.

use super::definition::{at_every_depth, closed, wires_verdict, with_wires_skipped};
use super::thrown::{astray_at, unreadable_at};
use super::*;
use crate::converting::{convert, Converted};
use crate::making;
use crate::operations::{insert, insert_strict, read_sheet};
use crate::requests::Request;
use crate::rows::{joined, Row};
use crate::{sheet as sheets, store as stores};

/// No result is longer.
const LONGEST: usize = 13_319;

/// The result where it is done; the buffer past it must stand.
fn result(words: &[u32], file: &[u8]) -> Vec<u8> {
    let mut buffer = vec![0xA5; LONGEST + 3];
    let done = convert(words, file, &mut buffer);
    assert_eq!((done.number, done.place), (0, 0));
    let written = buffer.drain(..done.bytes as usize).collect();
    assert!(buffer.iter().all(|&byte| byte == 0xA5));
    written
}

/// The number for a buffer of so many bytes; a refusal must leave it as it was.
fn number(words: &[u32], file: &[u8], room: usize) -> u32 {
    let mut buffer = vec![0xA5; room];
    let Converted { number, bytes, place } = convert(words, file, &mut buffer);
    if number != 0 {
        assert_eq!((bytes, buffer), (0, vec![0xA5; room]));
    }
    assert!(place == 0 || (3..=6).contains(&number));
    number
}

/// Row 0 holds row 2, row 1 is used by nothing, row 3 is a sum of all.
fn some_store() -> Vec<u32> {
    store(9, &[(HOLD, &[2]), (CONSTANT_40, &[]), (CHANNEL_1, &[]), (0x0004_0000, &[0, 1, 2, 3])])
}

#[test]
fn a_sheet_without_store_numbers_is_its_own_result() {
    let wired = sheet(&[(WIRE, &[1]), (HOLD, &[0])]);
    for file in [bytes(A), bytes(B), bytes(D), bytes(EMPTY), wired] {
        assert_eq!(result(&some_store(), &file), file);
        assert_eq!(result(&store(0, &[]), &file), file);
    }
}

/// Only what is reached, by rising number, and loops come round to their places.
#[test]
fn rows_appended() {
    let on = |input: u16| result(&some_store(), &sheet(&[(HOLD | 9, &[input])]));
    assert_eq!(on(32_769), sheet(&[(HOLD | 9, &[1]), (CONSTANT_40, &[])]));
    assert_eq!(on(32_768), sheet(&[(HOLD | 9, &[1]), (HOLD, &[2]), (CHANNEL_1, &[])]));
    let all: [(u32, &[u16]); 5] =
        [(HOLD | 9, &[4]), (HOLD, &[3]), (CONSTANT_40, &[]), (CHANNEL_1, &[]), (0x0004_0000, &[1, 2, 3, 4])];
    assert_eq!(on(32_771), sheet(&all));
}

/// Labels, counts, wires and sheet inputs stay; the store's row that the sheet has too is drawn again.
#[test]
fn rows_keep_what_they_have() {
    let old = sheet(&[
        (WIRE | 3, &[1]),
        (0x000D_0001, &[2, 32_770, 0, 32_770]),
        (CHANNEL_1, &[]),
        (WIRE, &[32_769]),
    ]);
    let new: [(u32, &[u16]); 6] = [
        (WIRE | 3, &[1]),
        (0x000D_0001, &[2, 5, 0, 5]),
        (CHANNEL_1, &[]),
        (WIRE, &[4]),
        (CONSTANT_40, &[]),
        (CHANNEL_1, &[]),
    ];
    assert_eq!(result(&some_store(), &old), sheet(&new));
}

/// Takes one wrong after another away, and the next in the list is given each time.
#[test]
fn the_order_of_refusals() {
    let fill = |front: &[(u32, &'static [u16])]| {
        let mut rows = front.to_vec();
        rows.resize(1_024, (CHANNEL_1, &[] as &[u16]));
        sheet(&rows)
    };
    let words = some_store();
    let mut unsound = words.clone();
    unsound[0] = 77;
    let mut file = fill(&[(HOLD, &[32_772]), (WIRE, &[1]), (WIRE, &[]), (HOLD, &[0, 0, 0, 0, 0])]);
    file[3] ^= 1;
    file[4] = 7;
    assert_eq!(number(&[], &file, 0), 1);
    assert_eq!(number(&unsound, &file, 0), 2);
    assert_eq!(number(&words, &file, 0), 3);
    file[3] ^= 1;
    assert_eq!(number(&words, &file, 0), 4);
    file[4] = 1;
    assert_eq!(number(&words, &file, 0), 5);
    assert_eq!(number(&words, &fill(&[(HOLD, &[32_772]), (WIRE, &[1]), (WIRE, &[])]), 0), 6);
    assert_eq!(number(&words, &fill(&[(HOLD, &[32_771]), (WIRE, &[1]), (WIRE, &[])]), 0), 14);
    assert_eq!(number(&words, &fill(&[(HOLD, &[32_771]), (WIRE, &[1]), (WIRE, &[0])]), 0), 15);
    assert_eq!(number(&words, &fill(&[(HOLD, &[32_771]), (WIRE, &[2]), (WIRE, &[0])]), 0), 20);
    let fits = fill(&[(HOLD, &[1]), (WIRE, &[2]), (WIRE, &[3])]);
    assert_eq!(number(&words, &fits, fits.len() - 1), 10);
    assert_eq!(number(&words, &fits, fits.len()), 0);
}

/// Sheet rows and appended rows are counted together, and the store's others are not.
#[test]
fn at_most_1024_rows() {
    let full: Vec<(u32, &[u32])> = (0..1_024).map(|n| (0x0002_0000 + n, &[] as &[u32])).collect();
    let words = store(1_024, &full);
    let rows = |count: usize| {
        let mut rows: Vec<(u32, &[u16])> = vec![(CHANNEL_1, &[]); count];
        rows[count - 1] = (HOLD, &[33_791]);
        sheet(&rows)
    };
    assert_eq!(number(&words, &rows(1_023), LONGEST), 0);
    assert_eq!(result(&words, &rows(1_023)).len(), 7 + 5 * 1_024 + 2);
    assert_eq!(number(&words, &rows(1_023), 7 + 5 * 1_024 + 2), 0);
    assert_eq!(number(&words, &rows(1_023), 7 + 5 * 1_024 + 1), 10);
    assert_eq!(number(&words, &rows(1_024), LONGEST), 20);
    assert_eq!(number(&words, &rows(1_024), 0), 20);
}

/// The requests to convert of the seeds that the comparison starts with.
fn requests() -> impl Iterator<Item = (String, Vec<u32>, Vec<u8>, Vec<u8>)> {
    seeded(SEEDS).filter_map(|(seed, place)| match making::request(seed, place) {
        Request::Convert { words, sheet, buffer } => {
            Some((format!("seed {seed} place {place}"), words, sheet, buffer))
        }
        _ => None,
    })
}

/// The rows of a store and of an old sheet behind it, where nothing up to 6 is wrong.
fn together(words: &[u32], file: &[u8]) -> Option<(usize, Vec<Row>)> {
    let known = stores::read(words).ok()?;
    let drawn = sheets::behind_store(known.len(), &sheets::read(file).ok()?).ok()?;
    Some((known.len(), known.into_iter().chain(drawn).collect()))
}

/// The store rows that some way leads to from a row of the sheet, step by step from those met last.
fn reached(used: usize, rows: &[Row]) -> Vec<usize> {
    let mut met = vec![false; rows.len()];
    let mut last: Vec<usize> = (used..rows.len()).collect();
    while !last.is_empty() {
        let inputs = last.iter().flat_map(|&row| rows[row].inputs.clone());
        last = inputs.filter(|&input| input < used && !std::mem::replace(&mut met[input], true)).collect();
    }
    (0..used).filter(|&row| met[row]).collect()
}

/// The number and the place by the sentences, where the store is sound.
fn expected(words: &[u32], file: &[u8], room: usize) -> (u32, usize) {
    let used = words[0] as usize;
    let unreadable = unreadable_at(file);
    if let Some(found) = unreadable.or_else(|| astray_at(file, used).map(|place| (6, place))) {
        return found;
    }
    let (used, rows) = together(words, file).expect("readable, and nothing is astray");
    let appended = reached(used, &rows);
    let inputs = |row: &usize| rows[*row].inputs.len();
    let more: usize = appended.iter().map(|row| 5 + 2 * inputs(row)).sum();
    let number = match wires_verdict(&rows) {
        0 if rows.len() - used + appended.len() > 1_024 => 20,
        0 if file.len() + more > room => 10,
        number => number,
    };
    (number, 0)
}

#[test]
fn numbers_by_the_sentences() {
    let mut seen = std::collections::BTreeMap::new();
    for (name, words, file, buffer) in requests() {
        let mut after = buffer.clone();
        let done = convert(&words, &file, &mut after);
        let sound = stores::read(&words);
        let small = words.first().is_some_and(|&count| count < 400) && file.len() < 6_000;
        match sound {
            Err(refusal) => assert_eq!((done.number, done.place), (refusal.number(), 0), "{name}"),
            Ok(_) if !small => {}
            Ok(_) => assert_eq!((done.number, done.place), expected(&words, &file, buffer.len()), "{name}"),
        }
        if done.number != 0 {
            assert_eq!((done.bytes, &after), (0, &buffer), "{name}");
        }
        assert_eq!(
            after[done.bytes as usize..],
            buffer[done.bytes as usize..],
            "{name}: bytes past the result"
        );
        *seen.entry(done.number).or_insert(0) += 1;
    }
    assert!(seen.len() == 11 && seen.values().all(|&count| count >= 5), "{seen:?}");
}

/// Each done request with its result, its rows joined, and how many are the store's.
fn results() -> impl Iterator<Item = (String, Vec<u32>, Vec<u8>, usize, Vec<Row>)> {
    requests().filter_map(|(name, words, file, mut buffer)| {
        let done = convert(&words, &file, &mut buffer);
        buffer.truncate(done.bytes as usize);
        let (used, rows) = together(&words, &file).filter(|_| done.number == 0)?;
        Some((name, words, buffer, used, rows))
    })
}

/// The result row by row: the sheet's rows in their places with their labels, counts and own inputs, then
/// the rows reached, by rising number, and every input is the place of its row.
#[test]
fn results_by_the_sentences() {
    let (mut tried, mut named) = (0, 0);
    for (name, _, bytes, used, rows) in results() {
        assert_eq!((read_sheet(&bytes).number, bytes[4]), (0, 1), "{name}: version 1");
        let order: Vec<usize> = (used..rows.len()).chain(reached(used, &rows)).collect();
        let found = sheets::read(&bytes).expect("readable");
        assert_eq!(found.len(), order.len(), "{name}");
        for (row, &old) in found.iter().zip(&order) {
            let meant: Vec<usize> = row.inputs.iter().map(|&place| order[usize::from(place)]).collect();
            assert_eq!((row.label, &meant), (rows[old].label, &rows[old].inputs), "{name}: row {old}");
        }
        tried += 1;
        named += usize::from(order.len() > rows.len() - used);
    }
    assert!(tried > 100 && named > 60, "{tried} results, {named} with rows appended");
}

/// Each row of the result has the tree that it had over the store.
#[test]
fn trees_are_kept() {
    let mut tried = 0;
    for (name, _, bytes, used, rows) in
        results().filter(|(_, _, bytes, _, rows)| rows.len() + bytes.len() / 5 < 120)
    {
        let new =
            sheets::behind_store(0, &sheets::read(&bytes).expect("readable")).expect("nothing is astray");
        let order: Vec<usize> = (used..rows.len()).chain(reached(used, &rows)).collect();
        let agree = at_every_depth(&joined(&rows, &new));
        let same = order.iter().enumerate().all(|(place, &old)| agree[old][rows.len() + place]);
        assert!(same, "{name}");
        tried += 1;
    }
    assert!(tried > 60, "{tried}");
}

/// Inserted into the store it was drawn against, a row gets the number of its tree there, and appended rows
/// their own. No insert refuses it but for room, and a strict one only by the catalogue and by loops too.
#[test]
fn results_are_taken() {
    let mut tried = 0;
    for (name, words, bytes, used, rows) in results() {
        let appended = reached(used, &rows);
        let (mut after, mut answers) = (words.clone(), vec![9; 1_024]);
        let done = insert(&mut after, &bytes, &mut answers);
        assert!([0, 8].contains(&done.number), "{name}: {}", done.number);
        let strict = insert_strict(&mut words.clone(), &bytes, &mut [0; 1_024]).number;
        assert!([0, 8, 12, 13].contains(&strict), "{name}: {strict}");
        if done.number == 8 || rows.len() > 120 {
            continue;
        }
        let numbers = &answers[rows.len() - used..][..appended.len()];
        assert!(numbers.iter().map(|&number| number as usize).eq(appended), "{name}");
        let agree = at_every_depth(&with_wires_skipped(&rows));
        for row in used..rows.len() {
            let known: Vec<u32> = (0..used).filter(|&old| agree[row][old]).map(|old| old as u32).collect();
            let number = answers[row - used];
            assert!(known == [number] || known.is_empty() && number as usize >= used, "{name}: row {row}");
        }
        tried += 1;
    }
    assert!(tried > 60, "{tried}");
}

/// A second conversion changes nothing.
#[test]
fn results_are_their_own_results() {
    for (name, words, bytes, _, _) in results() {
        assert_eq!(result(&words, &bytes), bytes, "{name}");
        assert_eq!(result(&[0], &bytes), bytes, "{name}");
    }
}

/// What is reached through rows that are not named, and what is not reached, come often enough.
#[test]
fn every_reach_comes() {
    let (mut deeper, mut less, mut none) = (0, 0, 0);
    for (_, _, _, used, rows) in results().filter(|(_, _, _, _, rows)| rows.len() < 200) {
        let leads = closed(&rows, |_| true);
        let named = |row: usize| rows[used..].iter().any(|own| own.inputs.contains(&row));
        let reached = |row: usize| (used..rows.len()).any(|own| leads[own][row]);
        deeper += usize::from((0..used).any(|row| reached(row) && !named(row)));
        less += usize::from((0..used).any(|row| !reached(row)) && (0..used).any(named));
        none += usize::from(!(0..used).any(named));
    }
    assert!(deeper >= 20 && less >= 20 && none >= 5, "{deeper} deeper, {less} less, {none} none");
}
