//! Mending: each kind of spoiling by itself, the numbers and the four counts, and every sentence of the
//! request held against thrown stores, by the definition of agreement and not by the splitting.

use super::definition::{at_every_depth, closed, is_wire, with_wires_skipped};
use super::*;
use crate::law::DROPPED;
use crate::making;
use crate::mending::{mend, Mended};
use crate::operations::check;
use crate::requests::Request;
use crate::rows::{joined, Row};
use crate::store as stores;
use std::collections::HashMap;

const SUM: u32 = 0x0004_0000;

fn counts(dropped: u32, wires: u32, merged: u32, cleared: u32) -> Mended {
    Mended { number: 0, dropped, wires, merged, cleared }
}

fn refused(number: u32) -> Mended {
    Mended { number, ..Mended::default() }
}

/// What mending gives, and the store and the list after it; the list has an entry for each row.
fn given(mut words: Vec<u32>) -> (Mended, Vec<u32>, Vec<u32>) {
    let mut list = vec![9; words[0] as usize];
    let done = mend(&mut words, &mut list);
    (done, words, list)
}

/// A store of two rows with the first row's words as given, and a channel behind it: the first is
/// dropped, and the channel becomes row 0.
fn first_dropped(row: [u32; 6]) {
    let mut words = store(2, &[(CHANNEL_1, &[]), (CHANNEL_1, &[])]);
    words[1..7].copy_from_slice(&row);
    let (done, after, list) = given(words);
    assert_eq!(done, counts(1, 0, 0, 0), "{row:?}");
    assert_eq!(after, store_of_one(2), "{row:?}");
    assert_eq!(list, [DROPPED, 0], "{row:?}");
}

/// Channel 1, and zero in the words of so many rows.
fn store_of_one(capacity: usize) -> Vec<u32> {
    store(capacity, &[(CHANNEL_1, &[])])
}

#[test]
fn each_kind_of_spoiling_alone() {
    for count in [5, 6, 256, u32::MAX] {
        first_dropped([HOLD, count, 1, 1, 1, 1]);
    }
    for input in [2, 3, 1_024, u32::MAX] {
        first_dropped([HOLD, 1, input, 0, 0, 0]);
        first_dropped([SUM, 2, 1, input, 0, 0]);
    }
    first_dropped([WIRE, 0, 0, 0, 0, 0]);
    first_dropped([WIRE | 9, 2, 1, 1, 0, 0]);
    first_dropped([WIRE, 4, 1, 1, 1, 1]);
    first_dropped([WIRE, 1, 0, 0, 0, 0]);
    // The unused words of a dropped row are not counted.
    first_dropped([WIRE, 0, 7, 7, 7, 7]);
}

/// The row that uses one is dropped, the row that uses that too, and what they use is not.
#[test]
fn rows_that_reach_a_spoiled_one() {
    let rows: &[(u32, &[u32])] =
        &[(HOLD, &[1]), (SUM, &[4, 2]), (HOLD, &[3]), (HOLD | 5, &[9]), (CHANNEL_1, &[])];
    let (done, after, list) = given(store(6, rows));
    assert_eq!(done, counts(4, 0, 0, 0));
    assert_eq!(after, store_of_one(6));
    assert_eq!(list, [DROPPED, DROPPED, DROPPED, DROPPED, 0]);
}

/// Two wires round, one that leads into them and a hold of it; a wire to the channel is none of them.
#[test]
fn loops_of_wires_and_what_leads_into_them() {
    let rows: &[(u32, &[u32])] =
        &[(WIRE, &[1]), (WIRE | 1, &[0]), (WIRE, &[0]), (HOLD, &[2]), (WIRE, &[5]), (CHANNEL_1, &[])];
    let (done, after, list) = given(store(6, rows));
    assert_eq!(done, counts(4, 1, 0, 0));
    assert_eq!(after, store_of_one(6));
    assert_eq!(list, [DROPPED, DROPPED, DROPPED, DROPPED, 0, 0]);
}

/// The wire's number stands for what it leads to, so that tree comes first.
#[test]
fn a_wire_first() {
    let (done, after, list) = given(store(3, &[(WIRE, &[2]), (CHANNEL_1, &[]), (CONSTANT_40, &[])]));
    assert_eq!(done, counts(0, 1, 0, 0));
    assert_eq!(after, store(3, &[(CONSTANT_40, &[]), (CHANNEL_1, &[])]));
    assert_eq!(list, [0, 1, 0]);
}

/// A dropped row that would have been the first of its tree does not count.
#[test]
fn a_dropped_row_stands_for_nothing() {
    let rows: &[(u32, &[u32])] = &[(HOLD, &[3]), (CONSTANT_40, &[]), (HOLD, &[2])];
    let (done, after, list) = given(store(3, rows));
    assert_eq!(done, counts(1, 0, 0, 0));
    assert_eq!(after, store(3, &[(CONSTANT_40, &[]), (HOLD, &[1])]));
    assert_eq!(list, [DROPPED, 0, 1]);
}

/// A hold in one turn beside one in two turns, with a wire in it: one tree.
#[test]
fn merged_loops() {
    let (done, after, list) =
        given(store(5, &[(HOLD, &[0]), (HOLD, &[2]), (HOLD, &[3]), (WIRE, &[1]), (CHANNEL_1, &[])]));
    assert_eq!(done, counts(0, 1, 2, 0));
    assert_eq!(after, store(5, &[(HOLD, &[0]), (CHANNEL_1, &[])]));
    assert_eq!(list, [0, 0, 0, 0, 1]);
}

/// A wire before the only box of its tree: the box is not merged.
#[test]
fn a_box_is_merged_into_a_lower_box_only() {
    let (done, _, list) = given(store(3, &[(WIRE, &[1]), (CHANNEL_1, &[]), (CHANNEL_1, &[])]));
    assert_eq!((done, list), (counts(0, 1, 1, 0), vec![0, 0, 0]));
}

/// Words are counted, not rows; those of a wire and of a merged row too.
#[test]
fn unused_words_are_cleared() {
    let mut words = store(4, &[(CHANNEL_1, &[]), (WIRE, &[0]), (CHANNEL_1, &[]), (HOLD, &[4])]);
    words[3] = 7;
    words[6] = u32::MAX;
    words[10] = 1;
    words[15..19].fill(3);
    words[22] = 5;
    let (done, after, list) = given(words);
    assert_eq!(done, counts(1, 1, 1, 7));
    assert_eq!(after, store_of_one(4));
    assert_eq!(list, [0, 0, 0, DROPPED]);
}

/// A count over the capacity takes all rows; words past the capacity and past the count stand.
#[test]
fn the_count_taken() {
    let mut words = [store(2, &[(CHANNEL_1, &[]), (CHANNEL_1, &[])]), vec![8, 9]].concat();
    words[0] = u32::MAX;
    let mut list = vec![5; 3];
    assert_eq!(mend(&mut words, &mut list), counts(0, 0, 1, 0));
    assert_eq!((words, list), ([store_of_one(2), vec![8, 9]].concat(), vec![0, 0, 5]));
    let mut words = store(3, &[(HOLD, &[1]), (CHANNEL_1, &[])]);
    words[13..].copy_from_slice(&[WIRE, 9, 9, 9, 9, 9]);
    words[0] = 1;
    let after = [vec![0; 7], words[7..].to_vec()].concat();
    assert_eq!(mend(&mut words, &mut [5]), counts(1, 0, 0, 0));
    assert_eq!(words, after);
}

/// From one word to six there is room for no row, and the count becomes 0.
#[test]
fn capacity_0() {
    for length in 1..=6 {
        let mut words = vec![7; length];
        assert_eq!(mend(&mut words, &mut []), counts(0, 0, 0, 0), "{length} words");
        assert_eq!(words, [vec![0], vec![7; length - 1]].concat());
    }
}

#[test]
fn refusals_change_nothing() {
    let mut list = [5, 6];
    assert_eq!(mend(&mut [], &mut list), refused(1));
    assert_eq!(mend(&mut [], &mut []), refused(1));
    let old = store(3, &[(WIRE, &[1]), (HOLD, &[9]), (HOLD, &[9])]);
    let mut words = old.clone();
    assert_eq!(mend(&mut words, &mut list), refused(16));
    assert_eq!(mend(&mut words, &mut []), refused(16));
    assert_eq!((words, list), (old, [5, 6]));
}

/// 1,024 rows: wires in a row to a channel, and in a loop; a chain above a row that is spoiled.
#[test]
fn the_limits() {
    let inputs: Vec<[u32; 1]> = (1..1_024).map(|on| [on]).collect();
    for (label, last, expected, kept) in [
        (WIRE, (CHANNEL_1, &[][..]), counts(0, 1_023, 0, 0), 1),
        (WIRE, (WIRE, &[0][..]), counts(1_024, 0, 0, 0), 0),
        (HOLD, (HOLD, &[1_024][..]), counts(1_024, 0, 0, 0), 0),
        (HOLD, (CHANNEL_1, &[][..]), counts(0, 0, 0, 0), 1_024),
        (HOLD, (HOLD, &[0][..]), counts(0, 0, 1_023, 0), 1),
    ] {
        let rows: Vec<(u32, &[u32])> = inputs.iter().map(|on| (label, &on[..])).chain([last]).collect();
        let (done, after, _) = given(store(1_024, &rows));
        assert_eq!((done, after[0]), (expected, kept));
    }
}

fn requests() -> impl Iterator<Item = (String, Vec<u32>, Vec<u32>)> {
    seeded(40).filter_map(|(seed, place)| match making::request(seed, place) {
        Request::Mend { words, list } => Some((format!("seed {seed} place {place}"), words, list)),
        _ => None,
    })
}

fn taken(words: &[u32]) -> usize {
    ((words.len() - 1) / 6).min(1_024).min(words[0] as usize)
}

/// What every done mending has, at any size.
#[test]
fn every_sentence() {
    let (mut done, mut unchanged) = (0, 0);
    for (name, words, list) in requests() {
        let (mut after, mut numbers) = (words.clone(), list.clone());
        let given = mend(&mut after, &mut numbers);
        if given.number != 0 {
            assert_eq!((&after, &numbers, &given), (&words, &list, &refused(given.number)), "{name}");
            continue;
        }
        let (taken, kept) = (taken(&words), after[0]);
        assert_eq!(kept + given.merged + given.wires + given.dropped, taken as u32, "{name}");
        assert_eq!(check(&after), 0, "{name}: not sound");
        assert_eq!(after[1 + 6 * taken..], words[1 + 6 * taken..], "{name}: words past the rows");
        assert!(after[1 + 6 * kept as usize..1 + 6 * taken].iter().all(|&word| word == 0), "{name}: freed");
        assert_eq!(numbers[taken..], list[taken..], "{name}: entries past the rows");
        let gone = numbers[..taken].iter().filter(|&&number| number == DROPPED).count() as u32;
        assert_eq!(gone, given.dropped, "{name}");
        if check(&words) == 0 {
            assert_eq!((&after, &given), (&words, &counts(0, 0, 0, 0)), "{name}: it was sound");
            assert!(numbers[..taken].iter().copied().eq(0..taken as u32), "{name}");
            unchanged += 1;
        }
        mended_again(&name, &after);
        done += 1;
    }
    assert!(done > 300 && unchanged > 30, "{done} mended, {unchanged} sound");
}

fn mended_again(name: &str, words: &[u32]) {
    let (again, after, list) = given(words.to_vec());
    assert_eq!((again, &after[..]), (counts(0, 0, 0, 0), words), "{name}: mended twice");
    assert!(list.iter().copied().eq(0..words[0]), "{name}: mended twice");
}

/// Each row by its words: with inputs that are taken, and whether it is spoiled by itself.
fn drawn(words: &[u32]) -> Vec<(Row, bool)> {
    let taken = taken(words);
    let row = |row: &[u32]| {
        let used = &row[2..2 + row[1].min(4) as usize];
        let inputs: Vec<usize> = used.iter().map(|&input| input as usize).filter(|&to| to < taken).collect();
        let wrong = row[1] > 4 || inputs.len() < used.len() || row[0] / 65_536 == 7 && row[1] != 1;
        (Row { label: row[0], inputs }, wrong)
    };
    words[1..].chunks_exact(6).take(taken).map(row).collect()
}

/// Which rows are dropped, from tables of ways.
fn dropped(drawn: &[(Row, bool)]) -> Vec<bool> {
    let rows: Vec<Row> = drawn.iter().map(|(row, _)| row.clone()).collect();
    let (ways, wires) = (closed(&rows, |_| true), closed(&rows, is_wire));
    let spoiled: Vec<bool> = drawn.iter().enumerate().map(|(row, one)| one.1 || wires[row][row]).collect();
    let reaches = |row: usize| (0..rows.len()).any(|to| ways[row][to] && spoiled[to]);
    (0..rows.len()).map(|row| spoiled[row] || reaches(row)).collect()
}

/// Small stores against the definition: what is dropped, that each row left has the tree of its new
/// number and of no other, that numbers go by the lowest row left, and the counts.
#[test]
fn against_the_definition() {
    let (mut tried, mut seen) = (0, [0; 4]);
    for (name, words, mut list) in requests().filter(|(_, words, _)| !words.is_empty() && taken(words) <= 40)
    {
        let mut after = words.clone();
        let given = mend(&mut after, &mut list);
        if given.number == 0 {
            defined(&name, &words, &after, &list, &given);
            let counts = [given.dropped, given.wires, given.merged, given.cleared];
            seen.iter_mut().zip(counts).for_each(|(seen, count)| *seen += usize::from(count > 0));
            tried += 1;
        }
    }
    assert!(tried > 250 && seen.iter().all(|&seen| seen > 60), "{tried} tried, of them {seen:?}");
}

fn defined(name: &str, words: &[u32], after: &[u32], list: &[u32], given: &Mended) {
    let drawn = drawn(words);
    let gone = dropped(&drawn);
    let none = Row { label: 0, inputs: Vec::new() };
    let left: Vec<Row> =
        drawn.iter().zip(&gone).map(|((row, _), &gone)| if gone { &none } else { row }.clone()).collect();
    let new = stores::read(after).expect("sound");
    let agree = at_every_depth(&joined(&with_wires_skipped(&left), &new));
    let (mut next, mut merged, mut cleared) = (0, 0, 0);
    for row in 0..left.len() {
        assert_eq!(list[row] == DROPPED, gone[row], "{name}: row {row}");
        if gone[row] {
            continue;
        }
        let number = list[row] as usize;
        let same: Vec<usize> = (0..new.len()).filter(|&at| agree[row][left.len() + at]).collect();
        assert_eq!(same, [number], "{name}: row {row}");
        assert!(number <= next, "{name}: numbers are skipped before row {row}");
        next = next.max(number + 1);
        let other = |&lower: &usize| !gone[lower] && !is_wire(&left[lower]) && agree[row][lower];
        merged += u32::from(!is_wire(&left[row]) && (0..row).any(|lower| other(&lower)));
        let unused = &words[3 + 6 * row + left[row].inputs.len()..7 + 6 * row];
        cleared += unused.iter().filter(|&&word| word != 0).count() as u32;
    }
    let wires = left.iter().filter(|row| is_wire(row)).count() as u32;
    let dropped = gone.iter().filter(|&&gone| gone).count() as u32;
    assert_eq!(next, new.len(), "{name}: rows of no old number");
    assert_eq!(given, &counts(dropped, wires, merged, cleared), "{name}");
}

/// What a store has, whatever is given for it.
fn cases_of(words: &[u32], list: &[u32]) -> Vec<&'static str> {
    let (taken, capacity) = (taken(words), ((words.len() - 1) / 6).min(1_024));
    let rows: Vec<&[u32]> = words[1..].chunks_exact(6).take(taken).collect();
    let any = |test: &dyn Fn(&[u32]) -> bool| rows.iter().any(|row| test(row));
    let wire = |row: &[u32]| row[0] / 65_536 == 7;
    let used = |row: &[u32]| row[1].min(4) as usize;
    let cases = [
        ("capacity 0, a count", capacity == 0 && words[0] > 0),
        ("a count over the capacity", words[0] as usize > capacity && capacity > 0),
        ("over 4 inputs", any(&|row| row[1] > 4)),
        ("an input at the count", any(&|row| row[2..2 + used(row)].contains(&(taken as u32)))),
        ("an input past it", any(&|row| row[2..2 + used(row)].iter().any(|&to| to as usize > taken))),
        ("a wire of no input", any(&|row| wire(row) && row[1] == 0)),
        ("a wire of 2 to 4", any(&|row| wire(row) && (2..5).contains(&row[1]))),
        ("a wire to itself", rows.iter().enumerate().any(|(n, row)| wire(row) && row[1..3] == [1, n as u32])),
        ("a wire first", rows.first().is_some_and(|row| wire(row) && row[2] > 1)),
        ("unused words set", any(&|row| row[2 + used(row)..].iter().any(|&word| word != 0))),
        ("junk past the rows", words[1 + 6 * taken..].iter().any(|&word| word != 0)),
        ("a list just long enough", taken > 0 && list.len() == taken),
        ("a longer list", list.len() > taken),
        ("a list short by one", list.len() + 1 == taken),
        ("1,024 rows", taken == 1_024),
    ];
    cases.into_iter().filter(|case| case.1).map(|case| case.0).collect()
}

/// What mending a store of over 900 rows gave, where it is one of these.
fn deep_case(given: &Mended, kept: u32) -> Option<&'static str> {
    match given {
        Mended { dropped: 900.., .. } => Some("nearly all dropped"),
        Mended { merged: 500.., .. } => Some("nearly all merged"),
        Mended { wires: 900.., .. } => Some("nearly all wires"),
        _ if kept > 900 => Some("nearly all kept"),
        _ => None,
    }
}

/// Each case comes often enough.
#[test]
fn every_case_comes() {
    let mut seen: HashMap<&str, usize> = HashMap::new();
    for (_, mut words, mut list) in requests().filter(|(_, words, _)| !words.is_empty()) {
        cases_of(&words, &list).into_iter().for_each(|case| *seen.entry(case).or_default() += 1);
        let large = taken(&words) > 900;
        let given = mend(&mut words, &mut list);
        let deep = deep_case(&given, words[0]).filter(|_| large);
        deep.into_iter().for_each(|case| *seen.entry(case).or_default() += 1);
    }
    assert_eq!(seen.len(), 19, "{seen:?}");
    assert!(seen.values().all(|&count| count >= 3), "{seen:?}");
}
