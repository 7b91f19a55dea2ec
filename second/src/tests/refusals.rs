//! What is refused, and which refusal comes first when several apply.

use super::*;
use crate::operations::{check, compare, insert, is_key, part_of, write_key, Answer};

fn no(number: u32) -> Answer {
    Answer { number, yes: false }
}

/// A sheet with all of 4 to 8 wrong for a store of two rows, and the length wrong too.
fn all_wrong() -> Vec<u8> {
    let mut file = sheet(&[(HOLD, &[9]), (HOLD, &[0, 0, 0, 0, 0])]);
    file[3] += 1;
    file[4] = 7;
    file
}

/// Takes one wrong after another away, and the next number is given each time.
#[test]
fn insert_gives_the_lowest() {
    let full: &[(u32, &[u32])] = &[(CHANNEL_1, &[]), (HOLD, &[1])];
    let mut file = all_wrong();
    assert_eq!(number(&mut [], &file, 0), 1);
    let mut unsound = store(2, full);
    unsound[0] = 3;
    assert_eq!(number(&mut unsound, &file, 0), 2);
    let mut words = store(2, full);
    assert_eq!(number(&mut words, &file, 0), 3);
    file[3] -= 1;
    assert_eq!(number(&mut words, &file, 0), 4);
    file[4] = 1;
    assert_eq!(number(&mut words, &file, 0), 5);
    let retired = sheet(&[(HOLD, &[9]), (HOLD, &[32_768])]);
    assert_eq!(number(&mut words, &retired, 0), 19);
    let astray = sheet(&[(HOLD, &[9]), (CONSTANT_40, &[])]);
    assert_eq!(number(&mut words, &astray, 0), 6);
    let good = sheet(&[(HOLD, &[0]), (CONSTANT_40, &[])]);
    assert_eq!(number(&mut words, &good, 1), 7);
    assert_eq!(number(&mut words, &good, 2), 8);
    assert_eq!(number(&mut store(3, full), &good, 2), 0);
}

/// The number an insert gives; a refusal must leave all memory as it was.
fn number(words: &mut [u32], file: &[u8], answers: usize) -> u32 {
    let before = words.to_vec();
    let mut list = vec![5; answers];
    let inserted = insert(words, file, &mut list);
    if inserted.number != 0 {
        assert_eq!((words, list, inserted.added), (&mut before.clone()[..], vec![5; answers], 0));
    }
    inserted.number
}

/// A store number is retired whether or not the store has its row; a row past the sheet's is none of the
/// store's.
#[test]
fn no_store_numbers() {
    for input in [32_768, 32_769, 33_792, 65_535] {
        let file = sheet(&[(CHANNEL_1, &[]), (HOLD, &[input])]);
        assert_eq!(number(&mut store(4, &[]), &file, 2), 19, "{input}");
        assert_eq!(number(&mut store(4, &[(CONSTANT_40, &[])]), &file, 2), 19, "{input}");
    }
    for input in [1, 2, 32_767] {
        let past_the_sheet = sheet(&[(HOLD, &[input])]);
        assert_eq!(number(&mut store(4, &[(CONSTANT_40, &[])]), &past_the_sheet, 1), 6, "{input}");
    }
}

#[test]
fn sound_in_every_clause() {
    assert_eq!(check(&[]), 1);
    assert_eq!(check(&difference_store()), 0);
    // Count over the capacity, also where six times the count would wrap to something small.
    for count in [9, 1_025, 0x2AAA_AAAB, u32::MAX] {
        assert_eq!(check(&changed(0, count)), 2);
    }
    assert_eq!(check(&changed(14, 5)), 2);
    assert_eq!(check(&changed(15, 3)), 2);
    assert_eq!(check(&changed(16, u32::MAX)), 2);
    assert_eq!(check(&changed(17, 1)), 2);
    assert_eq!(check(&changed(3, 1)), 2);
    // Row 1 as row 0 is: one tree twice.
    assert_eq!(check(&changed(7, CHANNEL_1)), 2);
    // Words past the used rows may hold anything.
    assert_eq!(check(&changed(20, 77)), 0);
    assert_eq!(check(&changed(7, 8)), 0);
}

/// The difference store with one word changed.
fn changed(word: usize, value: u32) -> Vec<u32> {
    let mut words = difference_store();
    words[word] = value;
    words
}

/// 1,025 rows that would fit their words are one more than the capacity.
#[test]
fn capacity_stops_at_1024() {
    let constants: Vec<(u32, &[u32])> = (0..1_025).map(|n| (0x0002_0000 + n, &[] as &[u32])).collect();
    assert_eq!(check(&store(1_033, &constants[..1_024])), 0);
    assert_eq!(check(&store(1_033, &constants)), 2);
    assert_eq!(number(&mut store(1_033, &constants[..1_024]), &bytes(A), 1), 8);
    assert_eq!(number(&mut store(1_033, &constants[..1_023]), &bytes(A), 1), 0);
}

#[test]
fn key_refusals_in_order() {
    let given = |words: &[u32], row, room| {
        let mut buffer = vec![3; room];
        let written = write_key(words, row, &mut buffer);
        assert_eq!((written.bytes, buffer), (0, vec![3; room]));
        written.number
    };
    assert_eq!(given(&[], 9, 0), 1);
    assert_eq!(given(&changed(0, 9), 9, 0), 2);
    assert_eq!(given(&difference_store(), 3, 0), 9);
    assert_eq!(given(&difference_store(), u32::MAX, 40), 9);
    assert_eq!(given(&difference_store(), 2, 25), 10);
}

#[test]
fn compare_refusals_in_order() {
    let (good, bad) = (difference_store(), changed(0, 9));
    assert_eq!(compare(&[], 9, &bad, 9), no(1));
    assert_eq!(compare(&bad, 9, &[], 9), no(2));
    assert_eq!(compare(&good, 9, &[], 9), no(1));
    assert_eq!(compare(&good, 9, &bad, 9), no(2));
    assert_eq!(compare(&good, 3, &good, 0), no(9));
    assert_eq!(compare(&good, 0, &good, 3), no(9));
    assert_eq!(compare(&good, 0, &good, 1), no(0));
    assert_eq!(compare(&good, 2, &good, 2), Answer { number: 0, yes: true });
}

#[test]
fn part_of_refusals_in_order() {
    assert_eq!(part_of(&[], 9, 9), no(1));
    assert_eq!(part_of(&changed(0, 9), 9, 9), no(2));
    assert_eq!(part_of(&difference_store(), 9, 0), no(9));
    assert_eq!(part_of(&difference_store(), 0, 9), no(9));
}

#[test]
fn not_keys() {
    assert!(!is_key(&[]));
    assert!(!is_key(&bytes(B)));
    // Row 0 is not the row the others are reached from, though every row is there.
    assert!(!is_key(&sheet(&[(CHANNEL_1, &[]), (CONSTANT_40, &[]), (DIFFERENCE, &[0, 1])])));
    // Rows 1 and 2 are not in the order of the walk.
    assert!(!is_key(&sheet(&[(DIFFERENCE, &[2, 1]), (CONSTANT_40, &[]), (CHANNEL_1, &[])])));
    assert!(!is_key(&sheet(&[(HOLD, &[32_768])])));
    assert!(!is_key(&sheet(&[(HOLD, &[1])])));
    assert!(!is_key(&sheet(&[(HOLD, &[0]), (CHANNEL_1, &[])])));
    assert!(!is_key(&sheet(&[(DIFFERENCE, &[1, 2]), (CHANNEL_1, &[]), (CHANNEL_1, &[])])));
    assert!(!is_key(&bytes(A)[..13]));
    assert!(!is_key(&[bytes(A), vec![0]].concat()));
}

#[test]
fn readable_or_not() {
    let mut words = store(9, &[]);
    assert_eq!(number(&mut words, &[], 9), 3);
    assert_eq!(number(&mut words, &[0, 0, 0, 2, 1, 0], 9), 3);
    // Rows that end past the file, and before its end.
    let mut file = bytes(A);
    file[6] = 2;
    assert_eq!(number(&mut words, &file, 9), 5);
    file[6] = 0;
    assert_eq!(number(&mut words, &file, 9), 5);
    file[6] = 1;
    file[11] = 2;
    assert_eq!(number(&mut words, &file, 9), 5);
    file[11] = 0;
    assert_eq!(number(&mut words, &file, 9), 5);
    file[11] = 1;
    assert_eq!(number(&mut words, &file, 9), 0);
}
