//! Every example of the rules.

use super::*;
use crate::converting::{convert, Converted};
use crate::operations::{check, compare, insert, is_key, part_of, write_key};
use crate::operations::{Answer, Inserted, Written};
use crate::{program, store as stores};

/// Inserts with answers that start as 99, so that one left alone is seen.
fn inserted(words: &mut [u32], sheet: &[u8], answers: usize) -> (u32, u32, Vec<u32>) {
    let mut list = vec![99; answers];
    let Inserted { number, added, .. } = insert(words, sheet, &mut list);
    (number, added, list)
}

#[test]
fn one_turn_hold() {
    let mut words = store(3, &[]);
    assert_eq!(inserted(&mut words, &bytes(A), 1), (0, 1, vec![0]));
    assert_eq!(words, store(3, &[(HOLD, &[0])]));
    assert!(is_key(&bytes(A)));
}

#[test]
fn two_turn_hold() {
    let mut words = store(3, &[]);
    assert_eq!(inserted(&mut words, &bytes(B), 3), (0, 1, vec![0, 0, 99]));
    assert_eq!(words, store(3, &[(HOLD, &[0])]));
    assert!(!is_key(&bytes(B)));
}

#[test]
fn channel_less_constant() {
    let mut words = store(4, &[]);
    assert_eq!(inserted(&mut words, &bytes(D), 3), (0, 3, vec![0, 1, 2]));
    let rows: [(u32, &[u32]); 3] = [(DIFFERENCE, &[1, 2]), (CHANNEL_1, &[]), (CONSTANT_40, &[])];
    assert_eq!(words, store(4, &rows));
    assert!(is_key(&bytes(D)));
}

#[test]
fn key_of_the_difference() {
    let words = difference_store();
    let mut buffer = [7; 26];
    assert_eq!(write_key(&words, 2, &mut buffer), Written { number: 0, bytes: 26 });
    assert_eq!(buffer.to_vec(), bytes(D));
    let mut longer = [7; 30];
    assert_eq!(write_key(&words, 2, &mut longer), Written { number: 0, bytes: 26 });
    assert_eq!(longer.to_vec(), [bytes(D), vec![7; 4]].concat());
    let mut short = [7; 25];
    assert_eq!(write_key(&words, 2, &mut short), Written { number: 10, bytes: 0 });
    assert_eq!(short, [7; 25]);
}

/// Unconverted it is refused. Converted it is D, or D with the two inputs of its first row turned.
#[test]
fn difference_by_store_numbers() {
    let mut words = difference_store();
    let known = sheet(&[(DIFFERENCE, &[32_768, 32_769])]);
    assert_eq!(inserted(&mut words, &known, 1), (19, 0, vec![99]));
    let mut buffer = [7; 28];
    assert_eq!(convert(&words, &known, &mut buffer), Converted { number: 0, bytes: 26, place: 0 });
    assert_eq!(buffer.to_vec(), [bytes(D), vec![7, 7]].concat());
    assert_eq!(inserted(&mut words, &buffer[..26], 3), (0, 0, vec![2, 0, 1]));
    assert_eq!(words, difference_store());
    let turned = sheet(&[(DIFFERENCE, &[32_769, 32_768])]);
    assert_eq!(inserted(&mut words, &turned, 1), (19, 0, vec![99]));
    assert_eq!(convert(&words, &turned, &mut buffer), Converted { number: 0, bytes: 26, place: 0 });
    let expected = D.replace("02 00 01 00 02", "02 00 02 00 01");
    assert_eq!(buffer.to_vec(), [bytes(&expected), vec![7, 7]].concat());
    assert_eq!(inserted(&mut words, &buffer[..26], 3), (0, 1, vec![3, 0, 1]));
    assert_eq!(words[19..25], [DIFFERENCE, 2, 1, 0, 0, 0]);
}

#[test]
fn empty_sheet() {
    let mut words = store(2, &[]);
    assert_eq!(inserted(&mut words, &bytes(EMPTY), 0), (0, 0, vec![]));
    assert!(!is_key(&bytes(EMPTY)));
}

#[test]
fn two_one_turn_holds_are_refused() {
    let words = [2, 393_216, 1, 0, 0, 0, 0, 393_216, 1, 1, 0, 0, 0];
    assert_eq!(check(&words), 2);
}

#[test]
fn seven_words() {
    let mut words = store(1, &[(HOLD, &[0])]);
    assert_eq!(words.len(), 7);
    assert_eq!(inserted(&mut words, &bytes(B), 2), (0, 0, vec![0, 0]));
    let channel = sheet(&[(CHANNEL_1, &[])]);
    assert_eq!(inserted(&mut words, &channel, 1), (8, 0, vec![99]));
    assert_eq!(words, store(1, &[(HOLD, &[0])]));
}

#[test]
fn equal_label_other_count() {
    let mut words = store(2, &[]);
    let both = sheet(&[(HOLD, &[]), (HOLD, &[0])]);
    assert_eq!(inserted(&mut words, &both, 2), (0, 2, vec![0, 1]));
    assert_eq!(compare(&words, 0, &words, 1), Answer { number: 0, yes: false });
}

#[test]
fn no_capacity() {
    for length in [1, 6] {
        let mut words = vec![0; length];
        assert_eq!(stores::capacity(&words), 0);
        assert_eq!(inserted(&mut words, &bytes(EMPTY), 0), (0, 0, vec![]));
        assert_eq!(inserted(&mut words, &bytes(A), 1), (8, 0, vec![99]));
    }
    assert_eq!(stores::capacity(&[0; 6_200]), 1_024);
}

#[test]
fn wrong_version_and_wrong_length() {
    let mut both = bytes(A);
    both[4] = 2;
    let mut words = store(2, &[]);
    assert_eq!(inserted(&mut words, &both, 1), (4, 0, vec![99]));
    both[3] = 9;
    assert_eq!(inserted(&mut words, &both, 1), (3, 0, vec![99]));
}

#[test]
fn longest_sheet() {
    let leaves = |count| sheet(&vec![(CHANNEL_1, &[] as &[u16]); count]);
    let mut words = store(1, &[]);
    assert_eq!(inserted(&mut words, &leaves(1_024), 1_024), (0, 1, vec![0; 1_024]));
    assert_eq!(inserted(&mut words, &leaves(1_025), 1_025), (5, 0, vec![99; 1_025]));
}

#[test]
fn most_inputs() {
    let mut words = store(1, &[]);
    assert_eq!(inserted(&mut words, &sheet(&[(HOLD, &[0; 5])]), 1), (5, 0, vec![99]));
    assert_eq!(inserted(&mut words, &sheet(&[(HOLD, &[0; 4])]), 1), (0, 1, vec![0]));
}

#[test]
fn the_program() {
    let bundle = [bytes(B), bytes(A), bytes(D)].concat();
    assert_eq!(program_lines(&bundle), "1 0 1 0 0\n2 0 0 0\n3 0 3 1 2 3\n");
    assert_eq!(program_lines(&[]), "");
}

#[test]
fn the_program_with_refusals_and_a_rest() {
    let mut version = bytes(A);
    version[4] = 2;
    let bundle = [version, bytes(A), vec![0; 4], vec![0, 0, 0]].concat();
    assert_eq!(program_lines(&bundle), "1 4 0\n2 0 1 0\n3 3 0\nrest 3\n");
    assert_eq!(program_lines(&vec![255; 32_768]), "rest 32768\n");
    assert_eq!(program_lines(&vec![255; 32_769]), "long\n");
}

fn program_lines(bundle: &[u8]) -> String {
    let mut lines = Vec::new();
    program::run(bundle, &mut lines).expect("writing to memory");
    String::from_utf8(lines).expect("decimal digits and words")
}

#[test]
fn parts() {
    let words = difference_store();
    let asked = |whole, part| part_of(&words, part, whole);
    assert_eq!(asked(2, 1), Answer { number: 0, yes: true });
    assert_eq!(asked(1, 2), Answer { number: 0, yes: false });
    assert_eq!(asked(1, 1), Answer { number: 0, yes: true });
    assert_eq!(asked(2, 3), Answer { number: 9, yes: false });
    assert_eq!(asked(3, 2), Answer { number: 9, yes: false });
}
