//! The next sheet and the reader.

use super::*;
use crate::bundle::{next_sheet, Reader};

#[test]
fn next_sheets() {
    let two = [bytes(A), bytes(B)].concat();
    assert_eq!(next_sheet(&two), &bytes(A)[..]);
    assert_eq!(next_sheet(&bytes(A)), &bytes(A)[..]);
    for length in 0..14 {
        assert_eq!(next_sheet(&bytes(A)[..length]), &[] as &[u8]);
    }
    assert_eq!(next_sheet(&[0, 0, 0, 0, 5]), &[0, 0, 0, 0]);
    // 4 more than each of these would wrap round in 32 bits.
    for last in [0xFB, 0xFC, 0xFD, 0xFE, 0xFF] {
        assert_eq!(next_sheet(&[0xFF, 0xFF, 0xFF, last, 1, 2, 3]), &[] as &[u8]);
    }
}

#[test]
fn reader_places() {
    let bundle = [bytes(A), bytes(B), vec![0, 0, 0]].concat();
    let mut reader = Reader { bundle: &bundle, at: 0 };
    assert_eq!(reader.step(), &bytes(A)[..]);
    assert_eq!((reader.shown(), reader.at), (&bytes(B)[..], 14));
    assert_eq!(reader.step(), &bytes(B)[..]);
    assert_eq!((reader.step(), reader.at), (&[] as &[u8], 35));
    assert_eq!((reader.step(), reader.at), (&[] as &[u8], 35));
    for at in [38, 39, u32::MAX as usize] {
        let mut reader = Reader { bundle: &bundle, at };
        assert_eq!((reader.step(), reader.at), (&[] as &[u8], at));
    }
}
