//! Requests as bytes and answers as lines.

use super::*;
use crate::answers::{answer_all, line};
use crate::requests::{pick, Request};

fn answers(requests: &[u8]) -> String {
    let mut lines = Vec::new();
    answer_all(requests, &mut lines).expect("writing to memory");
    String::from_utf8(lines).expect("lines of plain text")
}

#[test]
fn lines_with_lent_memory() {
    let words = store(1, &[(HOLD, &[0])]);
    assert_eq!(line(Request::Check { words: words.clone() }), "1 0");
    let request = Request::Insert { words: words.clone(), sheet: bytes(B), answers: vec![8, 8, 8] };
    assert_eq!(line(request), "2 0 0 0 / 1 393216 1 0 0 0 0 / 0 0 8");
    let request = Request::Key { words: words.clone(), row: 0, buffer: vec![0xEE; 16] };
    assert_eq!(line(request), "3 0 14 / 0000000a01000100060000010000eeee");
    assert_eq!(line(Request::IsKey { bytes: bytes(A) }), "4 1");
    assert_eq!(line(Request::IsKey { bytes: bytes(B) }), "4 0");
}

#[test]
fn lines_of_questions_and_walks() {
    let words = store(1, &[(HOLD, &[0])]);
    let request = Request::Compare { first: words.clone(), row: 0, second: words, other: 0 };
    assert_eq!(line(request), "5 0 1");
    let words = difference_store();
    assert_eq!(line(Request::PartOf { words: words.clone(), whole: 2, part: 0 }), "6 0 1");
    assert_eq!(line(Request::PartOf { words, whole: 0, part: 2 }), "6 0 0");
    let bundle = [bytes(A), bytes(B), vec![0]].concat();
    assert_eq!(line(Request::Next { bytes: bundle.clone() }), "7 14");
    let request = Request::Reader { bundle, at: 0, steps: 4 };
    assert_eq!(line(request), "8 14:14 21:35 0:35 0:35");
}

#[test]
fn lines_with_a_place() {
    let sheet = bytes("00 00 00 0A 01 00 01 00 06 00 00 01 00 01");
    assert_eq!(line(Request::ReadSheet { sheet: sheet.clone() }), "9 0 0");
    let request = Request::Insert { words: vec![0, 7], sheet, answers: vec![8] };
    assert_eq!(line(request), "2 6 0 12 / 0 7 / 8");
    let mut version = bytes(A);
    version[4] = 0;
    assert_eq!(line(Request::ReadSheet { sheet: version.clone() }), "9 4 4");
    assert_eq!(line(Request::Insert { words: vec![0], sheet: version, answers: vec![] }), "2 4 0 4 / 0 / ");
}

#[test]
fn lines_of_strict_inserts() {
    let strict = |words: Vec<u32>, sheet| line(Request::InsertStrict { words, sheet, answers: vec![8, 8] });
    assert_eq!(strict(store(1, &[]), bytes(A)), "10 0 1 0 / 1 393216 1 0 0 0 0 / 0 8");
    let looped = sheet(&[(DIFFERENCE, &[0, 0])]);
    assert_eq!(strict(vec![0, 7], looped), "10 13 0 0 / 0 7 / 8 8");
    assert_eq!(strict(vec![0, 7], sheet(&[(HOLD, &[])])), "10 12 0 0 / 0 7 / 8 8");
    assert_eq!(strict(vec![0, 7], sheet(&[(HOLD, &[1])])), "10 6 0 12 / 0 7 / 8 8");
}

#[test]
fn lines_of_wires() {
    let plain = |sheet| line(Request::Insert { words: vec![0, 7], sheet, answers: vec![8, 8] });
    assert_eq!(plain(sheet(&[(WIRE, &[])])), "2 14 0 0 / 0 7 / 8 8");
    assert_eq!(plain(sheet(&[(WIRE | 9, &[0])])), "2 15 0 0 / 0 7 / 8 8");
    let drawn = sheet(&[(WIRE, &[1]), (HOLD, &[0])]);
    let request = Request::InsertStrict { words: vec![0; 7], sheet: drawn.clone(), answers: vec![8; 3] };
    assert_eq!(line(request), "10 0 1 0 / 1 393216 1 0 0 0 0 / 0 0 8");
    assert_eq!(line(Request::ReadSheet { sheet: sheet(&[(WIRE, &[0, 0])]) }), "9 0 0");
    assert_eq!(line(Request::IsKey { bytes: drawn }), "4 0");
    let words = store(1, &[(WIRE, &[0])]);
    assert_eq!(line(Request::Check { words: words.clone() }), "1 2");
    assert_eq!(line(Request::PartOf { words, whole: 0, part: 0 }), "6 2 0");
}

#[test]
fn lines_of_mending() {
    let mending = |words, list| line(Request::Mend { words, list });
    let words = store(2, &[(WIRE, &[1]), (HOLD, &[0])]);
    assert_eq!(mending(words.clone(), vec![8; 3]), "11 0 0 1 0 0 / 1 393216 1 0 0 0 0 0 0 0 0 0 0 / 0 0 8");
    assert_eq!(mending(words, vec![8]), "11 16 0 0 0 0 / 2 458752 1 1 0 0 0 393216 1 0 0 0 0 / 8");
    assert_eq!(mending(vec![1, WIRE, 0, 7, 0, 0, 0], vec![8]), "11 0 1 0 0 0 / 0 0 0 0 0 0 0 / 4294967295");
    assert_eq!(mending(vec![9, 9], vec![]), "11 0 0 0 0 0 / 0 9 / ");
}

#[test]
fn lines_of_runs() {
    let run = |words: &[u32], row, channels, values: &[i32], output: &[i32]| {
        let (words, values, output) = (words.to_vec(), values.to_vec(), output.to_vec());
        line(Request::Run { words, row, channels, values, output })
    };
    let words = difference_store();
    assert_eq!(run(&words, 2, 2, &[0, 45, 9, -45], &[7, 7, -7]), "12 0 / 5 -85 -7");
    assert_eq!(run(&words, 0, 2, &[0, i32::MIN], &[i32::MAX]), "12 0 / -2147483648");
    assert_eq!(run(&words, 2, 2, &[], &[-1, i32::MIN]), "12 0 / -1 -2147483648");
    assert_eq!(run(&words, 2, 1, &[5], &[-7]), "12 17 / -7");
    assert_eq!(run(&words, 2, 2, &[5, 5], &[]), "12 18 / ");
    assert_eq!(run(&words, 3, 2, &[], &[]), "12 9 / ");
}

#[test]
fn empty_runs_keep_their_spaces() {
    let request = Request::Insert { words: vec![], sheet: vec![], answers: vec![] };
    assert_eq!(line(request), "2 1 0 0 /  / ");
    let request = Request::InsertStrict { words: vec![], sheet: vec![], answers: vec![] };
    assert_eq!(line(request), "10 1 0 0 /  / ");
    assert_eq!(line(Request::Mend { words: vec![], list: vec![] }), "11 1 0 0 0 0 /  / ");
    let request = Request::Run { words: vec![], row: 0, channels: 0, values: vec![], output: vec![] };
    assert_eq!(line(request), "12 1 / ");
    let request = Request::Convert { words: vec![], sheet: vec![], buffer: vec![] };
    assert_eq!(line(request), "13 1 0 0 / ");
    assert_eq!(line(Request::ReadSheet { sheet: vec![] }), "9 3 0");
    assert_eq!(line(Request::Key { words: vec![], row: 0, buffer: vec![] }), "3 1 0 / ");
    assert_eq!(line(Request::Reader { bundle: vec![], at: 3, steps: 0 }), "8 ");
    assert_eq!(line(Request::Reader { bundle: vec![], at: 3, steps: 2 }), "8 0:3 0:3");
    assert_eq!(line(Request::Next { bytes: vec![] }), "7 0");
}

/// The order of the arguments, and that numbers have their highest byte first.
#[test]
fn requests_as_bytes() {
    let request = bytes("06 00 00 00 01 01 02 03 04 00 00 00 05 00 00 01 00");
    let expected = Request::PartOf { words: vec![0x0102_0304], whole: 5, part: 256 };
    assert_eq!(expected.written(), request);
    let request = bytes("03 00 00 00 00 00 00 00 07 00 00 00 02 AA BB");
    assert_eq!(Request::Key { words: vec![], row: 7, buffer: vec![0xAA, 0xBB] }.written(), request);
    assert_eq!(answers(&request), "3 1 0 / aabb\n");
    let request = bytes("09 00 00 00 07 00 00 00 03 01 04 01");
    assert_eq!(Request::ReadSheet { sheet: vec![0, 0, 0, 3, 1, 4, 1] }.written(), request);
    assert_eq!(answers(&request), "9 5 5\n");
    let request = bytes("0A 00 00 00 01 00 00 00 00 00 00 00 02 AA BB 00 00 00 01 00 00 00 09");
    let expected = Request::InsertStrict { words: vec![0], sheet: vec![0xAA, 0xBB], answers: vec![9] };
    assert_eq!(expected.written(), request);
    assert_eq!(answers(&request), "10 3 0 0 / 0 / 9\n");
    let request = bytes("0B 00 00 00 01 00 00 00 07 00 00 00 02 00 00 00 08 00 00 00 09");
    assert_eq!(Request::Mend { words: vec![7], list: vec![8, 9] }.written(), request);
    assert_eq!(answers(&request), "11 0 0 0 0 0 / 0 / 8 9\n");
    let request = bytes("0D 00 00 00 01 00 00 00 00 00 00 00 02 AA BB 00 00 00 01 CC");
    let expected = Request::Convert { words: vec![0], sheet: vec![0xAA, 0xBB], buffer: vec![0xCC] };
    assert_eq!(expected.written(), request);
    assert_eq!(answers(&request), "13 3 0 0 / cc\n");
}

/// Signed numbers are words in two's complement.
#[test]
fn signed_runs_as_bytes() {
    let runs = "00 00 00 03 FF FF FF FF 80 00 00 00 7F FF FF FF 00 00 00 01 FF FF FF FE";
    let request = bytes(&format!("0C 00 00 00 01 00 00 00 00 00 00 00 05 00 00 00 02 {runs}"));
    let values = vec![-1, i32::MIN, i32::MAX];
    let expected = Request::Run { words: vec![0], row: 5, channels: 2, values, output: vec![-2] };
    assert_eq!(expected.written(), request);
    assert_eq!(answers(&request), "12 9 / -2\n");
}

#[test]
fn endings() {
    let good = bytes("07 00 00 00 00");
    let after_good = |more: &str| answers(&[good.clone(), bytes(more)].concat());
    assert_eq!(after_good(""), "7 0\n");
    assert_eq!(after_good("0E"), "7 0\nwhat\n");
    assert_eq!(after_good("00 00 00"), "7 0\nwhat\n");
    assert_eq!(after_good("07"), "7 0\ncut\n");
    assert_eq!(after_good("07 00 00 00"), "7 0\ncut\n");
    assert_eq!(after_good("07 00 00 00 01"), "7 0\ncut\n");
    assert_eq!(after_good("06 00 00 00 00 00 00 00 01 00 00 00"), "7 0\ncut\n");
    // One over the room is long even with nothing behind it, the room itself is only cut.
    assert_eq!(after_good("07 00 01 00 00"), "7 0\ncut\n");
    assert_eq!(after_good("07 00 01 00 01"), "7 0\nlong\n");
    assert_eq!(after_good("01 00 00 20 00"), "7 0\ncut\n");
    assert_eq!(after_good("01 00 00 20 01"), "7 0\nlong\n");
    assert_eq!(after_good("01 FF FF FF FF"), "7 0\nlong\n");
    assert_eq!(after_good("09"), "7 0\ncut\n");
    assert_eq!(after_good("09 00 01 00 00"), "7 0\ncut\n");
    assert_eq!(after_good("09 00 01 00 01"), "7 0\nlong\n");
    // The answers are words and the key buffer is bytes.
    assert_eq!(after_good("02 00 00 00 00 00 00 00 00 00 00 20 01"), "7 0\nlong\n");
    assert_eq!(after_good("0A 00 00 00 00 00 00 00 00 00 00 20 01"), "7 0\nlong\n");
    assert_eq!(after_good("0A 00 00 00 00 00 00 00 00"), "7 0\ncut\n");
    assert_eq!(after_good("0B 00 00 20 01"), "7 0\nlong\n");
    assert_eq!(after_good("0B 00 00 00 00 00 00 20 01"), "7 0\nlong\n");
    assert_eq!(after_good("0B 00 00 00 00 00 00 20 00"), "7 0\ncut\n");
    assert_eq!(after_good("0C 00 00 20 01"), "7 0\nlong\n");
    assert_eq!(after_good("0C 00 00 00 00 00 00 00 00 00 00 00"), "7 0\ncut\n");
    assert_eq!(after_good("0C 00 00 00 00 00 00 00 00 00 00 00 00 00 00 20 01"), "7 0\nlong\n");
    assert_eq!(after_good("0C 00 00 00 00 00 00 00 00 00 00 00 00 00 00 00 00 00 00 20 01"), "7 0\nlong\n");
    assert_eq!(after_good("0C 00 00 00 00 00 00 00 00 00 00 00 00 00 00 00 00 00 00 20 00"), "7 0\ncut\n");
    assert_eq!(after_good("03 00 00 00 00 00 00 00 00 00 00 20 01"), "7 0\ncut\n");
    assert_eq!(after_good("03 00 00 00 00 00 00 00 00 00 01 00 01"), "7 0\nlong\n");
    assert_eq!(after_good("0D 00 00 20 01"), "7 0\nlong\n");
    assert_eq!(after_good("0D 00 00 00 00 00 01 00 01"), "7 0\nlong\n");
    assert_eq!(after_good("0D 00 00 00 00 00 00 00 00"), "7 0\ncut\n");
    assert_eq!(after_good("0D 00 00 00 00 00 00 00 00 00 01 00 01"), "7 0\nlong\n");
    assert_eq!(after_good("0D 00 00 00 00 00 00 00 00 00 01 00 00"), "7 0\ncut\n");
    // A reader takes 65,536 steps at most; the number is read first.
    assert_eq!(after_good("08 00 00 00 00 00 00 00 00 00 01 00 01"), "7 0\nlong\n");
    assert_eq!(after_good("08 00 00 00 00 00 00 00 00 FF FF FF FF"), "7 0\nlong\n");
    assert_eq!(after_good("08 00 00 00 00 00 00 00 00 FF FF FF"), "7 0\ncut\n");
    // Nothing behind an ending is read.
    assert_eq!(after_good("0E 07 00 00 00 00"), "7 0\nwhat\n");
}

#[test]
fn runs_as_long_as_the_room() {
    let full = Request::Check { words: vec![0; 8_192] }.written();
    assert_eq!(answers(&full), "1 0\n");
    let full = Request::Next { bytes: vec![0; 65_536] }.written();
    assert_eq!(answers(&full), "7 4\n");
    let full = Request::ReadSheet { sheet: vec![0; 65_536] }.written();
    assert_eq!(answers(&full), "9 3 0\n");
    let full = Request::Convert { words: vec![0; 8_192], sheet: bytes(EMPTY), buffer: vec![9; 65_536] };
    assert_eq!(answers(&full.written()), format!("13 0 7 0 / 00000003010000{}\n", "09".repeat(65_529)));
    let (values, output) = (vec![-7; 8_192], vec![9; 8_192]);
    let full = Request::Run { words: store(1, &[(0x0001_0000, &[])]), row: 0, channels: 1, values, output };
    assert_eq!(answers(&full.written()), format!("12 0 /{}\n", " -7".repeat(8_192)));
    let full = Request::Reader { bundle: vec![], at: 0, steps: 65_536 }.written();
    assert_eq!(answers(&full), format!("8{}\n", " 0:0".repeat(65_536)));
}

#[test]
fn picking() {
    let (first, second) = (bytes("07 00 00 00 00"), bytes("04 00 00 00 01 33"));
    let all = [first.clone(), second.clone(), vec![14, 9]].concat();
    assert_eq!(pick(&all, 1), Some(&first[..]));
    assert_eq!(pick(&all, 2), Some(&second[..]));
    assert_eq!(pick(&all, 3), Some(&[14, 9][..]));
    assert_eq!(pick(&all, 4), None);
    assert_eq!(pick(&first, 2), None);
}
