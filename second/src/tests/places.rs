//! Where a sheet's fault starts: each kind of fault in the first row, in the middle and in the last,
//! the sheets written out.

use super::*;
use crate::converting::convert;
use crate::operations::{insert, read_sheet};

/// Three rows, at bytes 7, 14 and 23: a hold of row 1, a sum of rows 0 and 2, a hold of row 0.
const GOOD: &str = "00 00 00 1A 01 00 03
    00 06 00 00 01 00 01
    00 04 00 00 02 00 00 00 02
    00 06 00 01 01 00 00";

/// Number and place of the sheet read.
fn read(written: &str) -> (u32, usize) {
    let read = read_sheet(&bytes(written));
    (read.number, read.place)
}

/// Number and place of the sheet inserted into a store of three rows, which has room.
fn inserted(written: &str) -> (u32, usize) {
    inserted_into(&difference_store(), written, 3)
}

fn inserted_into(words: &[u32], written: &str, answers: usize) -> (u32, usize) {
    let done = insert(&mut words.to_vec(), &bytes(written), &mut vec![0; answers]);
    (done.number, done.place)
}

/// A fault that is met without the store: reading, inserting and converting say the same of it.
fn both_say(written: &str, number: u32, place: usize) {
    assert_eq!(read(written), (number, place), "read: {written}");
    assert_eq!(inserted(written), (number, place), "inserted: {written}");
    let converted = convert(&difference_store(), &bytes(written), &mut [0; 99]);
    assert_eq!((converted.number, converted.place), (number, place), "converted: {written}");
}

#[test]
fn no_fault() {
    both_say(GOOD, 0, 0);
    both_say(EMPTY, 0, 0);
}

#[test]
fn the_length_field() {
    both_say("", 3, 0);
    both_say("00 00 00", 3, 0);
    both_say("00 00 00 02 01 00", 3, 0);
    both_say("00 00 00 04 01 00 00", 3, 0);
    both_say("FF FF FF FF 01 00 00", 3, 0);
    // With the version, the row count and a row wrong as well.
    both_say("00 00 00 09 02 FF FF 00 06 00 00 05", 3, 0);
}

#[test]
fn the_version() {
    both_say("00 00 00 03 02 00 00", 4, 4);
    both_say("00 00 00 03 00 00 00", 4, 4);
    both_say("00 00 00 08 02 FF FF 00 06 00 00 05", 4, 4);
}

#[test]
fn the_row_count() {
    both_say("00 00 00 03 01 04 01", 5, 5);
    both_say("00 00 00 03 01 FF FF", 5, 5);
    // The rows of a sheet that could be read, a bad row, and bytes left over change nothing.
    both_say(&GOOD.replace("01 00 03\n", "01 04 03\n"), 5, 5);
    both_say("00 00 00 08 01 04 01 00 06 00 00 05", 5, 5);
    // 1,024 is not over 1,024: the first row is missing.
    both_say("00 00 00 03 01 04 00", 5, 7);
}

#[test]
fn a_row_with_five_inputs() {
    let first = "00 00 00 22 01 00 03
        00 06 00 00 05 00 01 00 00 00 00 00 00 00 00
        00 04 00 00 02 00 00 00 02
        00 06 00 01 01 00 00";
    let middle = "00 00 00 20 01 00 03
        00 06 00 00 01 00 01
        00 04 00 00 05 00 00 00 02 00 00 00 00 00 00
        00 06 00 01 01 00 00";
    let last = "00 00 00 22 01 00 03
        00 06 00 00 01 00 01
        00 04 00 00 02 00 00 00 02
        00 06 00 01 05 00 00 00 00 00 00 00 00 00 00";
    both_say(first, 5, 7);
    both_say(middle, 5, 14);
    both_say(last, 5, 23);
    // So many that they end past the file too.
    both_say(&GOOD.replace("00 06 00 00 01", "00 06 00 00 FF"), 5, 7);
    both_say(&GOOD.replace("00 04 00 00 02", "00 04 00 00 FF"), 5, 14);
    both_say(&GOOD.replace("00 06 00 01 01", "00 06 00 01 FF"), 5, 23);
}

#[test]
fn a_row_past_the_file() {
    // No byte of the row is there: it starts where the file ends.
    both_say("00 00 00 03 01 00 03", 5, 7);
    both_say("00 00 00 0A 01 00 03 00 06 00 00 01 00 01", 5, 14);
    both_say("00 00 00 13 01 00 03 00 06 00 00 01 00 01 00 04 00 00 02 00 00 00 02", 5, 23);
    // A byte, all but the input count, and all but the last byte.
    both_say("00 00 00 04 01 00 03 00", 5, 7);
    both_say("00 00 00 07 01 00 03 00 06 00 00", 5, 7);
    both_say("00 00 00 09 01 00 03 00 06 00 00 01 00", 5, 7);
    both_say("00 00 00 0B 01 00 03 00 06 00 00 01 00 01 00", 5, 14);
    both_say("00 00 00 12 01 00 03 00 06 00 00 01 00 01 00 04 00 00 02 00 00 00", 5, 14);
    let last = "00 00 00 19 01 00 03
        00 06 00 00 01 00 01
        00 04 00 00 02 00 00 00 02
        00 06 00 01 01 00";
    both_say(last, 5, 23);
    // One row more than there are.
    both_say(&GOOD.replace("01 00 03\n", "01 00 04\n"), 5, 30);
}

#[test]
fn bytes_left_over() {
    both_say("00 00 00 04 01 00 00 09", 5, 7);
    both_say(&(GOOD.replace("00 00 00 1A", "00 00 00 1B") + " 00"), 5, 30);
    both_say(&(GOOD.replace("00 00 00 1A", "00 00 00 21") + " 00 06 00 00 01 00 00"), 5, 30);
    // A row less than there are, and none.
    both_say(&GOOD.replace("01 00 03\n", "01 00 02\n"), 5, 23);
    both_say(&GOOD.replace("01 00 03\n", "01 00 00\n"), 5, 7);
}

#[test]
fn the_first_of_two_bad_rows() {
    let middle_and_last =
        GOOD.replace("00 04 00 00 02", "00 04 00 00 05").replace("01 01 00 00", "01 05 00 00");
    both_say(&middle_and_last, 5, 14);
    let first_and_last =
        GOOD.replace("00 06 00 00 01", "00 06 00 00 05").replace("01 01 00 00", "01 05 00 00");
    both_say(&first_and_last, 5, 7);
    // A bad row before the bytes left over.
    both_say(&(middle_and_last.replace("00 00 00 1A", "00 00 00 1B") + " 00"), 5, 14);
}

#[test]
fn an_input_that_points_nowhere() {
    let astray = |from: &str, to: &str| inserted(&GOOD.replace(from, to));
    // Past the sheet's three rows, in the first row, in the middle on the left and the right, and in the last.
    assert_eq!(astray("00 06 00 00 01 00 01", "00 06 00 00 01 00 03"), (6, 12));
    assert_eq!(astray("02 00 00 00 02", "02 00 03 00 02"), (6, 19));
    assert_eq!(astray("02 00 00 00 02", "02 00 00 7F FF"), (6, 21));
    assert_eq!(astray("00 06 00 01 01 00 00", "00 06 00 01 01 00 03"), (6, 28));
    // Any store number is retired, and has no place.
    assert_eq!(astray("00 06 00 00 01 00 01", "00 06 00 00 01 80 03"), (19, 0));
    assert_eq!(astray("02 00 00 00 02", "02 80 03 80 02"), (19, 0));
    assert_eq!(astray("00 06 00 01 01 00 00", "00 06 00 01 01 FF FF"), (19, 0));
    assert_eq!(astray("02 00 00 00 02", "02 80 02 80 00"), (19, 0));
}

/// The converter holds them against the store: past its three rows they point nowhere.
#[test]
fn a_store_number_that_points_nowhere() {
    let astray = |from: &str, to: &str| {
        let done = convert(&difference_store(), &bytes(&GOOD.replace(from, to)), &mut [0; 99]);
        (done.number, done.place)
    };
    assert_eq!(astray("00 06 00 00 01 00 01", "00 06 00 00 01 00 03"), (6, 12));
    assert_eq!(astray("00 06 00 00 01 00 01", "00 06 00 00 01 80 03"), (6, 12));
    assert_eq!(astray("02 00 00 00 02", "02 80 03 80 02"), (6, 19));
    assert_eq!(astray("02 00 00 00 02", "02 80 02 80 03"), (6, 21));
    assert_eq!(astray("00 06 00 01 01 00 00", "00 06 00 01 01 FF FF"), (6, 28));
    assert_eq!(astray("02 00 00 00 02", "02 80 02 80 00"), (0, 0));
}

#[test]
fn the_last_of_four_inputs() {
    let written = "00 00 00 15 01 00 02 00 01 00 01 00 00 04 00 00 04 00 00 00 01 00 00 00 02";
    assert_eq!(inserted(written), (6, 23));
}

#[test]
fn the_first_of_two_inputs_astray() {
    assert_eq!(inserted(&GOOD.replace("02 00 00 00 02", "02 00 03 00 03")), (6, 19));
    let middle_and_last = GOOD.replace("00 00 00 02", "00 00 7F FF").replace("01 01 00 00", "01 01 00 09");
    assert_eq!(inserted(&middle_and_last), (6, 21));
    let first_and_last = GOOD.replace("01 00 01", "01 00 09").replace("01 01 00 00", "01 01 00 09");
    assert_eq!(inserted(&first_and_last), (6, 12));
}

/// An input astray in the first row comes behind any fault of the reading, and reading alone does
/// not look for it.
#[test]
fn inputs_come_last() {
    let astray = GOOD.replace("00 06 00 00 01 00 01", "00 06 00 00 01 00 09");
    assert_eq!((read(&astray), inserted(&astray)), ((0, 0), (6, 12)));
    both_say(&astray.replace("00 06 00 01 01", "00 06 00 01 05"), 5, 23);
    both_say(&(astray.replace("00 00 00 1A", "00 00 00 1B") + " 00"), 5, 30);
    both_say(&astray.replace("1A 01", "1A 02"), 4, 4);
}

/// What is not the sheet's fault has place 0, whatever is wrong with the sheet besides.
#[test]
fn no_place() {
    let faulty = [
        "00 00",
        "00 00 00 03 02 00 00",
        "00 00 00 03 01 04 01",
        "00 00 00 0A 01 00 01 00 06 00 00 01 00 01",
    ];
    let mut unsound = difference_store();
    unsound[0] = 9;
    for written in faulty {
        assert_ne!(inserted(written).0, 0, "{written}");
        assert_eq!(inserted_into(&[], written, 0), (1, 0), "{written}");
        assert_eq!(inserted_into(&unsound, written, 0), (2, 0), "{written}");
    }
    assert_eq!(inserted_into(&difference_store(), GOOD, 2), (7, 0));
    assert_eq!(inserted_into(&difference_store()[..19], GOOD, 3), (8, 0));
    assert_eq!(inserted_into(&difference_store(), GOOD, 3), (0, 0));
}

/// The last of 1,024 rows of four inputs starts at byte 7 + 1,023 * 13.
#[test]
fn the_last_row_of_the_longest_sheet() {
    let inputs: &[u16] = &[0, 1, 2, 1_023];
    let mut file = sheet(&vec![(HOLD, inputs); 1_024]);
    assert_eq!(file.len(), 13_319);
    let found = |file: &[u8]| {
        let done = insert(&mut store(8, &[]), file, &mut [0; 1_024]);
        (done.number, done.place)
    };
    assert_eq!(found(&file), (0, 0));
    file[13_317] = 4;
    assert_eq!(found(&file), (6, 13_317));
    file[13_310] = 5;
    assert_eq!(found(&file), (5, 13_306));
    assert_eq!(read_sheet(&file).place, 13_306);
}
