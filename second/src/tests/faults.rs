//! Each fault shows where its way of being wrong is said to show.

use super::*;
use crate::answers::line;
use crate::faults::{self, Fault};
use crate::making::{self, bundles};
use crate::program;
use crate::requests::Request;

/// The lines of both, the honest one first. Faults are planted in this test's thread alone.
fn honest_and_faulty(fault: Fault, request: &Request) -> (String, String) {
    let honest = line(request.clone());
    faults::plant(fault);
    let faulty = line(request.clone());
    (honest, faulty)
}

fn insert(words: Vec<u32>, sheet: Vec<u8>, answers: usize) -> Request {
    Request::Insert { words, sheet, answers: vec![9; answers] }
}

#[test]
fn leaves_up_misses_a_second_loop() {
    let request = insert(store(2, &[]), bytes(B), 2);
    let (honest, faulty) = honest_and_faulty(Fault::LeavesUp, &request);
    assert!(honest.starts_with("2 0 1 "), "{honest}");
    assert!(faulty.starts_with("2 0 2 "), "{faulty}");
}

#[test]
fn leaves_up_still_sees_leaves() {
    faults::plant(Fault::LeavesUp);
    let twice = sheet(&[(HOLD, &[1]), (CHANNEL_1, &[]), (HOLD, &[3]), (CHANNEL_1, &[])]);
    let line = line(insert(store(4, &[]), twice, 4));
    assert!(line.starts_with("2 0 2 ") && line.ends_with(" / 0 1 0 1"), "{line}");
}

/// Comparing rows 1 and 0 fails at the leaves, but leaves the pair assumed; then rows 3 and 2,
/// which lead to that pair, seem one.
#[test]
fn kept_assumptions_join_what_failed() {
    let rows: [(u32, &[u16]); 6] = [
        (HOLD, &[4]),
        (HOLD, &[5]),
        (DIFFERENCE, &[0]),
        (DIFFERENCE, &[1]),
        (CHANNEL_1, &[]),
        (CONSTANT_40, &[]),
    ];
    let request = insert(store(6, &[]), sheet(&rows), 6);
    let (honest, faulty) = honest_and_faulty(Fault::KeptAssumptions, &request);
    assert!(honest.starts_with("2 0 6 "), "{honest}");
    assert!(faulty.starts_with("2 0 5 "), "{faulty}");
}

#[test]
fn one_known_is_not_all_known() {
    let words = store(3, &[(CHANNEL_1, &[])]);
    let request = insert(words, sheet(&[(CHANNEL_1, &[]), (HOLD, &[1])]), 2);
    let (honest, faulty) = honest_and_faulty(Fault::OneKnownAllKnown, &request);
    assert!(honest.starts_with("2 0 1 ") && honest.ends_with(" / 0 1"), "{honest}");
    assert!(faulty.starts_with("2 0 0 ") && faulty.ends_with(" / 0 0"), "{faulty}");
}

#[test]
fn labels_are_not_enough() {
    let request = insert(store(2, &[]), sheet(&[(HOLD, &[]), (HOLD, &[0])]), 2);
    let (honest, faulty) = honest_and_faulty(Fault::LabelsOnly, &request);
    assert!(honest.starts_with("2 0 2 "), "{honest}");
    assert!(faulty.starts_with("2 0 1 "), "{faulty}");
}

#[test]
fn rows_are_not_trees() {
    let request = insert(store(1, &[(HOLD, &[0])]), bytes(B), 2);
    let (honest, faulty) = honest_and_faulty(Fault::RowsForTrees, &request);
    assert!(honest.starts_with("2 0 0 "), "{honest}");
    assert!(faulty.starts_with("2 8 0 "), "{faulty}");
}

#[test]
fn the_drawn_order_is_not_the_key() {
    let words = store(3, &[(CHANNEL_1, &[]), (CONSTANT_40, &[]), (DIFFERENCE, &[1, 0])]);
    let request = Request::Key { words, row: 2, buffer: vec![0; 26] };
    let (honest, faulty) = honest_and_faulty(Fault::DrawnOrder, &request);
    let hex = |bytes: Vec<u8>| bytes.iter().map(|byte| format!("{byte:02x}")).collect::<String>();
    let walked = sheet(&[(DIFFERENCE, &[1, 2]), (CONSTANT_40, &[]), (CHANNEL_1, &[])]);
    let drawn = sheet(&[(DIFFERENCE, &[2, 1]), (CHANNEL_1, &[]), (CONSTANT_40, &[])]);
    assert_eq!(honest, format!("3 0 26 / {}", hex(walked)));
    assert_eq!(faulty, format!("3 0 26 / {}", hex(drawn)));
}

/// Two channels that differ in the highest bit alone.
#[test]
fn the_highest_bit_of_a_label_counts() {
    let request = insert(store(2, &[]), sheet(&[(CHANNEL_1, &[]), (CHANNEL_1 | 1 << 31, &[])]), 2);
    let (honest, faulty) = honest_and_faulty(Fault::NarrowLabels, &request);
    assert!(honest.starts_with("2 0 2 "), "{honest}");
    assert!(faulty.starts_with("2 0 1 "), "{faulty}");
}

/// The last row's input points nowhere.
#[test]
fn an_input_has_its_own_place() {
    let request = insert(store(3, &[]), sheet(&[(CHANNEL_1, &[]), (DIFFERENCE, &[0, 2])]), 2);
    let (honest, faulty) = honest_and_faulty(Fault::RowForInput, &request);
    assert!(honest.starts_with("2 6 0 19 "), "{honest}");
    assert!(faulty.starts_with("2 6 0 12 "), "{faulty}");
}

#[test]
fn the_row_count_is_not_a_row() {
    let request = Request::ReadSheet { sheet: bytes("00 00 00 03 01 04 01") };
    let (honest, faulty) = honest_and_faulty(Fault::RowCountAtRows, &request);
    assert_eq!((honest.as_str(), faulty.as_str()), ("9 5 5", "9 5 7"));
}

fn strict(words: Vec<u32>, sheet: Vec<u8>) -> Request {
    Request::InsertStrict { words, sheet, answers: vec![9; 2] }
}

#[test]
fn a_loop_may_pass_a_hold() {
    let (honest, faulty) = honest_and_faulty(Fault::EveryLoop, &strict(store(2, &[]), bytes(B)));
    assert!(honest.starts_with("10 0 1 "), "{honest}");
    assert!(faulty.starts_with("10 13 0 "), "{faulty}");
}

/// A difference of itself alone: a loop, and an input is left off.
#[test]
fn the_catalogue_comes_before_loops() {
    let request = strict(store(2, &[]), sheet(&[(DIFFERENCE, &[0])]));
    let (honest, faulty) = honest_and_faulty(Fault::LoopsFirst, &request);
    assert!(honest.starts_with("10 12 0 "), "{honest}");
    assert!(faulty.starts_with("10 13 0 "), "{faulty}");
}

/// Operation 33 is no channel.
#[test]
fn every_bit_of_an_operation_counts() {
    let request = strict(store(2, &[]), sheet(&[(33 << 16, &[])]));
    let (honest, faulty) = honest_and_faulty(Fault::OperationsOf5Bits, &request);
    assert!(honest.starts_with("10 12 0 "), "{honest}");
    assert!(faulty.starts_with("10 0 1 "), "{faulty}");
}

/// A difference without inputs behind a hold of the store.
#[test]
fn holds_keep_nothing_from_judging() {
    let words = store(3, &[(HOLD, &[1]), (DIFFERENCE, &[])]);
    let request = Request::Run { words, row: 0, channels: 1, values: vec![5], output: vec![9] };
    let (honest, faulty) = honest_and_faulty(Fault::HoldsEndReach, &request);
    assert_eq!((honest.as_str(), faulty.as_str()), ("12 12 / 9", "12 0 / 0"));
}

/// A hold, two wires and a channel: one wire alone leads to the other.
#[test]
fn every_wire_is_skipped() {
    let request =
        insert(store(4, &[]), sheet(&[(HOLD, &[1]), (WIRE, &[2]), (WIRE, &[3]), (CHANNEL_1, &[])]), 4);
    let (honest, faulty) = honest_and_faulty(Fault::SkippedOnce, &request);
    assert!(honest.starts_with("2 0 2 0 ") && honest.ends_with(" / 0 1 1 1"), "{honest}");
    assert!(faulty.starts_with("2 0 3 0 ") && faulty.ends_with(" / 0 1 2 2"), "{faulty}");
}

/// A channel and a wire to it; a wire that leads to itself.
#[test]
fn wires_are_no_rows_like_others() {
    let request = insert(store(4, &[]), sheet(&[(CHANNEL_1, &[]), (WIRE, &[0])]), 2);
    let (honest, faulty) = honest_and_faulty(Fault::WiresKept, &request);
    assert!(honest.starts_with("2 0 1 0 ") && honest.ends_with(" / 0 0"), "{honest}");
    assert!(faulty.starts_with("2 0 2 0 ") && faulty.ends_with(" / 0 1"), "{faulty}");
}

#[test]
fn short_wires_come_before_loops_of_wires() {
    let request = insert(store(4, &[]), sheet(&[(WIRE, &[0]), (WIRE, &[])]), 2);
    let (honest, faulty) = honest_and_faulty(Fault::WireLoopsFirst, &request);
    assert!(honest.starts_with("2 14 0 0 "), "{honest}");
    assert!(faulty.starts_with("2 15 0 0 "), "{faulty}");
}

/// A hold with setting 7 that holds itself.
#[test]
fn a_setting_makes_no_wire() {
    let request = insert(store(4, &[]), sheet(&[(HOLD | 7, &[0])]), 1);
    let (honest, faulty) = honest_and_faulty(Fault::WiresBySetting, &request);
    assert!(honest.starts_with("2 0 1 0 "), "{honest}");
    assert!(faulty.starts_with("2 15 0 0 "), "{faulty}");
}

#[test]
fn stores_have_no_wires() {
    let request = Request::Check { words: store(2, &[(CHANNEL_1, &[]), (WIRE, &[0])]) };
    let (honest, faulty) = honest_and_faulty(Fault::StoreWiresTaken, &request);
    assert_eq!((honest.as_str(), faulty.as_str()), ("1 2", "1 0"));
}

fn mending(rows: &[(u32, &[u32])]) -> Request {
    Request::Mend { words: store(rows.len(), rows), list: vec![9; rows.len()] }
}

/// A difference of a channel and of a hold that has no input below the count.
#[test]
fn every_input_drops_a_row() {
    let request = mending(&[(DIFFERENCE, &[1, 2]), (CHANNEL_1, &[]), (HOLD, &[3])]);
    let (honest, faulty) = honest_and_faulty(Fault::FirstInputOnly, &request);
    assert!(
        honest.starts_with("11 0 2 0 0 0 / 1 ") && honest.ends_with("/ 4294967295 0 4294967295"),
        "{honest}"
    );
    assert!(faulty.starts_with("11 0 1 0 0 0 / 2 ") && faulty.ends_with("/ 0 1 4294967295"), "{faulty}");
}

/// Holds one on another, and the last leads nowhere.
#[test]
fn rows_at_any_distance_are_dropped() {
    let request = mending(&[(HOLD, &[1]), (HOLD, &[2]), (HOLD, &[3])]);
    let (honest, faulty) = honest_and_faulty(Fault::DroppedOneStep, &request);
    assert!(honest.starts_with("11 0 3 0 0 0 / 0 "), "{honest}");
    assert!(faulty.starts_with("11 0 2 0 0 0 / 1 "), "{faulty}");
}

#[test]
fn a_wire_has_a_number_that_counts() {
    let request = mending(&[(WIRE, &[2]), (CHANNEL_1, &[]), (CONSTANT_40, &[])]);
    let (honest, faulty) = honest_and_faulty(Fault::NumberedByBoxes, &request);
    assert!(honest.ends_with(" / 0 1 0"), "{honest}");
    assert!(faulty.ends_with(" / 1 0 1"), "{faulty}");
}

#[test]
fn words_are_cleared_and_counted() {
    let request = Request::Mend { words: vec![1, CHANNEL_1, 0, 5, 0, 5, 5], list: vec![9] };
    let (honest, faulty) = honest_and_faulty(Fault::ClearedRows, &request);
    assert_eq!(honest, "11 0 0 0 0 3 / 1 65537 0 0 0 0 0 / 0");
    assert_eq!(faulty, "11 0 0 0 0 1 / 1 65537 0 0 0 0 0 / 0");
}

/// A hold of itself, again, and a wire to it; the rows that are free then.
#[test]
fn wires_are_not_merged_and_free_rows_are_zero() {
    let request = mending(&[(HOLD, &[0]), (HOLD, &[2]), (WIRE, &[1])]);
    let (honest, faulty) = honest_and_faulty(Fault::WiresAsMerged, &request);
    assert!(honest.starts_with("11 0 0 1 1 0 / 1 393216 1 0 0 0 0 0 0 "), "{honest}");
    assert!(faulty.starts_with("11 0 0 0 2 0 / 1 "), "{faulty}");
    let (_, faulty) = honest_and_faulty(Fault::FreedRowsLeft, &request);
    assert!(faulty.starts_with("11 0 0 1 1 0 / 1 393216 1 0 0 0 0 393216 1 2 "), "{faulty}");
}

/// The last row over a trace of so many channels, with an entry more than there are ticks.
fn running(rows: &[(u32, &[u32])], channels: u32, values: &[i32]) -> Request {
    let row = rows.len() as u32 - 1;
    let ticks = values.len() / channels as usize;
    let output = vec![9; ticks + 1];
    Request::Run { words: store(rows.len(), rows), row, channels, values: values.to_vec(), output }
}

const CHANNEL_0: u32 = 0x0001_0000;

#[test]
fn a_scale_goes_toward_zero() {
    let request = running(&[(CHANNEL_0, &[]), (0x0005_0001, &[0])], 1, &[-1, -256, -257, 257]);
    let (honest, faulty) = honest_and_faulty(Fault::ScaledDown, &request);
    assert_eq!((honest.as_str(), faulty.as_str()), ("12 0 / 0 -1 -1 1 9", "12 0 / -1 -1 -2 1 9"));
}

#[test]
fn a_mean_goes_toward_zero() {
    let request = running(&[(CHANNEL_0, &[]), (2 << 16, &[]), (11 << 16, &[0, 1, 1, 1])], 1, &[-3, -4, 7]);
    let (honest, faulty) = honest_and_faulty(Fault::MeanDown, &request);
    assert_eq!((honest.as_str(), faulty.as_str()), ("12 0 / 0 -1 1 9", "12 0 / -1 -1 1 9"));
}

#[test]
fn results_are_clamped() {
    let request = running(&[(CHANNEL_0, &[]), (12 << 16, &[0])], 1, &[i32::MIN, i32::MAX]);
    let (honest, faulty) = honest_and_faulty(Fault::Wrapped, &request);
    assert_eq!(honest, "12 0 / 2147483647 -2147483647 9");
    assert_eq!(faulty, "12 0 / -2147483648 -2147483647 9");
}

#[test]
fn a_difference_has_an_order() {
    let request = running(&[(CHANNEL_0, &[]), (CHANNEL_1, &[]), (DIFFERENCE, &[0, 1])], 2, &[5, 3]);
    let (honest, faulty) = honest_and_faulty(Fault::TurnedDifference, &request);
    assert_eq!((honest.as_str(), faulty.as_str()), ("12 0 / 2 9", "12 0 / -2 9"));
}

/// A hold of a channel, and one of a sum of the channel and of itself: the fault finds its way out.
#[test]
fn a_hold_begins_with_zero() {
    let request = running(&[(CHANNEL_0, &[]), (HOLD, &[0])], 1, &[5, 6, 7]);
    let (honest, faulty) = honest_and_faulty(Fault::HeldAtOnce, &request);
    assert_eq!((honest.as_str(), faulty.as_str()), ("12 0 / 0 5 6 9", "12 0 / 5 5 6 9"));
    let request = running(&[(CHANNEL_0, &[]), (HOLD, &[2]), (4 << 16, &[0, 1])], 1, &[5, 6, 7]);
    assert_eq!(line(request), "12 0 / 5 11 18 9");
}

#[test]
fn a_constant_has_a_sign() {
    let request = running(&[(0x0002_8000, &[])], 1, &[0]);
    let (honest, faulty) = honest_and_faulty(Fault::UnsignedConstants, &request);
    assert_eq!((honest.as_str(), faulty.as_str()), ("12 0 / -32768 9", "12 0 / 32768 9"));
}

#[test]
fn zero_is_not_above_zero() {
    let rows: &[(u32, &[u32])] = &[(CHANNEL_0, &[]), (0x0002_0001, &[]), (10 << 16, &[0, 1, 0])];
    let (honest, faulty) = honest_and_faulty(Fault::ChosenAtZero, &running(rows, 1, &[0, 7, -7]));
    assert_eq!((honest.as_str(), faulty.as_str()), ("12 0 / 0 1 -7 9", "12 0 / 1 1 -7 9"));
}

/// A scale of itself, and a tick that is cut.
#[test]
fn loops_come_before_the_trace() {
    let request = running(&[(0x0005_0001, &[0])], 2, &[1]);
    let (honest, faulty) = honest_and_faulty(Fault::TraceBeforeLoops, &request);
    assert_eq!((honest.as_str(), faulty.as_str()), ("12 13 / 9", "12 17 / 9"));
}

#[test]
fn entries_past_the_ticks_stand() {
    let (honest, faulty) = honest_and_faulty(Fault::PastTicksCleared, &running(&[(CHANNEL_0, &[])], 1, &[4]));
    assert_eq!((honest.as_str(), faulty.as_str()), ("12 0 / 4 9", "12 0 / 4 0"));
}

#[test]
fn a_trace_stands_tick_after_tick() {
    let request = running(&[(CHANNEL_1, &[])], 2, &[1, 2, 3, 4, 5, 6]);
    let (honest, faulty) = honest_and_faulty(Fault::ChannelByChannel, &request);
    assert_eq!((honest.as_str(), faulty.as_str()), ("12 0 / 2 4 6 9", "12 0 / 4 5 6 9"));
}

/// Beside the channel stands one that the trace has not.
#[test]
fn rows_not_reached_do_not_matter() {
    let request = running(&[(0x0001_0008, &[]), (CHANNEL_0, &[])], 1, &[4]);
    let (honest, faulty) = honest_and_faulty(Fault::WholeStoreRun, &request);
    assert_eq!((honest.as_str(), faulty.as_str()), ("12 0 / 4 9", "12 17 / 9 9"));
}

/// Rows whose inputs are 32,767, a row past the sheet's, and a store number that there is or is not.
#[test]
fn store_numbers_are_retired() {
    let early = insert(store(2, &[]), sheet(&[(HOLD, &[32_767])]), 1);
    let (honest, faulty) = honest_and_faulty(Fault::RetiredEarly, &early);
    assert!(honest.starts_with("2 6 0 12 ") && faulty.starts_with("2 19 0 0 "), "{honest}, {faulty}");
    faults::plant(Fault::RetiredLast);
    let both = insert(store(2, &[(HOLD, &[0])]), sheet(&[(HOLD, &[2]), (HOLD, &[32_768])]), 2);
    assert!(line(both.clone()).starts_with("2 6 0 12 "), "{}", line(both));
    faults::plant(Fault::RetiredIfStored);
    let there = insert(store(2, &[(HOLD, &[0])]), sheet(&[(HOLD, &[32_768])]), 1);
    assert!(line(there.clone()).starts_with("2 19 0 0 "), "{}", line(there));
    let not_there = insert(store(2, &[(HOLD, &[0])]), sheet(&[(HOLD, &[32_769])]), 1);
    assert!(line(not_there.clone()).starts_with("2 6 0 12 "), "{}", line(not_there));
    faults::plant(Fault::StoreNumbersTaken);
    assert!(line(there.clone()).starts_with("2 0 0 0 "), "{}", line(there));
}

/// A sheet over a hold of a channel and, not reached, a constant; the buffer has two bytes more than the
/// result needs.
fn converting(rows: &[(u32, &[u16])], room: usize) -> Request {
    let words = store(4, &[(HOLD, &[2]), (CONSTANT_40, &[]), (CHANNEL_1, &[])]);
    Request::Convert { words, sheet: sheet(rows), buffer: vec![0xEE; room] }
}

/// The line of a result of so many bytes, with bytes behind it.
fn converted(rows: &[(u32, &[u16])], behind: &str) -> String {
    let bytes = sheet(rows);
    let hex: String = bytes.iter().map(|byte| format!("{byte:02x}")).collect();
    format!("13 0 {} 0 / {hex}{behind}", bytes.len())
}

/// A scale of a wire to the hold: the hold and its channel are appended.
const OLD: &[(u32, &[u16])] = &[(0x0005_0000, &[1]), (WIRE, &[32_768])];
const SCALE: u32 = 0x0005_0000;

#[test]
fn what_is_reached_is_appended_and_no_more() {
    let request = converting(OLD, 35);
    let (honest, faulty) = honest_and_faulty(Fault::NamedRowsOnly, &request);
    assert_eq!(honest, converted(&[(SCALE, &[1]), (WIRE, &[2]), (HOLD, &[3]), (CHANNEL_1, &[])], "eeee"));
    let named: &[(u32, &[u16])] = &[(SCALE, &[1]), (WIRE, &[2]), (HOLD, &[32_770])];
    assert_eq!(faulty, converted(named, "eeeeeeeeeeeeee"));
    faults::plant(Fault::WholeStoreAppended);
    let whole: &[(u32, &[u16])] =
        &[(SCALE, &[1]), (WIRE, &[2]), (HOLD, &[4]), (CONSTANT_40, &[]), (CHANNEL_1, &[])];
    assert_eq!(line(converting(OLD, 38)), converted(whole, ""));
    faults::plant(Fault::StoreRowsFirst);
    let first: &[(u32, &[u16])] = &[(HOLD, &[1]), (CHANNEL_1, &[]), (SCALE, &[3]), (WIRE, &[0])];
    assert_eq!(line(request.clone()), converted(first, "eeee"));
    faults::plant(Fault::PastResultCleared);
    let right: &[(u32, &[u16])] = &[(SCALE, &[1]), (WIRE, &[2]), (HOLD, &[3]), (CHANNEL_1, &[])];
    assert_eq!(line(request.clone()), converted(right, "0000"));
    faults::plant(Fault::ResultSkipped);
    let skipped: &[(u32, &[u16])] = &[(SCALE, &[2]), (HOLD, &[3]), (HOLD, &[3]), (CHANNEL_1, &[])];
    assert_eq!(line(request), converted(skipped, "eeee"));
}

/// A channel named before the constant, whose number is lower; and one that the sheet draws itself.
#[test]
fn appended_rows_rise_and_are_not_merged() {
    let request = converting(&[(DIFFERENCE, &[32_770, 32_769])], 26);
    let (honest, faulty) = honest_and_faulty(Fault::AppendedAsMet, &request);
    assert_eq!(honest, converted(&[(DIFFERENCE, &[2, 1]), (CONSTANT_40, &[]), (CHANNEL_1, &[])], ""));
    assert_eq!(faulty, converted(&[(DIFFERENCE, &[1, 2]), (CHANNEL_1, &[]), (CONSTANT_40, &[])], ""));
    faults::plant(Fault::AppendedMerged);
    let request = converting(&[(HOLD, &[32_770]), (CHANNEL_1, &[])], 19);
    assert_eq!(line(request), converted(&[(HOLD, &[1]), (CHANNEL_1, &[])], ""));
}

/// The rows of a result are counted, and not all of the store; wires and rows come before the buffer.
#[test]
fn results_have_1024_rows_at_most() {
    let leaves = |count: usize, last: u16| {
        let last: &[u16] = if last == 0 { &[] } else { &[32_770] };
        let row = |at: usize| if at == 0 { (HOLD, last) } else { (CHANNEL_1, &[] as &[u16]) };
        (0..count).map(row).collect::<Vec<_>>()
    };
    let full = converting(&leaves(1_023, 1), 9_000);
    let (honest, faulty) = honest_and_faulty(Fault::FullResultRefused, &full);
    assert!(honest.starts_with("13 0 5129 0 / ") && faulty.starts_with("13 20 0 0 / "), "{faulty}");
    faults::plant(Fault::ResultByStore);
    assert!(line(full.clone()).starts_with("13 20 0 0 / "));
    faults::plant(Fault::ShortBeforeLong);
    let over = converting(&leaves(1_024, 1), 5_000);
    assert!(line(over.clone()).starts_with("13 10 0 0 / "));
    faults::plant(Fault::LongBeforeWires);
    let mut wired = leaves(1_024, 1);
    wired[9] = (WIRE, &[]);
    assert!(line(converting(&wired, 5_000)).starts_with("13 20 0 0 / "));
    faults::plant(Fault::RoomForTheSheet);
    let room = sheet(OLD).len();
    assert!(line(converting(OLD, room)).starts_with("13 0 33 0 / 0000001d0100040005"));
    // A fault of something else, so that the converter is honest again.
    faults::plant(Fault::EveryLoop);
    assert!(line(over).starts_with("13 20 0 0 / "));
    assert!(line(converting(&wired, 5_000)).starts_with("13 14 0 0 / "));
    assert!(line(converting(OLD, room)).starts_with("13 10 0 0 / "));
}

/// The program's lines show it too, on some of the bundles that are compared.
#[test]
fn narrow_labels_show_in_bundles() {
    let bundles: Vec<Vec<u8>> = (1..=320).map(|seed| bundles::bundle(seed, seed as usize % 13)).collect();
    let lines = |bundle: &Vec<u8>| {
        let mut lines = Vec::new();
        program::run(bundle, &mut lines).expect("writing to memory");
        lines
    };
    let honest: Vec<Vec<u8>> = bundles.iter().map(lines).collect();
    faults::plant(Fault::NarrowLabels);
    let changed = bundles.iter().zip(&honest).filter(|(bundle, honest)| lines(bundle) != **honest).count();
    assert!(changed >= 5, "{changed} bundles of 320 differ");
}

/// Each fault by its name changes some lines of a seed's run and leaves some.
#[test]
fn each_changes_some_answers() {
    let requests: Vec<Request> = (0..1_000).map(|place| making::request(3, place)).collect();
    let honest: Vec<String> = requests.iter().cloned().map(line).collect();
    for (name, fault) in faults::NAMES.into_iter().chain(faults::MORE) {
        assert_eq!(faults::named(name), Some(fault));
        faults::plant(fault);
        let faulty: Vec<String> = requests.iter().cloned().map(line).collect();
        let changed = honest.iter().zip(&faulty).filter(|(one, two)| one != two).count();
        assert!((1..600).contains(&changed), "{name} changes {changed} lines of 1,000");
    }
    assert_eq!(faults::named("none"), None);
}
