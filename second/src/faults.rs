//! The rules' "easy ways to be wrong" and a few more, each planted by its name, so that a comparison
//! can show that it would notice them. Honest code asks here at one small switch for each, and
//! nowhere else.

use crate::law::{operation, HOLD};
use crate::rows::Row;
use crate::{sameness, wires};
use std::cell::Cell;
use std::collections::HashMap;

#[derive(Clone, Copy, Debug, PartialEq, Eq)]
pub enum Fault {
    LeavesUp,
    KeptAssumptions,
    OneKnownAllKnown,
    LabelsOnly,
    RowsForTrees,
    DrawnOrder,
    NarrowLabels,
    RowForInput,
    RowCountAtRows,
    EveryLoop,
    LoopsFirst,
    OperationsOf5Bits,
    HoldsEndReach,
    SkippedOnce,
    WiresKept,
    WireLoopsFirst,
    WiresBySetting,
    StoreWiresTaken,
    FirstInputOnly,
    DroppedOneStep,
    NumberedByBoxes,
    ClearedRows,
    WiresAsMerged,
    FreedRowsLeft,
    ScaledDown,
    MeanDown,
    Wrapped,
    TurnedDifference,
    HeldAtOnce,
    UnsignedConstants,
    ChosenAtZero,
    TraceBeforeLoops,
    PastTicksCleared,
    ChannelByChannel,
    WholeStoreRun,
    RetiredEarly,
    RetiredLast,
    RetiredIfStored,
    StoreNumbersTaken,
    NamedRowsOnly,
    WholeStoreAppended,
    AppendedAsMet,
    AppendedMerged,
    StoreRowsFirst,
    ResultSkipped,
    FullResultRefused,
    ResultByStore,
    LongBeforeWires,
    ShortBeforeLong,
    RoomForTheSheet,
    PastResultCleared,
}

/// The rules' own list.
pub const NAMES: [(&str, Fault); 6] = [
    ("leaves-up", Fault::LeavesUp),
    ("kept-assumptions", Fault::KeptAssumptions),
    ("one-known-all-known", Fault::OneKnownAllKnown),
    ("labels-only", Fault::LabelsOnly),
    ("rows-for-trees", Fault::RowsForTrees),
    ("drawn-order", Fault::DrawnOrder),
];

/// Others that a comparison must notice.
pub const MORE: [(&str, Fault); 45] = [
    ("labels-of-31-bits", Fault::NarrowLabels),
    ("place-of-the-row-for-the-input", Fault::RowForInput),
    ("row-count-placed-at-the-rows", Fault::RowCountAtRows),
    ("every-loop-refused", Fault::EveryLoop),
    ("loops-before-the-catalogue", Fault::LoopsFirst),
    ("operations-of-5-bits", Fault::OperationsOf5Bits),
    ("nothing-reached-through-holds", Fault::HoldsEndReach),
    ("wires-skipped-once", Fault::SkippedOnce),
    ("wires-kept", Fault::WiresKept),
    ("short-wires-after-wire-loops", Fault::WireLoopsFirst),
    ("wires-by-the-setting", Fault::WiresBySetting),
    ("wires-in-stores-taken", Fault::StoreWiresTaken),
    ("dropped-by-the-first-input-only", Fault::FirstInputOnly),
    ("dropped-one-step-only", Fault::DroppedOneStep),
    ("numbered-by-boxes", Fault::NumberedByBoxes),
    ("cleared-counts-rows", Fault::ClearedRows),
    ("wires-counted-as-merged", Fault::WiresAsMerged),
    ("freed-rows-left", Fault::FreedRowsLeft),
    ("scale-toward-minus-infinity", Fault::ScaledDown),
    ("mean-toward-minus-infinity", Fault::MeanDown),
    ("wrapped-for-clamped", Fault::Wrapped),
    ("difference-turned", Fault::TurnedDifference),
    ("holds-begin-with-their-input", Fault::HeldAtOnce),
    ("constants-without-sign", Fault::UnsignedConstants),
    ("chosen-at-zero", Fault::ChosenAtZero),
    ("trace-before-loops", Fault::TraceBeforeLoops),
    ("entries-past-the-ticks-cleared", Fault::PastTicksCleared),
    ("trace-channel-by-channel", Fault::ChannelByChannel),
    ("whole-store-judged-for-a-run", Fault::WholeStoreRun),
    ("retired-from-one-early", Fault::RetiredEarly),
    ("retired-after-astray", Fault::RetiredLast),
    ("retired-only-where-stored", Fault::RetiredIfStored),
    ("store-numbers-taken", Fault::StoreNumbersTaken),
    ("named-rows-only", Fault::NamedRowsOnly),
    ("whole-store-appended", Fault::WholeStoreAppended),
    ("appended-as-met", Fault::AppendedAsMet),
    ("appended-merged", Fault::AppendedMerged),
    ("store-rows-first", Fault::StoreRowsFirst),
    ("wires-skipped-in-the-result", Fault::ResultSkipped),
    ("full-result-refused", Fault::FullResultRefused),
    ("long-result-by-the-whole-store", Fault::ResultByStore),
    ("long-result-before-wires", Fault::LongBeforeWires),
    ("short-buffer-before-long-result", Fault::ShortBeforeLong),
    ("room-for-the-sheet-only", Fault::RoomForTheSheet),
    ("bytes-past-the-result-cleared", Fault::PastResultCleared),
];

// Each thread has its own, so that one test's fault does not reach another's.
thread_local! {
    static PLANTED: Cell<Option<Fault>> = const { Cell::new(None) };
}

pub fn named(name: &str) -> Option<Fault> {
    NAMES.iter().chain(&MORE).find(|(known, _)| *known == name).map(|&(_, fault)| fault)
}

pub fn plant(fault: Fault) {
    PLANTED.set(Some(fault));
}

pub fn planted(fault: Fault) -> bool {
    PLANTED.get() == Some(fault)
}

/// The classes of a planted fault that is about sameness; nothing when honest ones are wanted.
pub fn classes(rows: &[Row]) -> Option<Vec<usize>> {
    match PLANTED.get()? {
        Fault::LeavesUp => Some(leaves_up(rows)),
        Fault::KeptAssumptions => Some(kept_assumptions(rows)),
        Fault::LabelsOnly => Some(sameness::split(&without_counts(rows))),
        Fault::NarrowLabels => Some(sameness::split(&narrowed(rows))),
        _ => None,
    }
}

/// Rows are one only when shown so from the leaves up: all start apart and are merged when label
/// and inputs are already one, so the rows of two loops never meet.
fn leaves_up(rows: &[Row]) -> Vec<usize> {
    let mut classes: Vec<usize> = (0..rows.len()).collect();
    let mut before = 0;
    while sameness::how_many(&classes) != before {
        before = sameness::how_many(&classes);
        classes = merged(rows, &classes);
    }
    classes
}

/// Classes by label and the classes of the inputs, numbered as they are first seen.
fn merged(rows: &[Row], classes: &[usize]) -> Vec<usize> {
    let mut seen = HashMap::new();
    let mut class = |row: &Row| {
        let inputs: Vec<usize> = row.inputs.iter().map(|&input| classes[input]).collect();
        let next = seen.len();
        *seen.entry((row.label, inputs)).or_insert(next)
    };
    rows.iter().map(&mut class).collect()
}

/// Compares rows in pairs and never forgets a pair it assumed, even when the comparison failed.
fn kept_assumptions(rows: &[Row]) -> Vec<usize> {
    let mut assumed = vec![false; rows.len() * rows.len()];
    let mut firsts: Vec<usize> = Vec::new();
    let mut classes = Vec::new();
    for row in 0..rows.len() {
        let found = firsts.iter().position(|&first| seem_same(rows, row, first, &mut assumed));
        if found.is_none() {
            firsts.push(row);
        }
        classes.push(found.unwrap_or(firsts.len() - 1));
    }
    classes
}

fn seem_same(rows: &[Row], row: usize, other: usize, assumed: &mut [bool]) -> bool {
    let mut pairs = vec![(row, other)];
    while let Some((a, b)) = pairs.pop() {
        let pair = a * rows.len() + b;
        if a == b || assumed[pair] {
            continue;
        }
        if rows[a].label != rows[b].label || rows[a].inputs.len() != rows[b].inputs.len() {
            return false;
        }
        assumed[pair] = true;
        pairs.extend(rows[a].inputs.iter().copied().zip(rows[b].inputs.iter().copied()));
    }
    true
}

/// Each row keeps only as many inputs as every row of its label has, so that the labels alone
/// decide where rows of one label differ in their input counts.
fn without_counts(rows: &[Row]) -> Vec<Row> {
    let mut fewest: HashMap<u32, usize> = HashMap::new();
    for row in rows {
        let count = row.inputs.len();
        fewest.entry(row.label).and_modify(|least| *least = count.min(*least)).or_insert(count);
    }
    let kept = |row: &Row| Row { label: row.label, inputs: row.inputs[..fewest[&row.label]].to_vec() };
    rows.iter().map(kept).collect()
}

/// Labels without their highest bit, as a program has them that keeps that bit for itself.
fn narrowed(rows: &[Row]) -> Vec<Row> {
    let narrow = |row: &Row| Row { label: row.label & u32::MAX >> 1, inputs: row.inputs.clone() };
    rows.iter().map(narrow).collect()
}

/// Lemma 3.2 for the whole sheet: when one sheet row is known, every new one is taken for it.
pub fn all_known(used: usize, mut numbers: Vec<usize>, new: Vec<usize>) -> (Vec<usize>, Vec<usize>) {
    let Some(known) = numbers[used..].iter().copied().find(|&number| number < used) else {
        return (numbers, new);
    };
    numbers.iter_mut().filter(|number| **number >= used).for_each(|number| *number = known);
    (numbers, Vec::new())
}

/// The rows with no way on from a hold, as if a hold kept from judging what it holds.
pub fn without_held(rows: &[Row]) -> Vec<Row> {
    let kept = |row: &Row| if operation(row.label) == HOLD { 0 } else { row.inputs.len() };
    rows.iter().map(|row| Row { label: row.label, inputs: row.inputs[..kept(row)].to_vec() }).collect()
}

/// The store rows that have the tree of a sheet row, each with that row's place in the sheet; none when
/// appended rows are not to be merged. The first `used` of all rows are the store's.
pub fn merged_rows(used: usize, all: &[Row]) -> HashMap<usize, usize> {
    if !planted(Fault::AppendedMerged) {
        return HashMap::new();
    }
    let classes = sameness::classes(&wires::skipped(all));
    let twin = |row: usize| (0..all.len() - used).find(|&own| classes[used + own] == classes[row]);
    (0..used).filter_map(|row| twin(row).map(|own| (row, own))).collect()
}

/// A key's rows in the order of the drawing, only the row asked for put first.
pub fn as_drawn(mut order: Vec<usize>) -> Vec<usize> {
    order[1..].sort_unstable();
    order
}
