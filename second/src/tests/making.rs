//! What the seeds give: the same each time, readable, mixed, and not too much of it.

use super::definition::{at_depth_0, one_deeper};
use super::{seeded, SEEDS};
use crate::answers::line;
use crate::converting::convert;
use crate::dice::Dice;
use crate::law::{MOST_BUNDLE_BYTES, MOST_ROWS};
use crate::making::{self, bundles, shapes};
use crate::operations::{insert, read_sheet};
use crate::requests::{Request, Source};
use crate::rows::{joined, Row};
use crate::{program, sameness, sheet, store};
use std::collections::{HashMap, HashSet};

#[test]
fn requests_are_read_as_they_were_made() {
    for place in 0..600 {
        let request = making::request(5, place);
        let written = request.written();
        let mut source = Source::new(&written);
        assert_eq!(source.request(), Ok(Some(request)), "place {place}");
        assert_eq!(source.request(), Ok(None), "place {place}");
    }
}

#[test]
fn seeds_decide() {
    assert_eq!(making::request(7, 3), making::request(7, 3));
    assert_eq!(bundles::bundle(7, 3), bundles::bundle(7, 3));
    let differing = (0..50).filter(|&place| making::request(7, place) != making::request(8, place));
    assert!(differing.count() > 40);
}

#[test]
fn the_order_is_an_order() {
    let mut order = Dice::new(1, 1).order(50);
    assert_ne!(order, (0..50).collect::<Vec<_>>());
    order.sort_unstable();
    assert_eq!(order, (0..50).collect::<Vec<_>>());
}

/// Every number that an operation can give, and both answers, come often enough; no other comes.
#[test]
fn every_answer_comes() {
    let mut seen: HashMap<String, usize> = HashMap::new();
    for (seed, place) in seeded(SEEDS) {
        let line = line(making::request(seed, place));
        *seen.entry(kind_of_answer(&line)).or_default() += 1;
    }
    let expected = [
        "1 0", "1 1", "1 2", "2 0", "2 1", "2 2", "2 3", "2 4", "2 5", "2 6", "2 7", "2 8", "2 14", "2 15",
        "2 19", "3 0", "3 1", "3 2", "3 9", "3 10", "4 0", "4 1", "5 0 0", "5 0 1", "5 1 0", "5 2 0",
        "5 9 0", "6 0 0", "6 0 1", "6 1 0", "6 2 0", "6 9 0", "7", "8", "9 0", "9 3", "9 4", "9 5", "10 0",
        "10 1", "10 2", "10 3", "10 4", "10 5", "10 6", "10 7", "10 8", "10 12", "10 13", "10 14", "10 15",
        "10 19", "11 0", "11 1", "11 16", "12 0", "12 1", "12 2", "12 9", "12 12", "12 13", "12 17", "12 18",
        "13 0", "13 1", "13 2", "13 3", "13 4", "13 5", "13 6", "13 10", "13 14", "13 15", "13 20",
    ];
    for kind in expected {
        let count = seen.get(kind).copied().unwrap_or(0);
        assert!(count >= 5, "only {count} answers {kind}");
    }
    assert_eq!(seen.len(), expected.len(), "{seen:?}");
}

/// The part of a line that tells answers of one operation apart.
fn kind_of_answer(line: &str) -> String {
    let parts = match line.as_bytes()[0] {
        b'7' | b'8' => 1,
        b'5' | b'6' => 3,
        _ => 2,
    };
    line.split(' ').take(parts).collect::<Vec<_>>().join(" ")
}

/// The row that a place lies in, by the input counts before it; past the rows, their count.
fn row_at(sheet: &[u8], place: usize) -> usize {
    let (mut row, mut at) = (0, 7);
    while at < place && at + 5 + 2 * usize::from(sheet[at + 4]) <= place {
        at += 5 + 2 * usize::from(sheet[at + 4]);
        row += 1;
    }
    row
}

/// Which fault a sheet is refused for, and for most faults of a row, in which row.
fn kind_of_fault(sheet: &[u8], number: u32, place: usize) -> String {
    let rows = sheet.get(5..7).map_or(0, |two| usize::from(two[0]) << 8 | usize::from(two[1]));
    let row = row_at(sheet, place);
    let which = match row {
        0 => "first",
        _ if row + 1 == rows => "last",
        _ => "middle",
    };
    match number {
        5 if place == 5 => "row count".into(),
        5 if row == rows => "left over".into(),
        5 if sheet.get(place + 4).is_some_and(|&inputs| inputs > 4) => format!("inputs, {which}"),
        5 if place == sheet.len() => "no byte there".into(),
        5 => format!("past the file, {which}"),
        6 => format!("astray, {which}"),
        19 => "retired".into(),
        3 => "length".into(),
        4 => "version".into(),
        _ => "none".into(),
    }
}

/// How often each fault comes, in inserts (with a front `2 `), in sheets read (with `9 `) and in sheets to
/// convert (with `13 `).
fn faults_that_come() -> HashMap<String, usize> {
    let mut seen = HashMap::new();
    for (seed, place) in seeded(SEEDS) {
        let kind = match making::request(seed, place) {
            Request::Insert { mut words, sheet, mut answers } => {
                let done = insert(&mut words, &sheet, &mut answers);
                format!("2 {}", kind_of_fault(&sheet, done.number, done.place))
            }
            Request::ReadSheet { sheet } => {
                let read = read_sheet(&sheet);
                format!("9 {}", kind_of_fault(&sheet, read.number, read.place))
            }
            Request::Convert { words, sheet, mut buffer } => {
                let done = convert(&words, &sheet, &mut buffer);
                format!("13 {}", kind_of_fault(&sheet, done.number, done.place))
            }
            _ => continue,
        };
        *seen.entry(kind).or_default() += 1;
    }
    seen
}

/// Each kind of fault comes often enough in inserts and in sheets read, in the first row, in the
/// last and between them.
#[test]
fn every_fault_comes_in_every_row() {
    let seen = faults_that_come();
    let rows = ["first", "middle", "last"];
    let all = ["none", "length", "version", "row count", "no byte there", "left over"];
    let of_rows = |kind: &'static str| rows.iter().map(move |row| format!("{kind}, {row}"));
    let read = all.map(String::from).into_iter().chain(of_rows("inputs")).chain(of_rows("past the file"));
    let read: Vec<String> = read.collect();
    let inserted = read.iter().cloned().chain(of_rows("astray")).map(|kind| format!("2 {kind}"));
    let converted = of_rows("astray").map(|kind| format!("13 {kind}")).chain(["2 retired".into()]);
    for kind in inserted.chain(read.iter().map(|kind| format!("9 {kind}"))).chain(converted) {
        let count = seen.get(&kind).copied().unwrap_or(0);
        assert!(count >= 5, "only {count} of {kind}: {seen:?}");
    }
}

/// The rows of a request's stores as their counts say, and of its sheet.
fn longest(request: &Request) -> usize {
    let count = |words: &[u32]| words.first().map_or(0, |&count| count as usize).min(words.len() / 6);
    match request {
        Request::Check { words } | Request::Key { words, .. } => count(words),
        Request::PartOf { words, .. } | Request::Mend { words, .. } | Request::Run { words, .. } => {
            count(words)
        }
        Request::Insert { words, sheet, .. } | Request::InsertStrict { words, sheet, .. } => {
            count(words).max(sheet.len() / 13)
        }
        Request::Convert { words, sheet, .. } => count(words).max(sheet.len() / 13),
        Request::Compare { first, second, .. } => count(first).max(count(second)),
        Request::IsKey { bytes } | Request::Next { bytes } => bytes.len() / 13,
        Request::ReadSheet { sheet } => sheet.len() / 13,
        Request::Reader { bundle, .. } => bundle.len() / 13,
    }
}

/// Slow programs answer these too: most requests are small, some are large.
#[test]
fn sizes() {
    let sizes: Vec<usize> =
        seeded(SEEDS).map(|(seed, place)| longest(&making::request(seed, place))).collect();
    let over = |rows: usize| sizes.iter().filter(|&&size| size > rows).count();
    assert!(over(40) < 770, "{} requests over 40 rows", over(40));
    assert!(over(320) < 440, "{} requests over 320 rows", over(320));
    assert!(over(1_000) >= 100, "{} requests over 1,000 rows", over(1_000));
}

/// Rows of one tree agree at every depth, others part at last: after how many depths the last do.
fn deepest(rows: &[Row]) -> usize {
    let mut table = at_depth_0(rows);
    for depth in 0.. {
        let next = one_deeper(rows, &table);
        if next == table {
            return depth;
        }
        table = next;
    }
    unreachable!("a table changes no oftener than it has rows")
}

/// Each deep drawing has as many trees as rows, as many rows as asked for or nearly, and rows that
/// part as far down as a fourth of that.
#[test]
fn shapes_are_deep_and_all_different() {
    for (place, shape) in shapes::SHAPES.iter().enumerate() {
        for most in [8, 9, 33, 80] {
            let rows = shape(most, 1);
            assert!(rows.len() <= most && rows.len() + 4 > most, "shape {place}: {} rows", rows.len());
            assert!(sameness::all_different(&rows), "shape {place} of {most} rows");
            assert!(deepest(&rows) + 2 >= most / 4, "shape {place} of {most}: only {} deep", deepest(&rows));
        }
        let full = shape(MOST_ROWS, 0);
        assert!(sameness::all_different(&full), "shape {place} of 1,024 rows");
        let two = joined(&full, &shape(MOST_ROWS, 1));
        assert!(sameness::all_different(&two), "shape {place} with two odd rows");
    }
}

/// How many inputs on from the row it comes round again, the shortest way; 0 when it never does.
fn turn(rows: &[Row], start: usize) -> usize {
    let mut reached = vec![start];
    let mut met = vec![false; rows.len()];
    for steps in 1..=rows.len() {
        let inputs: Vec<usize> = reached.iter().flat_map(|&row| rows[row].inputs.clone()).collect();
        if inputs.contains(&start) {
            return steps;
        }
        reached = inputs.into_iter().filter(|&row| !std::mem::replace(&mut met[row], true)).collect();
    }
    0
}

/// A request's rows where it is an insert whose store and sheet can be read.
fn rows_to_sort(request: &Request) -> Option<Vec<Row>> {
    let Request::Insert { words, sheet, .. } = request else {
        return None;
    };
    let known = store::read(words).ok()?;
    let drawn = sheet::inserted_behind(known.len(), &sheet::read(sheet).ok()?).ok()?;
    Some(known.into_iter().chain(drawn).collect())
}

/// The seeds reach 2,048 rows in store and sheet together, with long loops, short ones and none.
#[test]
fn inserts_of_2048_rows_with_loops() {
    let requests = seeded(SEEDS).map(|(seed, place)| making::request(seed, place));
    let large: Vec<Vec<Row>> =
        requests.filter_map(|request| rows_to_sort(&request)).filter(|rows| rows.len() > 2_000).collect();
    let longest = |rows: &Vec<Row>| (0..4).map(|part| turn(rows, rows.len() / 4 * part)).max().unwrap_or(0);
    let of = |turns: std::ops::Range<usize>| large.iter().filter(move |rows| turns.contains(&longest(rows)));
    let (none, short, long) = (of(0..1).count(), of(1..10).count(), of(256..2_048).count());
    assert!(
        none >= 5 && short >= 5 && long >= 5,
        "{none} without loops, {short} with short ones, {long} long"
    );
    assert!(of(256..2_048).any(|rows| rows.len() == 2_048));
}

/// The labels of the rows that a request's stores and sheet have, where they can be read.
fn labels(request: &Request) -> Vec<u32> {
    let in_store = |words: &[u32]| store::read(words).unwrap_or_default();
    let rows = match request {
        Request::Check { words } | Request::Key { words, .. } | Request::PartOf { words, .. } => {
            in_store(words)
        }
        Request::Compare { first, second, .. } => joined(&in_store(first), &in_store(second)),
        _ => rows_to_sort(request).unwrap_or_default(),
    };
    rows.iter().map(|row| row.label).collect()
}

/// Labels use all 32 bits: for each bit there are requests with two labels that differ in it alone.
#[test]
fn every_bit_of_a_label_matters() {
    let mut requests = [0; 32];
    for (seed, place) in seeded(SEEDS) {
        let labels: HashSet<u32> = labels(&making::request(seed, place)).into_iter().collect();
        for (bit, count) in requests.iter_mut().enumerate() {
            *count += usize::from(labels.iter().any(|label| labels.contains(&(label ^ 1 << bit))));
        }
    }
    assert!(requests.iter().all(|&count| count >= 5), "{requests:?}");
}

/// A stress bundle has a chain that the store takes and thousands of sheets, and is as full as it can be.
#[test]
fn stress_bundles() {
    for seed in 1..=2 {
        let bundle = bundles::stress(seed);
        assert!(
            (MOST_BUNDLE_BYTES - 16..=MOST_BUNDLE_BYTES).contains(&bundle.len()),
            "{} bytes",
            bundle.len()
        );
        let mut lines = Vec::new();
        program::run(&bundle, &mut lines).expect("writing to memory");
        let lines = String::from_utf8(lines).expect("plain text");
        assert!(lines.starts_with("1 0 1024 0 1 2 ") || lines.starts_with("1 0 984 0 1 2 "), "seed {seed}");
        assert!(lines.lines().count() > 2_000, "seed {seed}: {} lines", lines.lines().count());
    }
}

#[test]
fn bundles_fit_unless_they_are_too_long_on_purpose() {
    let lengths: Vec<usize> = (0..300).map(|seed| bundles::bundle(seed, seed as usize % 13).len()).collect();
    let long = lengths.iter().filter(|&&length| length > MOST_BUNDLE_BYTES).count();
    let full = lengths.iter().filter(|&&length| length == MOST_BUNDLE_BYTES).count();
    assert!((5..40).contains(&long), "{long} bundles are too long");
    assert!(full >= 5, "{full} bundles are just full");
}

#[test]
fn the_most_sheets_fit() {
    for seed in 0..4 {
        let bundle = bundles::bundle(seed, bundles::MOST_SHEETS);
        assert!(!bundle.is_empty());
    }
}
