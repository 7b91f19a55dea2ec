//! Wires: skipped in every place, refused where they lead nowhere, and in no store and no key. The same
//! sheet with wires and without is one chain.

use super::definition::{is_wire, wires_verdict, with_wires_skipped};
use super::*;
use crate::dice::Dice;
use crate::law::MOST_ROWS;
use crate::making::{self, wiring};
use crate::operations::{check, compare, insert, insert_strict, is_key, part_of, write_key};
use crate::operations::{Answer, Inserted, Written};
use crate::requests::Request;
use crate::rows::Row;
use crate::{sheet as sheets, store as stores, wires};
use std::collections::HashMap;

const SUM: u32 = 0x0004_0000;
const SCALE: u32 = 0x0005_0000;
const FREE: u32 = 0x000D_0000;

/// The rows of a sheet, each a label and its inputs.
type Drawn<'a> = &'a [(u32, &'a [u16])];

type Insert = fn(&mut [u32], &[u8], &mut [u32]) -> Inserted;

/// Number, rows added and answers of a sheet, with an entry for each row; place 0.
fn given(call: Insert, words: &mut [u32], rows: Drawn) -> (u32, u32, Vec<u32>) {
    let mut list = vec![99; rows.len()];
    let Inserted { number, added, place } = call(words, &sheet(rows), &mut list);
    assert_eq!(place, 0);
    (number, added, list)
}

/// The numbers of both inserts for a sheet, into a store of no rows that has room.
fn numbers(rows: Drawn) -> (u32, u32) {
    (given(insert, &mut store(9, &[]), rows).0, given(insert_strict, &mut store(9, &[]), rows).0)
}

#[test]
fn a_wire_has_the_number_of_what_it_leads_to() {
    let mut words = store(3, &[]);
    assert_eq!(
        given(insert, &mut words, &[(HOLD, &[1]), (WIRE, &[2]), (CHANNEL_1, &[])]),
        (0, 2, vec![0, 1, 1])
    );
    assert_eq!(words, store(3, &[(HOLD, &[1]), (CHANNEL_1, &[])]));
    // The same without the wire, and with wires of other settings, is known.
    assert_eq!(given(insert, &mut words, &[(HOLD, &[1]), (CHANNEL_1, &[])]), (0, 0, vec![0, 1]));
    let two: Drawn =
        &[(WIRE | 7, &[1]), (HOLD, &[2]), (WIRE | 0xFFFF, &[3]), (WIRE | 1, &[4]), (CHANNEL_1, &[])];
    assert_eq!(given(insert, &mut words, two), (0, 0, vec![0, 0, 1, 1, 1]));
}

/// It is an appearance of that tree: drawn before it, it takes the next number for it.
#[test]
fn a_wire_drawn_first_takes_the_number() {
    let mut words = store(3, &[]);
    let rows: Drawn = &[(WIRE, &[2]), (HOLD, &[2]), (CONSTANT_40, &[]), (CHANNEL_1, &[])];
    assert_eq!(given(insert, &mut words, rows), (0, 3, vec![0, 1, 0, 2]));
    assert_eq!(words, store(3, &[(CONSTANT_40, &[]), (HOLD, &[0]), (CHANNEL_1, &[])]));
}

#[test]
fn a_wire_to_a_row_that_the_store_knows() {
    let mut words = difference_store();
    assert_eq!(given(insert, &mut words, &[(WIRE, &[32_770])]).0, 19);
    let known: Drawn = &[
        (DIFFERENCE, &[1, 2]),
        (WIRE, &[4]),
        (WIRE, &[3]),
        (WIRE, &[5]),
        (CHANNEL_1, &[]),
        (CONSTANT_40, &[]),
    ];
    assert_eq!(given(insert, &mut words, known), (0, 0, vec![2, 0, 1, 1, 0, 1]));
    assert_eq!(words, difference_store());
}

/// A loop that passes wires and a box is read as the loop of the box.
#[test]
fn wires_in_a_loop_of_boxes() {
    let mut words = store(1, &[(HOLD, &[0])]);
    assert_eq!(given(insert, &mut words, &[(HOLD, &[1]), (WIRE, &[0])]), (0, 0, vec![0, 0]));
    let turns: Drawn = &[(WIRE, &[1]), (HOLD, &[2]), (WIRE, &[3]), (HOLD, &[0])];
    assert_eq!(given(insert_strict, &mut words, turns), (0, 0, vec![0; 4]));
}

/// The list has an entry for each row, wires too; room is for trees.
#[test]
fn lists_and_room() {
    let rows: Drawn = &[(WIRE, &[1]), (CHANNEL_1, &[]), (WIRE, &[0])];
    let number = |words: &mut [u32], entries| insert(words, &sheet(rows), &mut vec![9; entries]).number;
    assert_eq!(number(&mut store(1, &[]), 2), 7);
    assert_eq!(number(&mut store(1, &[]), 3), 0);
    assert_eq!(number(&mut store(0, &[]), 3), 8);
    assert_eq!(number(&mut store(1, &[(HOLD, &[0])]), 3), 8);
    assert_eq!(number(&mut store(1, &[(CHANNEL_1, &[])]), 3), 0);
}

/// Labels of which some bits are a wire's.
#[test]
fn labels_that_are_no_wires() {
    for label in [7, HOLD | 7, 0x0107_0000, 0x8007_0000, 0x0700_0000, 0x0008_0007] {
        assert_eq!(
            given(insert, &mut store(2, &[]), &[(label, &[]), (label, &[1])]),
            (0, 2, vec![0, 1]),
            "{label}"
        );
        assert_eq!(check(&store(1, &[(label, &[0])])), 0, "{label}");
        assert!(is_key(&sheet(&[(label, &[0])])), "{label}");
    }
}

#[test]
fn wires_without_exactly_one_input() {
    for inputs in [&[] as &[u16], &[1, 1], &[1, 1, 1], &[1, 1, 1, 1]] {
        assert_eq!(numbers(&[(WIRE | 3, inputs), (CHANNEL_1, &[])]), (14, 14), "{inputs:?}");
        // As the last row too, which nothing leads to, and where a wire leads to it.
        assert_eq!(numbers(&[(CHANNEL_1, &[]), (CHANNEL_1, &[]), (WIRE, inputs)]), (14, 14), "{inputs:?}");
        assert_eq!(
            numbers(&[(HOLD, &[2]), (CHANNEL_1, &[]), (WIRE, &[3]), (WIRE, inputs)]),
            (14, 14),
            "{inputs:?}"
        );
    }
}

#[test]
fn loops_of_wires() {
    assert_eq!(numbers(&[(WIRE, &[0])]), (15, 15));
    assert_eq!(numbers(&[(WIRE, &[1]), (WIRE, &[0])]), (15, 15));
    assert_eq!(numbers(&[(CHANNEL_1, &[]), (WIRE, &[2]), (WIRE | 1, &[3]), (WIRE, &[1])]), (15, 15));
    // A box, a wire and the box again lead into a loop.
    assert_eq!(numbers(&[(HOLD, &[1]), (WIRE, &[2]), (WIRE, &[2])]), (15, 15));
    // Wires that lead to one wire are no loop.
    assert_eq!(
        numbers(&[(SUM, &[1, 2]), (WIRE, &[3]), (WIRE, &[3]), (WIRE, &[4]), (CHANNEL_1, &[])]),
        (0, 0)
    );
}

/// 1 to 6, 14, 15, 12, 13, 7, 8: takes one wrong after another away.
#[test]
fn the_order_of_refusals() {
    let all: Drawn = &[(SCALE, &[0]), (FREE, &[9]), (WIRE, &[2]), (WIRE, &[])];
    let (none, full) = (store(0, &[]), store(1, &[(WIRE, &[0])]));
    let number = |call: Insert, words: &[u32], rows: Drawn, entries| {
        let (mut after, mut list) = (words.to_vec(), vec![5; entries]);
        let number = call(&mut after, &sheet(rows), &mut list).number;
        assert!(number == 0 || (after, list) == (words.to_vec(), vec![5; entries]));
        number
    };
    let of = |words: &[u32], rows: Drawn, entries| {
        (number(insert, words, rows, entries), number(insert_strict, words, rows, entries))
    };
    assert_eq!(of(&[], all, 0), (1, 1));
    assert_eq!(of(&full, all, 0), (2, 2));
    assert_eq!(of(&none, all, 0), (6, 6));
    assert_eq!(of(&none, &[(SCALE, &[0]), (FREE, &[1]), (WIRE, &[2]), (WIRE, &[])], 0), (14, 14));
    assert_eq!(of(&none, &[(SCALE, &[0]), (FREE, &[1]), (WIRE, &[2]), (WIRE, &[0])], 0), (15, 15));
    assert_eq!(of(&none, &[(SCALE, &[0]), (FREE, &[1]), (WIRE, &[0]), (WIRE, &[0])], 0), (7, 12));
    assert_eq!(of(&none, &[(SCALE, &[0]), (SCALE, &[1]), (WIRE, &[0]), (WIRE, &[0])], 0), (7, 13));
    assert_eq!(of(&none, &[(HOLD, &[0]), (HOLD, &[1]), (WIRE, &[0]), (WIRE, &[0])], 3), (7, 7));
    assert_eq!(of(&none, &[(HOLD, &[0]), (HOLD, &[1]), (WIRE, &[0]), (WIRE, &[0])], 4), (8, 8));
}

/// A strict insert judges rows as they are drawn, which with wires that are right comes to the same.
#[test]
fn strictly_with_wires() {
    let looped: Drawn = &[(SCALE, &[1]), (WIRE, &[2]), (WIRE, &[0])];
    assert_eq!(numbers(looped), (0, 13));
    assert_eq!(numbers(&[(SCALE, &[1]), (WIRE, &[2]), (HOLD, &[0])]), (0, 0));
    assert_eq!(numbers(&[(WIRE, &[1]), (FREE, &[])]), (0, 12));
    assert_eq!(numbers(&[(SUM, &[1, 2]), (WIRE, &[3]), (WIRE, &[3]), (CHANNEL_1, &[])]), (0, 0));
    let words = store(3, &[(CHANNEL_1, &[]), (FREE, &[])]);
    assert_eq!(
        given(insert_strict, &mut words.clone(), &[(WIRE, &[1]), (CHANNEL_1, &[])]),
        (0, 0, vec![0, 0])
    );
    assert_eq!(given(insert_strict, &mut words.clone(), &[(WIRE, &[1]), (FREE, &[])]).0, 12);
}

/// Whatever its inputs and its setting, in each row; past the rows in use it is nothing.
#[test]
fn a_store_with_a_wire_is_refused_everywhere() {
    for (label, inputs) in
        [(WIRE, &[0u32] as &[u32]), (WIRE | 9, &[1]), (WIRE, &[]), (WIRE, &[0, 0]), (WIRE, &[0; 4])]
    {
        for rows in [[(CHANNEL_1, &[] as &[u32]), (label, inputs)], [(label, inputs), (CHANNEL_1, &[])]] {
            let mut words = store(3, &rows);
            refused_everywhere(&words);
            words[0] = rows.iter().take_while(|row| row.0 == CHANNEL_1).count() as u32;
            assert_eq!(check(&words), 0);
        }
    }
}

fn refused_everywhere(words: &[u32]) {
    let no = Answer { number: 2, yes: false };
    assert_eq!(check(words), 2);
    for call in [insert as Insert, insert_strict] {
        for file in [bytes(A), bytes(EMPTY), vec![]] {
            assert_eq!(
                call(&mut words.to_vec(), &file, &mut [5]),
                Inserted { number: 2, added: 0, place: 0 }
            );
        }
    }
    assert_eq!(write_key(words, 0, &mut [0; 99]), Written { number: 2, bytes: 0 });
    assert_eq!(compare(words, 0, &difference_store(), 0), no);
    assert_eq!(compare(&difference_store(), 0, words, 0), no);
    assert_eq!(part_of(words, 0, 0), no);
}

#[test]
fn a_key_has_no_wires() {
    assert!(is_key(&sheet(&[(HOLD, &[1]), (CHANNEL_1, &[])])));
    assert!(!is_key(&sheet(&[(HOLD, &[1]), (WIRE, &[2]), (CHANNEL_1, &[])])));
    assert!(!is_key(&sheet(&[(WIRE, &[1]), (CHANNEL_1, &[])])));
    assert!(!is_key(&sheet(&[(WIRE, &[0])])));
    assert!(!is_key(&sheet(&[(WIRE | 5, &[])])));
    assert!(!is_key(&sheet(&[(HOLD, &[1]), (WIRE, &[0, 0])])));
}

/// 1,000 wires and more in a row, in both directions, and in a loop.
#[test]
fn many_wires_in_a_row() {
    let channel = Row { label: CHANNEL_1, inputs: Vec::new() };
    let wire = |to: usize| Row { label: WIRE, inputs: vec![to] };
    let down: Vec<Row> = (1..MOST_ROWS).map(wire).chain([channel.clone()]).collect();
    let up: Vec<Row> = [channel].into_iter().chain((0..MOST_ROWS - 1).map(wire)).collect();
    let round: Vec<Row> = (1..=MOST_ROWS).map(|to| wire(to % MOST_ROWS)).collect();
    let number = |rows: &[Row]| {
        let mut list = vec![9; MOST_ROWS];
        let file = sheets::write(&sheets::from_behind_store(0, rows));
        let done = insert(&mut store(1, &[]), &file, &mut list);
        (done.number, done.added, list.iter().all(|&number| number == 0))
    };
    assert_eq!(number(&down), (0, 1, true));
    assert_eq!(number(&up), (0, 1, true));
    assert_eq!(number(&round), (15, 0, false));
}

/// The inserts of the seeds, plain and strict, that the comparison starts with.
fn requests() -> impl Iterator<Item = (String, bool, Vec<u32>, Vec<u8>)> {
    seeded(SEEDS).filter_map(|(seed, place)| {
        let name = format!("seed {seed} place {place}");
        match making::request(seed, place) {
            Request::Insert { words, sheet, .. } => Some((name, false, words, sheet)),
            Request::InsertStrict { words, sheet, .. } => Some((name, true, words, sheet)),
            _ => None,
        }
    })
}

/// The rows of store and sheet and how many are the store's, where nothing up to 6 is wrong.
fn together(words: &[u32], file: &[u8]) -> Option<(usize, Vec<Row>)> {
    let known = stores::read(words).ok()?;
    let drawn = sheets::inserted_behind(known.len(), &sheets::read(file).ok()?).ok()?;
    Some((known.len(), known.into_iter().chain(drawn).collect()))
}

/// Refusals and reading of wires against the definition.
#[test]
fn by_definition() {
    let (mut wired, mut refused) = (0, 0);
    for (name, _, words, file) in requests() {
        let Some((_, rows)) = together(&words, &file).filter(|(_, rows)| rows.len() <= 300) else {
            continue;
        };
        let verdict = wires_verdict(&rows);
        assert_eq!(wires::test(&rows).map_or_else(|refusal| refusal.number(), |()| 0), verdict, "{name}");
        refused += usize::from(verdict > 0);
        if verdict == 0 && rows.iter().any(is_wire) {
            assert_eq!(wires::skipped(&rows), with_wires_skipped(&rows), "{name}");
            wired += 1;
        }
    }
    assert!(wired > 100 && refused > 40, "{wired} with wires, {refused} refused");
}

/// What a sheet of these rows gives, into the words with so much room: the number, the words after it
/// and the rows' numbers.
fn inserted(call: Insert, words: &[u32], rows: &[Row], used: usize) -> (u32, Vec<u32>, Vec<u32>) {
    let (mut after, mut list) = (words.to_vec(), vec![9; rows.len()]);
    let file = sheets::write(&sheets::from_behind_store(used, rows));
    let number = call(&mut after, &file, &mut list).number;
    (number, after, list)
}

/// The law of wires, first half: with wires put between any two boxes, all drawn behind the boxes, every
/// box gets the number it had, and the store is the same word for word. So it is with wires that nothing
/// leads to. Strict or plain.
#[test]
fn wires_behind_the_boxes_change_nothing() {
    let (mut done, mut more) = (0, 0);
    for (place, (name, strict, words, file)) in requests().enumerate() {
        let Some((used, rows)) = together(&words, &file) else {
            continue;
        };
        let (mut dice, drawn) = (Dice::new(11, place as u64), &rows[used..]);
        if wires_are_wrong(&rows) || drawn.len() > MOST_ROWS - 3 {
            continue;
        }
        let call: Insert = if strict { insert_strict } else { insert };
        let mut wired = wiring::between(&mut dice, used, drawn, MOST_ROWS - 3 - drawn.len());
        if !drawn.is_empty() {
            loose(&mut dice, used, &mut wired);
        }
        let (number, after, list) = inserted(call, &words, drawn, used);
        let (wired_number, wired_after, wired_list) = inserted(call, &words, &wired, used);
        assert_eq!((number, after), (wired_number, wired_after), "{name}");
        assert_eq!(list, wired_list[..drawn.len()], "{name}");
        done += usize::from(number == 0);
        more += usize::from(number == 0 && wired.len() > drawn.len());
    }
    assert!(done > 600 && more > 500, "{done} done, {more} of them with more wires");
}

/// Wires that nothing leads to; those that would lead to the store lead to the first row.
fn loose(dice: &mut Dice, used: usize, rows: &mut Vec<Row>) {
    wiring::loose(dice, used, rows);
    rows.iter_mut().flat_map(|row| &mut row.inputs).for_each(|input| *input = used.max(*input));
}

fn wires_are_wrong(rows: &[Row]) -> bool {
    wires::test(rows).is_err()
}

/// Second half: with wires drawn anywhere, the same trees are added, and every box has the key that it
/// had, though numbers may come in another order.
#[test]
fn wires_anywhere_add_the_same_trees() {
    let mut tried = 0;
    for (place, (name, _, words, file)) in requests().enumerate() {
        let Some((used, rows)) = together(&words, &file).filter(|(_, rows)| rows.len() <= 40) else {
            continue;
        };
        let (number, after, list) = inserted(insert, &words, &rows[used..], used);
        if number != 0 {
            continue;
        }
        let mut dice = Dice::new(12, place as u64);
        let mut wired = wiring::between(&mut dice, used, &rows[used..], MOST_ROWS / 2);
        let order = dice.order(wired.len());
        wired = making::pictures::arranged(used, &wired, &order);
        let (number, wired_after, wired_list) = inserted(insert, &words, &wired, used);
        assert_eq!((number, wired_after[0]), (0, after[0]), "{name}");
        for (at, &row) in order.iter().enumerate().filter(|(_, &row)| row < list.len()) {
            let same = compare(&after, list[row], &wired_after, wired_list[at]);
            assert_eq!(same, Answer { number: 0, yes: true }, "{name}, row {row}");
        }
        tried += 1;
    }
    assert!(tried > 400, "{tried} tried");
}

/// What a request has of wires.
fn cases_of(used: usize, rows: &[Row]) -> Vec<&'static str> {
    let wires: Vec<usize> = (used..rows.len()).filter(|&row| is_wire(&rows[row])).collect();
    let leads_to =
        |wire: usize, what: &dyn Fn(usize) -> bool| rows[wire].inputs.iter().any(|&input| what(input));
    let met = |wire: usize| rows.iter().any(|row| row.inputs.contains(&wire));
    let any = |what: &dyn Fn(usize) -> bool| wires.iter().any(|&wire| what(wire));
    let count = |wire: usize| rows[wire].inputs.len();
    let cases: [(&'static str, bool); 11] = [
        ("before its box", any(&|wire| leads_to(wire, &|input| input > wire))),
        ("behind its box", any(&|wire| leads_to(wire, &|input| (used..wire).contains(&input)))),
        ("on a wire", any(&|wire| leads_to(wire, &|input| input != wire && is_wire(&rows[input])))),
        ("on itself", any(&|wire| rows[wire].inputs == [wire])),
        ("not met", any(&|wire| !met(wire))),
        ("with a setting", any(&|wire| rows[wire].label & 0xFFFF != 0)),
        ("of no inputs", any(&|wire| count(wire) == 0)),
        ("of 2", any(&|wire| count(wire) == 2)),
        ("of 3 or 4", any(&|wire| count(wire) > 2)),
        ("over 900", wires.len() > 900),
        ("a setting of 7", rows[used..].iter().any(|row| !is_wire(row) && row.label & 0xFFFF == 7)),
    ];
    cases.into_iter().filter(|case| case.1).map(|case| case.0).collect()
}

/// Each case comes often enough, in plain inserts and in strict ones.
#[test]
fn every_case_comes() {
    let mut seen: HashMap<(bool, &str), usize> = HashMap::new();
    for (_, strict, words, file) in requests() {
        let Some((used, rows)) = together(&words, &file) else {
            continue;
        };
        cases_of(used, &rows).into_iter().for_each(|case| *seen.entry((strict, case)).or_default() += 1);
    }
    assert_eq!(seen.len(), 22, "{seen:?}");
    assert!(seen.values().all(|&count| count >= 3), "{seen:?}");
}
