//! Requests to write a key, and to tell whether bytes are one.

use super::{damage, pictures, size, stores, wiring};
use crate::dice::Dice;
use crate::law::{MOST_ROWS, STORE_MARK};
use crate::operations;
use crate::requests::{Request, BYTE_ROOM};
use crate::rows::Row;
use crate::sheet::{self, SheetRow};

/// Longer than any key: a head and 1,024 rows of four inputs.
const LONGEST_KEY: usize = 13_319;

/// The key of a row, written by this program itself.
fn key(rows: &[Row], row: usize) -> Vec<u8> {
    let mut buffer = vec![0; LONGEST_KEY];
    let written = operations::write_key(&stores::laid_out(rows), row as u32, &mut buffer);
    buffer.truncate(written.bytes as usize);
    buffer
}

/// The rows of a store with at least one row.
fn some_rows(dice: &mut Dice) -> Vec<Row> {
    let size = size(dice).max(1);
    stores::rows(dice, size)
}

/// A key to be written.
pub fn written(dice: &mut Dice) -> Request {
    let rows = some_rows(dice);
    written_of(dice, &rows)
}

/// The key of some row, its buffer exactly right, longer with junk, one short, or much too short.
pub fn written_of(dice: &mut Dice, rows: &[Row]) -> Request {
    let row = dice.below(rows.len());
    let length = key(rows, row).len();
    let room = dice.pick(&[length, length, length + 1, length + 9, length - 1, length - 1, length / 2, 0]);
    Request::Key { words: stores::roomy(dice, rows), row: row as u32, buffer: dice.junk_bytes(room) }
}

/// A row that is not in use, in a buffer that may be short as well.
pub fn not_in_use(dice: &mut Dice) -> Request {
    let size = size(dice);
    let rows = stores::rows(dice, size);
    let row = dice.pick(&[rows.len() as u32, rows.len() as u32 + 1, 1_024, u32::MAX]);
    let room = dice.pick(&[0, 20, 400]);
    Request::Key { words: stores::roomy(dice, &rows), row, buffer: dice.junk_bytes(room) }
}

/// A key of a store that is refused; the row may be out of use and the buffer short as well.
pub fn of_spoiled_store(dice: &mut Dice) -> Request {
    let rows = some_rows(dice);
    let row = dice.below(rows.len() + 2) as u32;
    let room = dice.pick(&[0, 30, 400]);
    Request::Key { words: stores::spoiled(dice, &rows), row, buffer: dice.junk_bytes(room) }
}

/// Keys at the limits: of a full store, and a buffer as long as a request has room for.
pub fn at_the_limits(dice: &mut Dice) -> Request {
    let rows = pictures::different(dice, MOST_ROWS);
    let row = dice.below(MOST_ROWS);
    let length = key(&rows, row).len();
    let room = dice.pick(&[length, length - 1, length + 5, BYTE_ROOM]);
    Request::Key { words: stores::roomy(dice, &rows), row: row as u32, buffer: dice.junk_bytes(room) }
}

/// Bytes that are a key or come close to one.
pub fn asked(dice: &mut Dice) -> Request {
    let rows = some_rows(dice);
    asked_of(dice, &rows)
}

/// The key of some row, or bytes that come close to it.
pub fn asked_of(dice: &mut Dice, rows: &[Row]) -> Request {
    let start = dice.below(rows.len());
    let drawn = sheet::read(&key(rows, start)).expect("a key is a readable sheet");
    let bytes = match dice.below(16) {
        0..=3 => sheet::write(&drawn),
        4 => reordered(dice, &drawn),
        5 => two_swapped(dice, &drawn),
        6 | 7 => tree_twice(dice, &drawn),
        8 => with_store_number(dice, drawn),
        9 => with_unreachable_row(dice, drawn),
        10 => with_input_astray(dice, drawn),
        11 => sheet::write(&[]),
        12 => drawn_anyhow(dice),
        13 | 14 => with_wire(dice, drawn),
        _ => damaged(dice, &drawn),
    };
    Request::IsKey { bytes }
}

fn as_rows(drawn: &[SheetRow]) -> Vec<Row> {
    sheet::behind_store(0, drawn).expect("a key's inputs are its rows")
}

fn as_bytes(rows: &[Row]) -> Vec<u8> {
    sheet::write(&sheet::from_behind_store(0, rows))
}

/// The rows in any other order, so that row 0 may be another too.
fn reordered(dice: &mut Dice, drawn: &[SheetRow]) -> Vec<u8> {
    as_bytes(&pictures::permuted(dice, 0, &as_rows(drawn)))
}

/// Two neighbours behind row 0 change places.
fn two_swapped(dice: &mut Dice, drawn: &[SheetRow]) -> Vec<u8> {
    if drawn.len() < 3 {
        return sheet::write(drawn);
    }
    let first = dice.between(1, drawn.len() - 2);
    let swapped = |input: usize| match input {
        _ if input == first => first + 1,
        _ if input == first + 1 => first,
        _ => input,
    };
    let mut rows = as_rows(drawn);
    rows.swap(first, first + 1);
    rows.iter_mut().flat_map(|row| &mut row.inputs).for_each(|input| *input = swapped(*input));
    as_bytes(&rows)
}

/// A tree drawn more than once; put into the order of the walk, so that only this is wrong.
fn tree_twice(dice: &mut Dice, drawn: &[SheetRow]) -> Vec<u8> {
    walked(&pictures::unrolled(dice, 0, &as_rows(drawn), 2 * drawn.len() + 1))
}

/// The rows that row 0 reaches, in the order of the walk from it.
fn walked(rows: &[Row]) -> Vec<u8> {
    let order = crate::rows::walk(rows, 0);
    let mut place = vec![0; rows.len()];
    order.iter().enumerate().for_each(|(at, &row)| place[row] = at);
    let placed = |&row: &usize| Row {
        label: rows[row].label,
        inputs: rows[row].inputs.iter().map(|&input| place[input]).collect(),
    };
    as_bytes(&order.iter().map(placed).collect::<Vec<_>>())
}

/// Wires between the rows, before them, or a row that becomes one; in the order of the walk, so that
/// only this is wrong. Or a label that looks like a wire's, which spoils nothing.
fn with_wire(dice: &mut Dice, mut drawn: Vec<SheetRow>) -> Vec<u8> {
    let row = dice.below(drawn.len());
    match dice.below(4) {
        0 => drawn[row].label = wiring::label(dice),
        1 => drawn[row].label = wiring::nearly(dice),
        2 => {
            let rows: Vec<Row> =
                [wiring::wire(dice, 1)].into_iter().chain(pictures::moved(&as_rows(&drawn), 1)).collect();
            return as_bytes(&rows);
        }
        _ => return walked(&wiring::between(dice, 0, &as_rows(&drawn), MOST_ROWS - drawn.len())),
    }
    sheet::write(&drawn)
}

/// One of all inputs changed, where there is any.
fn with_input(dice: &mut Dice, mut drawn: Vec<SheetRow>, choose: impl Fn(&mut Dice, u16) -> u16) -> Vec<u8> {
    let mut inputs: Vec<&mut u16> = drawn.iter_mut().flat_map(|row| &mut row.inputs).collect();
    if !inputs.is_empty() {
        let place = dice.below(inputs.len());
        *inputs[place] = choose(dice, *inputs[place]);
    }
    sheet::write(&drawn)
}

fn with_store_number(dice: &mut Dice, drawn: Vec<SheetRow>) -> Vec<u8> {
    with_input(dice, drawn, |dice, input| STORE_MARK + dice.pick(&[0, 1, input]))
}

fn with_input_astray(dice: &mut Dice, drawn: Vec<SheetRow>) -> Vec<u8> {
    let count = drawn.len() as u16;
    with_input(dice, drawn, |dice, _| dice.pick(&[count, count + 1, STORE_MARK - 1]))
}

/// A row more at the end that no other uses.
fn with_unreachable_row(dice: &mut Dice, mut drawn: Vec<SheetRow>) -> Vec<u8> {
    let inputs = if dice.one_in(2) { Vec::new() } else { vec![dice.below(drawn.len() + 1) as u16] };
    let label = dice.pick(&[2 << 16 | 9, drawn[0].label]);
    drawn.push(SheetRow { label, inputs });
    sheet::write(&drawn)
}

/// Any small drawing; few of them are keys.
fn drawn_anyhow(dice: &mut Dice) -> Vec<u8> {
    let size = dice.between(1, 4);
    as_bytes(&pictures::any(dice, size))
}

fn damaged(dice: &mut Dice, drawn: &[SheetRow]) -> Vec<u8> {
    let mut bytes = sheet::write(drawn);
    damage::bytes(dice, &mut bytes);
    bytes
}

/// A key of up to 1,024 rows, as it is or with two rows swapped, and as many bytes as there is
/// room for.
pub fn asked_at_the_limits(dice: &mut Dice) -> Request {
    let rows = pictures::different(dice, MOST_ROWS);
    let drawn = sheet::read(&key(&rows, dice.below(MOST_ROWS))).expect("a key is a readable sheet");
    let mut bytes = if dice.one_in(3) { two_swapped(dice, &drawn) } else { sheet::write(&drawn) };
    if dice.one_in(4) {
        bytes.resize(BYTE_ROOM, 0);
        damage::settle_length(&mut bytes);
    }
    Request::IsKey { bytes }
}
