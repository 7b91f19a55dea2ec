//! Tests: the rules' examples, the rules themselves on thrown requests, and the forms of input
//! and output.

mod arguments;
mod converting;
mod definition;
mod examples;
mod faults;
mod lines;
mod making;
mod mends;
mod places;
mod refusals;
mod runs;
mod strict;
mod thrown;
mod walking;
mod wires;

/// The one-turn hold.
pub const A: &str = "00 00 00 0A 01 00 01 00 06 00 00 01 00 00";
/// The hold in two turns.
pub const B: &str = "00 00 00 11 01 00 02 00 06 00 00 01 00 01 00 06 00 00 01 00 00";
/// Channel 1 less constant 40.
pub const D: &str = "00 00 00 16 01 00 03 00 03 00 00 02 00 01 00 02 00 01 00 01 00 00 02 00 28 00";
pub const EMPTY: &str = "00 00 00 03 01 00 00";

pub const CHANNEL_1: u32 = 0x0001_0001;
pub const CONSTANT_40: u32 = 0x0002_0028;
pub const DIFFERENCE: u32 = 0x0003_0000;
pub const HOLD: u32 = 0x0006_0000;
pub const WIRE: u32 = 0x0007_0000;

/// The seeds that the comparison starts with, and how many requests it takes of each.
pub const SEEDS: u64 = 30;
pub const EACH: u64 = 150;

/// Each request of the first so many seeds, by its seed and place.
pub fn seeded(seeds: u64) -> impl Iterator<Item = (u64, u64)> {
    (1..=seeds).flat_map(|seed| (0..EACH).map(move |place| (seed, place)))
}

/// Bytes as the rules write them.
pub fn bytes(written: &str) -> Vec<u8> {
    let byte = |pair| u8::from_str_radix(pair, 16).expect("two hex digits");
    written.split_whitespace().map(byte).collect()
}

/// Words of a store with the given rows and room for `capacity`.
pub fn store(capacity: usize, rows: &[(u32, &[u32])]) -> Vec<u32> {
    let mut words = vec![rows.len() as u32];
    for (label, inputs) in rows {
        words.extend([*label, inputs.len() as u32]);
        words.extend(inputs.iter());
        words.extend(vec![0; 4 - inputs.len()]);
    }
    words.resize(1 + 6 * capacity, 0);
    words
}

/// A sheet with the given rows.
pub fn sheet(rows: &[(u32, &[u16])]) -> Vec<u8> {
    let row = |&(label, inputs): &(u32, &[u16])| crate::sheet::SheetRow { label, inputs: inputs.to_vec() };
    crate::sheet::write(&rows.iter().map(row).collect::<Vec<_>>())
}

/// Channel 1, constant 40 and their difference, with room to spare.
pub fn difference_store() -> Vec<u32> {
    store(8, &[(CHANNEL_1, &[]), (CONSTANT_40, &[]), (DIFFERENCE, &[0, 1])])
}
