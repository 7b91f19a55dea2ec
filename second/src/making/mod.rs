//! What `make` writes. Each request is thrown by itself from the seed and its place, so a longer
//! run begins with the shorter one. `KINDS` has each kind's part of a thousand. They cover:
//!
//! insert     ordinary sheets (fresh, with rows that the store knows, copied with new rows on top,
//!            unrolled, permuted); unrolled copies of known loops; drawings in several turns; room
//!            exact and one row short, with trees drawn twice; answer lists of every length; spoiled
//!            stores; damaged sheets; inputs astray; store numbers, of rows that there are and others,
//!            alone and beside other refusals; several refusals at once; stores of none to 13 words,
//!            of 6,200, and stores and sheets of 1,024 rows
//! faulty     sheets with a fault of each kind, in the first row, one between or the last, and now
//!            and then one more behind it, to be inserted and to be read
//! read       good sheets, damaged ones, 1,024 and 1,025 rows, as many bytes as there is room for
//! wired      inserts of sheets with wires between any two boxes, singly, shared and in a row, drawn
//!            before what they lead to and behind it, and such as nothing leads to;
//!            copies of known rows; wires of no inputs and of 2 to 4; loops of wires, and wires and
//!            boxes that lead into them; other refusals; up to 1,000 wires in a row or in a loop
//! strict     strict inserts: chains of the catalogue, good, with free operations, wrong counts and
//!            loops without a hold, in the sheet, also where the store knows its rows, and in other
//!            store rows, with wires and without; with other refusals; what plain inserts are asked
//!            for, old sheets too, and those of sheets with wires; long loops and chains of 1,024 rows
//! convert    old sheets with store numbers, with wires and without, over stores of which they reach all
//!            or a part, by rows named and by others; rows that the sheet draws too; buffers just long
//!            enough, longer, short, and as long as the sheet; faults of each kind in the sheet, spoiled
//!            stores, wrong wires; results of 1,023, 1,024, 1,025 rows and more; sheets without store
//!            numbers; several refusals at once
//! mend       sound stores; wires and trees more than once, loops in several turns, unused words set;
//!            rows of over 4 inputs, inputs not below the count taken, wires of no input and of
//!            several, loops of wires and what leads into them; counts over the capacity, none to
//!            13 words, rows of junk; lists just long enough, longer and too short; up to 1,024 rows
//!            above a spoiled one, wires in a row or in a loop, or rows of one tree
//! run        chains of the catalogue with loops through holds, beside other rows; single operations
//!            over counts at and beside the ends of 32 bits; channel counts from 0 to 10 and larger,
//!            ticks cut, channels that the trace has not, reached or not; outputs just long enough,
//!            longer and short; free operations, wrong counts and loops without a hold, reached or
//!            not; stores that are refused, rows not in use; up to 1,024 rows and 8,192 values
//! key        buffers right, longer, short; rows not in use; spoiled stores; 1,024 rows
//! is a key   keys, keys in another order, with a tree twice, a store number, an unreachable row,
//!            an input astray, wires, no rows, damaged bytes; 1,024 rows
//! compare    two numberings of the same trees; differences far down; strangers; numbers not in
//!            use; spoiled stores on either side and both; 1,024 rows on each
//! part of    parts reached, asked both ways round; any numbers; spoiled stores
//! check      sound, spoiled and tiny stores, and 1,024 rows in 6,200 words
//! deep       chains, loops with one odd row, chains above such loops, smoothing stages in series,
//!            rings with own inputs and braids, in several orders: inserts of up to 1,024 rows
//!            beside 1,024, known, in several turns, new, or standing on the store; checks, keys,
//!            comparisons and parts
//! next and   whole bundles, cut in a length field and in a body, length fields of all ones,
//! reader     damaged bytes, places inside a sheet and past the end
//!
//! Labels come from a few operations (1 to 6) and settings (7 is one), so that rows often share one;
//! in about a quarter of the drawings they are any 32 bits and differ in one bit each. Only rows meant
//! as wires have operation 7; a spoiled store may have one, and so may words past its rows. Most
//! stores and sheets have 12 rows at most; about one request in eighty is at the limits and one in
//! twelve is deep, because slow programs answer them too.

pub mod bundles;
mod catalogue;
mod comparing;
mod converting;
mod damage;
mod deep;
mod faulty;
mod inserts;
mod keys;
mod mends;
pub mod pictures;
mod reading;
mod runs;
pub mod shapes;
mod spoiling;
mod stores;
mod strict;
mod traces;
mod walking;
mod wired;
pub mod wiring;

use crate::dice::Dice;
use crate::requests::Request;

type Kind = fn(&mut Dice) -> Request;

/// Each kind with its part of a thousand.
const KINDS: [(usize, Kind); 79] = [
    (20, inserts::ordinary),
    (16, inserts::known),
    (15, inserts::several_turns),
    (15, inserts::exact_room),
    (15, inserts::one_row_short),
    (15, inserts::answer_lists),
    (16, inserts::spoiled_store),
    (16, inserts::damaged_sheet),
    (14, inserts::astray),
    (21, inserts::many_refusals),
    (14, inserts::retired),
    (11, inserts::tiny_store),
    (5, inserts::long_store),
    (6, inserts::at_the_limits),
    (27, faulty::insert),
    (27, faulty::read),
    (6, reading::good),
    (6, reading::damaged),
    (1, reading::at_the_limits),
    (17, strict::good),
    (29, strict::spoiled),
    (26, strict::refused),
    (15, strict::of_plain),
    (8, strict::deep),
    (22, strict::of_wired),
    (18, wired::good),
    (10, wired::known),
    (14, wired::refused),
    (23, wired::wrong),
    (6, wired::long),
    (15, faulty::convert),
    (17, converting::good),
    (8, converting::short),
    (13, converting::refused),
    (11, converting::long),
    (4, converting::its_own),
    (6, mends::sound),
    (16, mends::merged),
    (23, mends::spoiled),
    (6, mends::one_tree),
    (8, mends::tiny),
    (6, mends::short_list),
    (6, mends::junk),
    (11, mends::deep),
    (15, runs::good),
    (22, runs::arithmetic),
    (12, runs::no_trace),
    (5, runs::short_output),
    (21, runs::spoiled),
    (8, runs::of_store),
    (6, runs::deep),
    (5, runs::long),
    (20, keys::written),
    (10, keys::not_in_use),
    (13, keys::of_spoiled_store),
    (2, keys::at_the_limits),
    (25, keys::asked),
    (2, keys::asked_at_the_limits),
    (16, comparing::check_sound),
    (18, comparing::check_spoiled),
    (8, comparing::check_tiny),
    (2, comparing::check_at_the_limits),
    (16, comparing::renumbered),
    (12, comparing::deep),
    (11, comparing::apart),
    (11, comparing::compare_not_in_use),
    (17, comparing::compare_spoiled),
    (1, comparing::compare_at_the_limits),
    (17, comparing::part_reached),
    (12, comparing::part_anyhow),
    (15, comparing::part_spoiled),
    (10, walking::next),
    (13, walking::reader),
    (17, deep::insert),
    (8, deep::check),
    (6, deep::key),
    (6, deep::is_key),
    (8, deep::compare),
    (6, deep::part_of),
];

/// The kinds' parts together, so that a change that forgets one does not build.
const fn whole() -> usize {
    let mut sum = 0;
    let mut kind = 0;
    while kind < KINDS.len() {
        sum += KINDS[kind].0;
        kind += 1;
    }
    sum
}

const _: () = assert!(whole() == 1_000);

/// The request at a place of a seed's run.
pub fn request(seed: u64, place: u64) -> Request {
    let mut dice = Dice::new(seed, place);
    let mut thrown = dice.below(whole());
    for (part, kind) in KINDS {
        if thrown < part {
            return kind(&mut dice);
        }
        thrown -= part;
    }
    unreachable!("the throw is below the sum of the parts")
}

/// How many rows a store or a sheet is to have: mostly few.
fn size(dice: &mut Dice) -> usize {
    match dice.below(100) {
        0..=89 => dice.between(0, 12),
        90..=97 => dice.between(13, 60),
        _ => dice.between(100, 300),
    }
}
