//! Runs: each operation at the ends of 32 bits, holds and loops, every refusal and their order, and the
//! rules' sentences held against thrown requests, by depths and not by asking from the top.

use super::definition::closed;
use super::*;
use crate::making;
use crate::requests::Request;
use crate::rows::Row;
use crate::running::run;
use crate::store as stores;
use std::collections::HashMap;

const MOST: i32 = i32::MAX;
const LEAST: i32 = i32::MIN;

const fn label(operation: u32, setting: u32) -> u32 {
    operation << 16 | setting
}

const CHANNEL_0: u32 = label(1, 0);
const SUM: u32 = label(4, 0);

/// What the last of the rows gives, tick by tick; or the number of the refusal, which changes nothing.
fn given(rows: &[(u32, &[u32])], channels: u32, values: &[i32]) -> Result<Vec<i32>, u32> {
    asked(&store(rows.len(), rows), rows.len() as u32 - 1, channels, values, values.len())
}

/// The same of any row, with an output of so many entries.
fn asked(words: &[u32], row: u32, channels: u32, values: &[i32], room: usize) -> Result<Vec<i32>, u32> {
    let mut output = vec![77; room];
    let number = run(words, row, channels, values, &mut output);
    if number != 0 {
        assert!(output.iter().all(|&entry| entry == 77), "refused {number}, and written");
        return Err(number);
    }
    let ticks = values.len() / channels as usize;
    assert!(output[ticks..].iter().all(|&entry| entry == 77), "entries past the ticks");
    output.truncate(ticks);
    Ok(output)
}

/// What an operation with a setting gives, its inputs the channels of one tick.
fn result(operation: u32, setting: u32, inputs: &[i32]) -> i32 {
    let channels: Vec<(u32, Vec<u32>)> = (0..inputs.len() as u32).map(|n| (label(1, n), vec![])).collect();
    let own = (label(operation, setting), (0..inputs.len() as u32).collect());
    let rows: Vec<(u32, Vec<u32>)> = channels.into_iter().chain([own]).collect();
    let lent: Vec<(u32, &[u32])> = rows.iter().map(|(label, inputs)| (*label, &inputs[..])).collect();
    let (count, values) = if inputs.is_empty() { (1, &[0][..]) } else { (inputs.len() as u32, inputs) };
    given(&lent, count, values).expect("done")[0]
}

#[test]
fn constants() {
    for (setting, value) in [(0, 0), (1, 1), (32_767, 32_767), (32_768, -32_768), (65_535, -1)] {
        assert_eq!(result(2, setting, &[]), value);
    }
}

#[test]
fn sums_and_differences() {
    for (a, b, sum, difference) in [
        (5, 3, 8, 2),
        (3, 5, 8, -2),
        (MOST, 1, MOST, MOST - 1),
        (MOST, -1, MOST - 1, MOST),
        (LEAST, -1, LEAST, LEAST + 1),
        (LEAST, 1, LEAST + 1, LEAST),
        (LEAST, LEAST, LEAST, 0),
        (MOST, MOST, MOST, 0),
        (0, LEAST, LEAST, MOST),
        (LEAST, MOST, -1, LEAST),
        (MOST, LEAST, -1, MOST),
    ] {
        assert_eq!((result(4, 9, &[a, b]), result(3, 9, &[a, b])), (sum, difference), "{a} and {b}");
    }
}

#[test]
fn scales() {
    for (setting, a, value) in [
        (0, LEAST, 0),
        (1, -1, 0),
        (1, 255, 0),
        (1, -256, -1),
        (1, -511, -1),
        (1, -512, -2),
        (1, LEAST, -8_388_608),
        (1, MOST, 8_388_607),
        (64, -7, -1),
        (64, 7, 1),
        (256, LEAST, LEAST),
        (256, MOST, MOST),
        (257, MOST, MOST),
        (257, LEAST, LEAST),
        (65_535, 1, 255),
        (65_535, -1, -255),
        (65_535, 8_388_736, MOST),
        (65_535, 8_388_737, MOST),
        (65_535, 8_388_735, 2_147_483_391),
        (65_535, -8_388_736, -MOST),
        (65_535, -8_388_737, LEAST),
        (65_535, MOST, MOST),
        (65_535, LEAST, LEAST),
    ] {
        assert_eq!(result(5, setting, &[a]), value, "{a} scaled by {setting}");
    }
}

#[test]
fn the_other_operations() {
    for (a, b, greater, lesser) in
        [(LEAST, MOST, MOST, LEAST), (-1, 0, 0, -1), (1, 0, 1, 0), (-2, -3, -2, -3), (7, 7, 7, 7)]
    {
        assert_eq!((result(8, 0, &[a, b]), result(9, 0, &[a, b])), (greater, lesser), "{a} and {b}");
    }
    for (a, value) in [(LEAST, 3), (-1, 3), (0, 3), (1, 2), (MOST, 2)] {
        assert_eq!(result(10, 0, &[a, 2, 3]), value, "{a} chooses");
    }
    for (inputs, value) in [
        ([MOST; 4], MOST),
        ([LEAST; 4], LEAST),
        ([-1, -1, -1, 0], 0),
        ([-1, -1, -1, -1], -1),
        ([-2, -2, -2, -1], -1),
        ([1, 1, 1, 0], 0),
        ([2, 2, 2, 1], 1),
        ([MOST, MOST, LEAST, LEAST], 0),
        ([LEAST, LEAST, LEAST, MOST], -1_073_741_824),
    ] {
        assert_eq!(result(11, 0, &inputs), value, "{inputs:?}");
    }
    for (a, value) in [(LEAST, MOST), (MOST, -MOST), (0, 0), (1, -1), (-1, 1)] {
        assert_eq!(result(12, 0, &[a]), value, "{a} negated");
    }
}

#[test]
fn holds() {
    assert_eq!(given(&[(CHANNEL_0, &[]), (HOLD, &[0])], 1, &[4, 5, 6]), Ok(vec![0, 4, 5]));
    assert_eq!(
        given(&[(CHANNEL_0, &[]), (HOLD, &[0]), (HOLD, &[1])], 1, &[4, 5, 6, 7]),
        Ok(vec![0, 0, 4, 5])
    );
    assert_eq!(given(&[(HOLD, &[0])], 1, &[4, 5]), Ok(vec![0, 0]));
    // A hold of a constant gives 0 first.
    assert_eq!(given(&[(CONSTANT_40, &[]), (HOLD | 9, &[0])], 1, &[0, 0, 0]), Ok(vec![0, 40, 40]));
    // A sum of the channel and its own value one tick before, which is clamped.
    let sum: &[(u32, &[u32])] = &[(CHANNEL_0, &[]), (HOLD, &[2]), (SUM, &[0, 1])];
    assert_eq!(given(sum, 1, &[1, 2, 3, 4]), Ok(vec![1, 3, 6, 10]));
    assert_eq!(given(sum, 1, &[MOST, 1, -1, LEAST]), Ok(vec![MOST, MOST, MOST - 1, -2]));
}

/// The loop of the examples: a quarter of the way to channel 1 less 40 at each tick.
#[test]
fn the_smoothing_loop() {
    let rows: &[(u32, &[u32])] = &[
        (SUM, &[1, 2]),
        (HOLD, &[0]),
        (label(5, 64), &[3]),
        (DIFFERENCE, &[4, 1]),
        (DIFFERENCE, &[5, 6]),
        (CHANNEL_1, &[]),
        (CONSTANT_40, &[]),
    ];
    let values: Vec<i32> = [140; 6].into_iter().flat_map(|count| [-9, count]).collect();
    let wanted = vec![25, 43, 57, 67, 75, 81];
    assert_eq!(asked(&store(7, rows), 0, 2, &values, 6), Ok(wanted));
}

#[test]
fn channels_of_a_tick() {
    let values: Vec<i32> = (0..24).collect();
    for channel in 0..8 {
        let wanted = (0..3).map(|tick| 8 * tick + channel as i32).collect();
        assert_eq!(given(&[(label(1, channel), &[])], 8, &values), Ok(wanted));
    }
    assert_eq!(given(&[(CHANNEL_0, &[])], 1, &values), Ok(values.clone()));
}

#[test]
fn no_values_are_no_ticks() {
    for channels in 1..=8 {
        assert_eq!(asked(&store(1, &[(CHANNEL_0, &[])]), 0, channels, &[], 0), Ok(vec![]));
        assert_eq!(asked(&store(1, &[(CHANNEL_0, &[])]), 0, channels, &[], 3), Ok(vec![]));
    }
    // All other tests come first.
    assert_eq!(given(&[(CHANNEL_1, &[])], 1, &[]), Err(17));
    assert_eq!(given(&[(CHANNEL_0, &[])], 0, &[]), Err(17));
    assert_eq!(given(&[(CHANNEL_0, &[])], 9, &[]), Err(17));
    assert_eq!(given(&[(SUM, &[0, 0])], 1, &[]), Err(13));
    assert_eq!(given(&[(13 << 16, &[])], 1, &[]), Err(12));
}

#[test]
fn what_is_no_trace() {
    for channels in [0, 9, 10, 256, 65_537, u32::MAX] {
        assert_eq!(given(&[(CONSTANT_40, &[])], channels, &[]), Err(17), "{channels} channels");
        assert_eq!(given(&[(CONSTANT_40, &[])], channels, &[1; 8]), Err(17), "{channels} channels");
    }
    for (channels, many) in [(2, 1), (2, 3), (3, 8), (8, 9), (8, 7), (5, 1)] {
        assert_eq!(given(&[(CONSTANT_40, &[])], channels, &vec![1; many]), Err(17), "{many} values");
    }
    for setting in [2, 3, 8, 65_535] {
        assert_eq!(given(&[(label(1, setting), &[])], 2, &[1, 2]), Err(17), "channel {setting}");
        // Behind a hold it is reached too; beside the row it is not.
        assert_eq!(given(&[(label(1, setting), &[]), (HOLD, &[0])], 2, &[1, 2]), Err(17));
        assert_eq!(given(&[(label(1, setting), &[]), (CHANNEL_1, &[])], 2, &[1, 2]), Ok(vec![2]));
        // Only a channel's setting is one.
        assert_eq!(given(&[(CHANNEL_1, &[]), (HOLD | setting, &[0])], 2, &[1, 2]), Ok(vec![0]));
    }
}

#[test]
fn what_is_reached() {
    let beside: &[(u32, &[u32])] = &[(13 << 16, &[]), (SUM, &[1, 1]), (HOLD, &[]), (CHANNEL_0, &[])];
    assert_eq!(given(beside, 1, &[5]), Ok(vec![5]));
    for (row, number) in [(0, 12), (1, 13), (2, 12)] {
        assert_eq!(asked(&store(4, beside), row, 1, &[5], 1), Err(number), "row {row}");
    }
    // Through a hold, and with another input count.
    assert_eq!(given(&[(13 << 16, &[]), (HOLD, &[0])], 1, &[5]), Err(12));
    assert_eq!(given(&[(SUM, &[0, 0]), (HOLD, &[0])], 1, &[5]), Err(13));
    assert_eq!(given(&[(CHANNEL_0, &[]), (SUM, &[0])], 1, &[5]), Err(12));
    assert_eq!(given(&[(CHANNEL_0, &[]), (label(33, 0), &[])], 1, &[5]), Err(12));
}

/// Takes one wrong after another away, and the next is given each time.
#[test]
fn the_order_of_refusals() {
    let unheld: &[(u32, &[u32])] = &[(label(1, 8), &[]), (SUM, &[0, 1]), (SUM | 1, &[1, 3]), (13 << 16, &[])];
    let words = store(4, unheld);
    let mut unsound = words.clone();
    unsound[0] = 5;
    assert_eq!(asked(&[], 4, 0, &[5; 3], 0), Err(1));
    assert_eq!(asked(&unsound, 5, 0, &[5; 3], 0), Err(2));
    assert_eq!(asked(&words, 4, 0, &[5; 3], 0), Err(9));
    assert_eq!(asked(&words, u32::MAX, 0, &[5; 3], 0), Err(9));
    assert_eq!(asked(&words, 2, 0, &[5; 3], 0), Err(12));
    assert_eq!(asked(&words, 1, 0, &[5; 3], 0), Err(13));
    assert_eq!(asked(&words, 0, 0, &[5; 3], 0), Err(17));
    assert_eq!(asked(&words, 0, 2, &[5; 3], 0), Err(17));
    assert_eq!(asked(&words, 0, 3, &[5; 3], 0), Err(17));
    let good = store(1, &[(CHANNEL_1, &[])]);
    assert_eq!(asked(&good, 0, 3, &[5; 3], 0), Err(18));
    assert_eq!(asked(&good, 0, 3, &[5; 6], 1), Err(18));
    assert_eq!(asked(&good, 0, 3, &[5; 6], 2), Ok(vec![5, 5]));
    assert_eq!(asked(&good, 0, 3, &[5; 6], 3), Ok(vec![5, 5]));
}

/// 1,024 rows: a straight chain, one of holds, and a loop with one hold in it.
#[test]
fn the_limits() {
    let inputs: Vec<[u32; 1]> = (0..1_024).map(|row| [(row + 1) % 1_024]).collect();
    let rows = |label: u32, last: (u32, &'static [u32])| {
        let front = inputs[..1_023].iter().map(move |on| (label, &on[..]));
        store(1_024, &front.chain([last]).collect::<Vec<_>>())
    };
    let negated = rows(12 << 16, (CHANNEL_0, &[]));
    assert_eq!(asked(&negated, 0, 1, &[5, LEAST, -7], 3), Ok(vec![-5, MOST, 7]));
    assert_eq!(asked(&negated, 1, 1, &[5, LEAST], 2), Ok(vec![5, -MOST]));
    let held = rows(HOLD, (CHANNEL_0, &[]));
    let values: Vec<i32> = (1..=1_030).collect();
    let outputs = asked(&held, 0, 1, &values, 1_030).expect("done");
    assert!(outputs[..1_023].iter().all(|&output| output == 0));
    assert_eq!(outputs[1_023..], [1, 2, 3, 4, 5, 6, 7]);
    let ring = rows(12 << 16, (HOLD, &[0]));
    assert_eq!(asked(&ring, 0, 1, &[1; 5], 5), Ok(vec![0; 5]));
    assert_eq!(asked(&rows(12 << 16, (label(5, 1), &[0])), 0, 1, &[1; 5], 5), Err(13));
}

/// The value of every row at a tick, by depths: at depth 0 all are 0, and each depth has what the
/// operations give for the one before.
fn at_tick(rows: &[Row], channels: &[i32], held: &[i128]) -> Vec<i128> {
    let mut values = vec![0; rows.len()];
    for _ in 0..=rows.len() {
        values = (0..rows.len()).map(|row| by_definition(&rows[row], channels, held[row], &values)).collect();
    }
    values
}

fn by_definition(row: &Row, channels: &[i32], held: i128, before: &[i128]) -> i128 {
    let x = |place: usize| row.inputs.get(place).map_or(0, |&input| before[input]);
    let setting = i128::from(row.label % 65_536);
    let clamped = |z: i128| z.max(-2_147_483_648).min(2_147_483_647);
    match row.label / 65_536 {
        1 => channels.get(setting as usize).map_or(0, |&count| i128::from(count)),
        2 => setting - if setting < 32_768 { 0 } else { 65_536 },
        3 => clamped(x(0) - x(1)),
        4 => clamped(x(0) + x(1)),
        5 => clamped(x(0) * setting / 256),
        6 => held,
        8 if x(0) < x(1) => x(1),
        8 => x(0),
        9 if x(0) < x(1) => x(0),
        9 => x(1),
        10 if x(0) > 0 => x(1),
        10 => x(2),
        11 => (x(0) + x(1) + x(2) + x(3)) / 4,
        12 => clamped(-x(0)),
        _ => 0,
    }
}

/// The number by its sentences, where the store is sound.
fn number(rows: &[Row], row: u32, channels: u32, values: usize, room: usize) -> u32 {
    let row = row as usize;
    if row >= rows.len() {
        return 9;
    }
    let (ways, unheld) = (closed(rows, |_| true), closed(rows, |row| row.label / 65_536 != 6));
    let reached: Vec<usize> = (0..rows.len()).filter(|&to| to == row || ways[row][to]).collect();
    let counts = [0, 0, 2, 2, 1, 1, 1, 2, 2, 3, 4, 1];
    let listed = |&row: &usize| {
        let place = (rows[row].label / 65_536).checked_sub(1).map(|place| place as usize);
        place.and_then(|place| counts.get(place)) == Some(&rows[row].inputs.len())
    };
    let astray = |&row: &usize| rows[row].label / 65_536 == 1 && rows[row].label % 65_536 >= channels;
    let cut = (1..=8).contains(&channels) && values % channels as usize != 0;
    match () {
        () if !reached.iter().all(listed) => 12,
        () if reached.iter().any(|&row| unheld[row][row]) => 13,
        () if channels < 1 || channels > 8 || cut || reached.iter().any(astray) => 17,
        () if room < values / channels as usize => 18,
        () => 0,
    }
}

struct Asked {
    name: String,
    words: Vec<u32>,
    row: u32,
    channels: u32,
    values: Vec<i32>,
    output: Vec<i32>,
}

fn requests() -> impl Iterator<Item = Asked> {
    seeded(SEEDS).filter_map(|(seed, place)| match making::request(seed, place) {
        Request::Run { words, row, channels, values, output } => {
            Some(Asked { name: format!("seed {seed} place {place}"), words, row, channels, values, output })
        }
        _ => None,
    })
}

/// Every number, and on small stores every output, against the definition; entries past the ticks, and
/// all entries of a refused run, stand.
#[test]
fn against_the_definition() {
    let (mut tried, mut computed) = (0, 0);
    for Asked { name, words, row, channels, values, output } in requests() {
        let mut after = output.clone();
        let given = run(&words, row, channels, &values, &mut after);
        let Ok(rows) = stores::read(&words) else {
            assert_eq!((given, after), (if words.is_empty() { 1 } else { 2 }, output), "{name}");
            continue;
        };
        if rows.len() > 120 {
            continue;
        }
        tried += 1;
        assert_eq!(given, number(&rows, row, channels, values.len(), output.len()), "{name}");
        if given != 0 {
            assert_eq!(after, output, "{name}: refused");
            continue;
        }
        let mut held = vec![0; rows.len()];
        for (tick, channels) in values.chunks(channels as usize).take(40).enumerate() {
            let now = at_tick(&rows, channels, &held);
            assert_eq!(i128::from(after[tick]), now[row as usize], "{name}, tick {tick}");
            held = rows.iter().map(|row| row.inputs.first().map_or(0, |&input| now[input])).collect();
            computed += 1;
        }
        let ticks = values.len() / channels as usize;
        assert_eq!(after[ticks..], output[ticks..], "{name}: past the ticks");
    }
    assert!(tried > 180 && computed > 1_000, "{tried} tried, {computed} ticks");
}

/// Equal trees give equal outputs: the row's key in a store of its own is run as the row is.
#[test]
fn the_same_tree_gives_the_same_outputs() {
    let mut done = 0;
    for Asked { name, words, row, channels, values, mut output } in requests() {
        let mut key = vec![0; 13_319];
        let written = crate::operations::write_key(&words, row, &mut key);
        if written.number != 0 {
            continue;
        }
        let (mut other, mut answers, mut again) = (store(1_024, &[]), vec![0; 1_024], output.clone());
        crate::operations::insert(&mut other, &key[..written.bytes as usize], &mut answers);
        let number = run(&words, row, channels, &values, &mut output);
        assert_eq!(run(&other, answers[0], channels, &values, &mut again), number, "{name}");
        assert_eq!(again, output, "{name}");
        done += usize::from(number == 0);
    }
    assert!(done > 100, "{done} runs done");
}

/// What a done run has, or how a refused one is wrong.
fn cases_of(one: &Asked, number: u32) -> Vec<&'static str> {
    let Asked { words, row, channels, values, output, .. } = one;
    let rows = stores::read(words).unwrap_or_default();
    let done = number == 0;
    let ticks = if (1..=8).contains(channels) { values.len() / *channels as usize } else { 0 };
    let reached = if done { crate::rows::walk(&rows, *row as usize) } else { Vec::new() };
    let label = |row: &usize| rows[*row].label;
    let loops = |row: &usize| crate::rows::walk(&rows, *row).iter().any(|&to| rows[to].inputs.contains(row));
    let uses = |operation: u32| reached.iter().any(|row| label(row) >> 16 == operation);
    let any = (1..=12).filter(|&operation| operation != 7).all(uses);
    let cases = [
        ("every operation in one chain", any),
        ("a loop", done && reached.len() < 60 && reached.iter().any(loops)),
        ("rows not reached", done && reached.len() < rows.len()),
        ("1,024 rows reached", reached.len() == 1_024),
        ("more ticks than rows, over 1,000", done && ticks > 1_000 && rows.len() > 1_000),
        ("8,192 values", values.len() == 8_192),
        ("8,192 entries", output.len() == 8_192),
        ("no ticks", done && ticks == 0),
        ("no entries", done && output.is_empty()),
        ("an output just long enough", done && ticks > 0 && output.len() == ticks),
        ("a longer output", done && output.len() > ticks),
        ("an output short by one", number == 18 && output.len() + 1 == ticks),
        ("8 channels", done && *channels == 8),
        ("0 channels", number == 17 && *channels == 0),
        ("9 channels", number == 17 && *channels == 9),
        ("a cut tick", number == 17 && ticks > 0 && values.len() % *channels as usize != 0),
        ("a cut tick beside a loop", number == 13 && ticks > 0 && values.len() % *channels as usize != 0),
        ("an output of the least", done && one.outputs().contains(&LEAST)),
        ("an output of the most", done && one.outputs().contains(&MOST)),
        ("a count of the least", done && values.contains(&LEAST)),
    ];
    cases.into_iter().filter(|case| case.1).map(|case| case.0).collect()
}

impl Asked {
    fn outputs(&self) -> Vec<i32> {
        let mut output = vec![0; self.values.len()];
        run(&self.words, self.row, self.channels, &self.values, &mut output);
        output
    }
}

/// Each case comes often enough.
#[test]
fn every_case_comes() {
    let mut seen: HashMap<&str, usize> = HashMap::new();
    for one in requests() {
        let number = run(&one.words, one.row, one.channels, &one.values, &mut one.output.clone());
        cases_of(&one, number).into_iter().for_each(|case| *seen.entry(case).or_default() += 1);
    }
    assert_eq!(seen.len(), 20, "{seen:?}");
    assert!(seen.values().all(|&count| count >= 3), "{seen:?}");
}
