//! Recorded counts run through the chain of a row. What the row gives at a tick is asked for from the
//! top: a row asks its inputs, and a hold asks its input one tick before, back to tick 0. What was told
//! once is kept. No order of the rows is made.

use crate::counts::computed;
use crate::faults::{self, Fault};
use crate::law::{operation, setting, Refusal, CHANNEL, DONE, HOLD, MOST_CHANNELS};
use crate::operations::in_use;
use crate::rows::{walk, Row};
use crate::{store, strict};

/// Writes one output a tick to the front of `output`; a refusal writes nothing.
pub fn run(words: &[u32], row: u32, channels: u32, values: &[i32], output: &mut [i32]) -> u32 {
    match outputs(words, row, channels, values, output.len()) {
        Err(refusal) => refusal.number(),
        Ok(outputs) => {
            output[..outputs.len()].copy_from_slice(&outputs);
            if faults::planted(Fault::PastTicksCleared) {
                output[outputs.len()..].fill(0);
            }
            DONE
        }
    }
}

/// Tests 1, 2, 9, 12, 13, 17 and 18 in this order; then what the row gives at each tick.
fn outputs(words: &[u32], row: u32, channels: u32, values: &[i32], room: usize) -> Result<Vec<i32>, Refusal> {
    let rows = store::read(words)?;
    let row = in_use(&rows, row)?;
    let reached = reached(&rows, row);
    strict::test_catalogue(&rows, &reached)?;
    if faults::planted(Fault::TraceBeforeLoops) {
        Trace::read(channels, values, &rows, &reached)?;
    }
    strict::test_loops(&rows, &reached)?;
    let trace = Trace::read(channels, values, &rows, &reached)?;
    let ticks = trace.ticks();
    if room < ticks {
        return Err(Refusal::ShortOutput);
    }
    let mut told = Told::new(&rows, trace);
    Ok((0..ticks).map(|tick| told.ask(row, tick) as i32).collect())
}

/// The rows that the row leads to, through holds too, and itself.
fn reached(rows: &[Row], row: usize) -> Vec<usize> {
    if faults::planted(Fault::WholeStoreRun) {
        return (0..rows.len()).collect();
    }
    if faults::planted(Fault::HoldsEndReach) {
        return walk(&faults::without_held(rows), row);
    }
    walk(rows, row)
}

/// Counts tick after tick, in each tick channel 0 first.
struct Trace<'a> {
    channels: usize,
    values: &'a [i32],
}

impl<'a> Trace<'a> {
    /// 17: a channel count that there is not, a tick that is not whole, or a channel that is not there.
    fn read(channels: u32, values: &'a [i32], rows: &[Row], reached: &[usize]) -> Result<Trace<'a>, Refusal> {
        let channels = channels as usize;
        let there = |&row: &usize| {
            let label = rows[row].label;
            operation(label) != CHANNEL || (setting(label) as usize) < channels
        };
        let whole = (1..=MOST_CHANNELS).contains(&channels) && values.len() % channels == 0;
        if whole && reached.iter().all(there) {
            return Ok(Trace { channels, values });
        }
        Err(Refusal::NoTrace)
    }

    fn ticks(&self) -> usize {
        self.values.len() / self.channels
    }

    fn count(&self, tick: usize, channel: usize) -> i64 {
        let place = if faults::planted(Fault::ChannelByChannel) {
            channel * self.ticks() + tick
        } else {
            tick * self.channels + channel
        };
        // A fault can lead to a channel that is not there.
        self.values.get(place).map_or(0, |&count| i64::from(count))
    }
}

/// How far a row's value at a tick is known.
#[derive(Clone, Copy)]
enum Value {
    Unknown,
    Asked,
    Is(i64),
}

/// What each row gave at each tick, as far as it was asked for.
struct Told<'a> {
    rows: &'a [Row],
    trace: Trace<'a>,
    values: Vec<Value>,
}

impl<'a> Told<'a> {
    fn new(rows: &'a [Row], trace: Trace<'a>) -> Told<'a> {
        let values = vec![Value::Unknown; rows.len() * trace.ticks()];
        Told { rows, trace, values }
    }

    fn value(&mut self, row: usize, tick: usize) -> &mut Value {
        &mut self.values[tick * self.rows.len() + row]
    }

    /// Chains are deeper than a stack of calls may be, so those that wait for an answer stand in a list,
    /// each with how many of its inputs it has asked.
    fn ask(&mut self, row: usize, tick: usize) -> i64 {
        let mut waiting = Vec::new();
        self.wait_for(row, tick, &mut waiting);
        while let Some((row, tick, asked)) = waiting.last_mut() {
            let (row, tick) = (*row, *tick);
            *asked += 1;
            if let Some((input, when)) = self.needs(row, tick, *asked - 1) {
                self.wait_for(input, when, &mut waiting);
            } else {
                *self.value(row, tick) = Value::Is(self.given(row, tick));
                waiting.pop();
            }
        }
        self.known(row, tick)
    }

    /// Asks a row at a tick, unless it was asked before.
    fn wait_for(&mut self, row: usize, tick: usize, waiting: &mut Vec<(usize, usize, usize)>) {
        let value = self.value(row, tick);
        if let Value::Unknown = value {
            *value = Value::Asked;
            waiting.push((row, tick, 0));
        }
    }

    /// The row that comes next among those a row asks at a tick, and the tick at which it asks it.
    fn needs(&self, row: usize, tick: usize, asked: usize) -> Option<(usize, usize)> {
        let Row { label, inputs } = &self.rows[row];
        let held = operation(*label) == HOLD;
        if held && tick == 0 && !faults::planted(Fault::HeldAtOnce) {
            return None;
        }
        let when = if held { tick.saturating_sub(1) } else { tick };
        inputs.get(asked).map(|&input| (input, when))
    }

    /// What a row gives that has all it asked for.
    fn given(&self, row: usize, tick: usize) -> i64 {
        let label = self.rows[row].label;
        let told = (0..).map_while(|asked| self.needs(row, tick, asked));
        let inputs: Vec<i64> = told.map(|(input, when)| self.known(input, when)).collect();
        match operation(label) {
            CHANNEL => self.trace.count(tick, setting(label) as usize),
            HOLD => inputs.first().copied().unwrap_or(0),
            other => computed(other, setting(label), &inputs),
        }
    }

    /// Only a loop without a hold could ask for what it waits for itself. A fault can make one.
    fn known(&self, row: usize, tick: usize) -> i64 {
        match self.values[tick * self.rows.len() + row] {
            Value::Is(value) => value,
            Value::Unknown | Value::Asked => 0,
        }
    }
}
