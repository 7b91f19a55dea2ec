//! What the operations of the catalogue compute: exact first, on numbers that are wide enough for every
//! result, and then clamped to 32 bits.

use crate::faults::{self, Fault};
use crate::law::{CHOOSE, CONSTANT, DIFFERENCE, GREATER, LESSER, MEAN_OF_FOUR, NEGATE, SCALE, SUM, WIRE};

/// What an operation gives for its inputs. Channels and holds have theirs from the trace.
pub fn computed(operation: u32, setting: u32, inputs: &[i64]) -> i64 {
    match (operation, inputs) {
        (CONSTANT, []) => constant(setting),
        (DIFFERENCE, [a, b]) => difference(*a, *b),
        (SUM, [a, b]) => clamped(a + b),
        (SCALE, [a]) => clamped(over(a * i64::from(setting), 256, Fault::ScaledDown)),
        (GREATER, [a, b]) => *a.max(b),
        (LESSER, [a, b]) => *a.min(b),
        (CHOOSE, [a, b, c]) => *if above_zero(*a) { b } else { c },
        (MEAN_OF_FOUR, [_, _, _, _]) => over(inputs.iter().sum(), 4, Fault::MeanDown),
        (NEGATE, [a]) => clamped(-a),
        // A fault can lead past the tests for the catalogue and for wires.
        (WIRE, [a]) => *a,
        _ => 0,
    }
}

/// A setting as a signed number of 16 bits.
fn constant(setting: u32) -> i64 {
    let setting = i64::from(setting);
    if setting < 1 << 15 || faults::planted(Fault::UnsignedConstants) {
        setting
    } else {
        setting - (1 << 16)
    }
}

fn difference(a: i64, b: i64) -> i64 {
    let turned = faults::planted(Fault::TurnedDifference);
    clamped(if turned { b - a } else { a - b })
}

fn above_zero(number: i64) -> bool {
    number > 0 || number == 0 && faults::planted(Fault::ChosenAtZero)
}

/// Toward zero: by the number without its sign.
fn over(number: i64, by: u64, down: Fault) -> i64 {
    if faults::planted(down) {
        return number.div_euclid(by as i64);
    }
    (number.unsigned_abs() / by) as i64 * number.signum()
}

fn clamped(exact: i64) -> i64 {
    if faults::planted(Fault::Wrapped) {
        return i64::from(exact as i32);
    }
    exact.clamp(i64::from(i32::MIN), i64::from(i32::MAX))
}
