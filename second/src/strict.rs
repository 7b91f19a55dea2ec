//! The verdict of a strict insert, on the sheet's rows as they are drawn: they lead to no others. Loops
//! are found by going down from row to row and meeting one that is on the way.

use crate::faults::{self, Fault};
use crate::law::{operation, Refusal, CATALOGUE, HOLD};
use crate::rows::Row;

/// Tests 12 and 13 in their order. The first `used` rows are the store's; the sheet's follow them.
pub fn judge(used: usize, rows: &[Row]) -> Result<(), Refusal> {
    let judged: Vec<usize> = (used..rows.len()).collect();
    if faults::planted(Fault::LoopsFirst) {
        test_loops(rows, &judged)?;
    }
    test_catalogue(rows, &judged)?;
    test_loops(rows, &judged)
}

/// 12, for these rows.
pub fn test_catalogue(rows: &[Row], judged: &[usize]) -> Result<(), Refusal> {
    if !judged.iter().all(|&row| listed(&rows[row])) {
        return Err(Refusal::NotListed);
    }
    Ok(())
}

/// 13, for the loops that these rows lead to.
pub fn test_loops(rows: &[Row], judged: &[usize]) -> Result<(), Refusal> {
    if has_unheld_loop(rows, judged) {
        return Err(Refusal::NotHeld);
    }
    Ok(())
}

/// Whether the catalogue has the row's operation, with as many inputs.
fn listed(row: &Row) -> bool {
    let narrow = faults::planted(Fault::OperationsOf5Bits);
    let operation = if narrow { operation(row.label) % 32 } else { operation(row.label) };
    CATALOGUE.contains(&(operation, row.inputs.len()))
}

/// How far a row is looked at.
#[derive(Clone, Copy, PartialEq, Eq)]
enum Colour {
    /// Not met.
    White,
    /// On the way that is being gone.
    Grey,
    /// No loop without a hold starts from it.
    Black,
}

/// Whether some loop that these rows lead to passes no hold. A hold is black from the start, so
/// that no way goes through it.
fn has_unheld_loop(rows: &[Row], starts: &[usize]) -> bool {
    let mut colours: Vec<Colour> = rows.iter().map(first_colour).collect();
    starts.iter().any(|&start| comes_round(rows, start, &mut colours))
}

fn first_colour(row: &Row) -> Colour {
    if operation(row.label) == HOLD && !faults::planted(Fault::EveryLoop) {
        return Colour::Black;
    }
    Colour::White
}

/// Goes every way down from a row. A grey row that is met again has a loop; a row all of whose
/// inputs have been looked at becomes black.
fn comes_round(rows: &[Row], start: usize, colours: &mut [Colour]) -> bool {
    // Each row on the way, with how many of its inputs have been looked at.
    let mut way: Vec<(usize, usize)> = Vec::new();
    let mut met = Some(start);
    loop {
        match met.map(|row| (row, colours[row])) {
            Some((_, Colour::Grey)) => return true,
            Some((row, Colour::White)) => {
                colours[row] = Colour::Grey;
                way.push((row, 0));
            }
            _ => {}
        }
        let Some((row, looked_at)) = way.last_mut() else {
            return false;
        };
        met = rows[*row].inputs.get(*looked_at).copied();
        *looked_at += 1;
        if met.is_none() {
            colours[*row] = Colour::Black;
            way.pop();
        }
    }
}
