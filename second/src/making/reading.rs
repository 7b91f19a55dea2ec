//! Requests to read a sheet; `faulty` has those with a fault that is chosen.

use super::{damage, pictures, size, wired};
use crate::dice::Dice;
use crate::law::MOST_ROWS;
use crate::requests::{Request, BYTE_ROOM};
use crate::rows::Row;
use crate::sheet;

/// Any drawing, the empty one too, behind a store of some rows that its inputs may be; now and then
/// with wires that an insert would refuse, which reading does not look at.
fn drawn(dice: &mut Dice) -> Vec<u8> {
    let (used, count) = (dice.below(6), size(dice));
    let store: Vec<Row> = pictures::minimal(&pictures::any(dice, used));
    let mut rows = pictures::over_store(dice, &store, count);
    if dice.one_in(4) {
        rows = wired::spoiled(dice, store.len(), rows, 17);
    }
    sheet::write(&sheet::from_behind_store(store.len(), &rows))
}

/// A sheet that can be read; in some an input points nowhere, which reading does not look at.
pub fn good(dice: &mut Dice) -> Request {
    let mut sheet = drawn(dice);
    if dice.one_in(3) {
        let mut rows = sheet::read(&sheet).expect("it was written from rows");
        damage::somewhere(dice, &mut rows, 0, damage::astray_of_old);
        sheet = sheet::write(&rows);
    }
    Request::ReadSheet { sheet }
}

/// A sheet damaged in any way.
pub fn damaged(dice: &mut Dice) -> Request {
    let mut sheet = drawn(dice);
    damage::bytes(dice, &mut sheet);
    Request::ReadSheet { sheet }
}

/// 1,024 rows or one more, or a sheet made up to as many bytes as there is room for.
pub fn at_the_limits(dice: &mut Dice) -> Request {
    let count = MOST_ROWS + dice.below(2);
    let mut sheet = sheet::write(&sheet::from_behind_store(0, &pictures::tangle(dice, count)));
    if dice.one_in(3) {
        sheet.resize(BYTE_ROOM, 0);
        damage::settle_length(&mut sheet);
    }
    Request::ReadSheet { sheet }
}
