//! The fixed numbers of the rules, in one place so that every other file names them.

/// No store and no sheet has more rows than this.
pub const MOST_ROWS: usize = 1_024;
/// A row of the store: label, input count, four input words.
pub const ROW_WORDS: usize = 6;
/// Every row has room for this many inputs.
pub const MOST_INPUTS: usize = 4;
/// In an old sheet, an input from here on is a row of the store it was drawn against. Inserts refuse it.
pub const STORE_MARK: u16 = 32_768;
/// The only version of a sheet.
pub const VERSION: u8 = 1;
/// Where a sheet's length field starts.
pub const LENGTH_PLACE: usize = 0;
/// Where its version stands.
pub const VERSION_PLACE: usize = 4;
/// Where its row count starts.
pub const ROW_COUNT_PLACE: usize = 5;
/// Length field, version and row count: no sheet is shorter.
pub const SHEET_HEAD: usize = 7;
/// A sheet's row before its inputs: label and input count.
pub const ROW_HEAD: usize = 5;
/// An input of a sheet's row.
pub const INPUT_BYTES: usize = 2;
/// The catalogue: its operations, each with its input count. Every other operation is free.
pub const CATALOGUE: [(u32, usize); 12] =
    [(1, 0), (2, 0), (3, 2), (4, 2), (5, 1), (6, 1), (7, 1), (8, 2), (9, 2), (10, 3), (11, 4), (12, 1)];
/// The operations by their names. Every loop of a strict insert and of a run has to pass a hold; a
/// wire stands for the row that it leads to.
pub const CHANNEL: u32 = 1;
pub const CONSTANT: u32 = 2;
pub const DIFFERENCE: u32 = 3;
pub const SUM: u32 = 4;
pub const SCALE: u32 = 5;
pub const HOLD: u32 = 6;
pub const WIRE: u32 = 7;
pub const GREATER: u32 = 8;
pub const LESSER: u32 = 9;
pub const CHOOSE: u32 = 10;
pub const MEAN_OF_FOUR: u32 = 11;
pub const NEGATE: u32 = 12;
/// A tick of a trace has at most so many channels, and at least one.
pub const MOST_CHANNELS: usize = 8;
/// A mender's list has this for a row that is dropped.
pub const DROPPED: u32 = u32::MAX;
/// The program takes no longer bundle.
pub const MOST_BUNDLE_BYTES: usize = 32_768;

/// Why an operation was refused, each with its number.
#[derive(Clone, Copy, Debug, PartialEq, Eq)]
pub enum Refusal {
    NoWords = 1,
    NotSound = 2,
    WrongLength = 3,
    WrongVersion = 4,
    Unreadable = 5,
    Astray = 6,
    ShortAnswers = 7,
    NoRoom = 8,
    NotInUse = 9,
    ShortBuffer = 10,
    NotListed = 12,
    NotHeld = 13,
    ShortWire = 14,
    WireLoop = 15,
    ShortList = 16,
    NoTrace = 17,
    ShortOutput = 18,
    Retired = 19,
    LongResult = 20,
}

/// The operation of a label: its upper 16 bits.
pub fn operation(label: u32) -> u32 {
    label >> 16
}

/// The setting of a label: its lower 16 bits.
pub fn setting(label: u32) -> u32 {
    label & 0xFFFF
}

/// The number of an operation that was not refused.
pub const DONE: u32 = 0;

impl Refusal {
    pub fn number(self) -> u32 {
        self as u32
    }

    /// Refused for a sheet's fault that starts at this byte.
    pub fn at(self, place: usize) -> Refused {
        Refused { refusal: self, place }
    }
}

/// A refusal, and the byte of the sheet at which its fault starts: 0 unless it is one of 3 to 6.
#[derive(Clone, Copy, Debug, PartialEq, Eq)]
pub struct Refused {
    pub refusal: Refusal,
    pub place: usize,
}

impl From<Refusal> for Refused {
    /// What is not the sheet's fault has no place in it.
    fn from(refusal: Refusal) -> Refused {
        refusal.at(0)
    }
}
