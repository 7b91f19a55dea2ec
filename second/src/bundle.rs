//! Walking a bundle of sheets.

use crate::sheet::length_field;

/// The front part that holds the next sheet; the empty part when it is not all there.
pub fn next_sheet(bundle: &[u8]) -> &[u8] {
    if bundle.len() < 4 {
        return &[];
    }
    let wanted = 4 + length_field(bundle);
    if wanted > bundle.len() as u64 {
        return &[];
    }
    &bundle[..wanted as usize]
}

/// A bundle and how far it has been read.
pub struct Reader<'a> {
    pub bundle: &'a [u8],
    pub at: usize,
}

impl<'a> Reader<'a> {
    /// The sheet at the place; a place past the end shows the empty part.
    pub fn shown(&self) -> &'a [u8] {
        self.bundle.get(self.at..).map_or(&[], next_sheet)
    }

    /// Shows the sheet at the place and moves behind it; on the empty part it stays.
    pub fn step(&mut self) -> &'a [u8] {
        let part = self.shown();
        self.at += part.len();
        part
    }
}
