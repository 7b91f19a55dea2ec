//! Requests as bytes: a request byte and its arguments, all numbers big-endian. A number is four
//! bytes; a run is its count and then its words or bytes. A signed run is one of words that are read
//! as signed numbers, two's complement.

/// No run of words is longer.
pub const WORD_ROOM: usize = 8_192;
/// No run of bytes is longer.
pub const BYTE_ROOM: usize = 65_536;
/// No reader takes more steps.
pub const STEP_ROOM: usize = 65_536;

#[derive(Clone, Debug, PartialEq, Eq)]
pub enum Request {
    Check { words: Vec<u32> },
    Insert { words: Vec<u32>, sheet: Vec<u8>, answers: Vec<u32> },
    Key { words: Vec<u32>, row: u32, buffer: Vec<u8> },
    IsKey { bytes: Vec<u8> },
    Compare { first: Vec<u32>, row: u32, second: Vec<u32>, other: u32 },
    PartOf { words: Vec<u32>, whole: u32, part: u32 },
    Next { bytes: Vec<u8> },
    Reader { bundle: Vec<u8>, at: u32, steps: u32 },
    ReadSheet { sheet: Vec<u8> },
    InsertStrict { words: Vec<u32>, sheet: Vec<u8>, answers: Vec<u32> },
    Mend { words: Vec<u32>, list: Vec<u32> },
    Run { words: Vec<u32>, row: u32, channels: u32, values: Vec<i32>, output: Vec<i32> },
    Convert { words: Vec<u32>, sheet: Vec<u8>, buffer: Vec<u8> },
}

/// Why the requests are read no further, other than that they are all read.
#[derive(Clone, Copy, Debug, PartialEq, Eq)]
pub enum Ending {
    Long,
    Cut,
    What,
}

impl Ending {
    pub fn word(self) -> &'static str {
        match self {
            Ending::Long => "long",
            Ending::Cut => "cut",
            Ending::What => "what",
        }
    }
}

/// Bytes that are read as requests from the front.
pub struct Source<'a> {
    rest: &'a [u8],
}

impl<'a> Source<'a> {
    pub fn new(bytes: &'a [u8]) -> Source<'a> {
        Source { rest: bytes }
    }

    /// What has not been read.
    pub fn rest(&self) -> &'a [u8] {
        self.rest
    }

    /// The next request; nothing when the bytes end between two.
    pub fn request(&mut self) -> Result<Option<Request>, Ending> {
        let Some((&kind, rest)) = self.rest.split_first() else {
            return Ok(None);
        };
        self.rest = rest;
        self.arguments(kind).map(Some)
    }

    fn arguments(&mut self, kind: u8) -> Result<Request, Ending> {
        Ok(match kind {
            1 => Request::Check { words: self.words()? },
            2 => Request::Insert { words: self.words()?, sheet: self.bytes()?, answers: self.words()? },
            3 => Request::Key { words: self.words()?, row: self.number()?, buffer: self.bytes()? },
            4 => Request::IsKey { bytes: self.bytes()? },
            5 => Request::Compare {
                first: self.words()?,
                row: self.number()?,
                second: self.words()?,
                other: self.number()?,
            },
            6 => Request::PartOf { words: self.words()?, whole: self.number()?, part: self.number()? },
            7 => Request::Next { bytes: self.bytes()? },
            8 => Request::Reader {
                bundle: self.bytes()?,
                at: self.number()?,
                steps: self.count(STEP_ROOM)? as u32,
            },
            9 => Request::ReadSheet { sheet: self.bytes()? },
            10 => {
                Request::InsertStrict { words: self.words()?, sheet: self.bytes()?, answers: self.words()? }
            }
            11 => Request::Mend { words: self.words()?, list: self.words()? },
            12 => Request::Run {
                words: self.words()?,
                row: self.number()?,
                channels: self.number()?,
                values: self.signed()?,
                output: self.signed()?,
            },
            13 => Request::Convert { words: self.words()?, sheet: self.bytes()?, buffer: self.bytes()? },
            _ => return Err(Ending::What),
        })
    }

    fn take(&mut self, count: usize) -> Result<&'a [u8], Ending> {
        let (front, rest) = self.rest.split_at_checked(count).ok_or(Ending::Cut)?;
        self.rest = rest;
        Ok(front)
    }

    fn number(&mut self) -> Result<u32, Ending> {
        Ok(number_in(self.take(4)?))
    }

    /// A count is held against the room before anything behind it is looked at.
    fn count(&mut self, room: usize) -> Result<usize, Ending> {
        let count = self.number()? as usize;
        if count > room {
            return Err(Ending::Long);
        }
        Ok(count)
    }

    fn words(&mut self) -> Result<Vec<u32>, Ending> {
        let count = self.count(WORD_ROOM)?;
        Ok(self.take(4 * count)?.chunks_exact(4).map(number_in).collect())
    }

    fn signed(&mut self) -> Result<Vec<i32>, Ending> {
        Ok(self.words()?.into_iter().map(|word| word as i32).collect())
    }

    fn bytes(&mut self) -> Result<Vec<u8>, Ending> {
        let count = self.count(BYTE_ROOM)?;
        Ok(self.take(count)?.to_vec())
    }
}

fn number_in(four: &[u8]) -> u32 {
    four.iter().fold(0, |number, &byte| number << 8 | u32::from(byte))
}

impl Request {
    /// The request as bytes.
    pub fn written(&self) -> Vec<u8> {
        match self {
            Request::Check { words } => [vec![1], word_run(words)].concat(),
            Request::Insert { words, sheet, answers } => {
                [vec![2], word_run(words), byte_run(sheet), word_run(answers)].concat()
            }
            Request::Key { words, row, buffer } => {
                [vec![3], word_run(words), number(*row), byte_run(buffer)].concat()
            }
            Request::IsKey { bytes } => [vec![4], byte_run(bytes)].concat(),
            Request::Compare { first, row, second, other } => {
                [vec![5], word_run(first), number(*row), word_run(second), number(*other)].concat()
            }
            Request::PartOf { words, whole, part } => {
                [vec![6], word_run(words), number(*whole), number(*part)].concat()
            }
            Request::Next { bytes } => [vec![7], byte_run(bytes)].concat(),
            Request::Reader { bundle, at, steps } => {
                [vec![8], byte_run(bundle), number(*at), number(*steps)].concat()
            }
            Request::ReadSheet { sheet } => [vec![9], byte_run(sheet)].concat(),
            Request::InsertStrict { words, sheet, answers } => {
                [vec![10], word_run(words), byte_run(sheet), word_run(answers)].concat()
            }
            Request::Mend { words, list } => [vec![11], word_run(words), word_run(list)].concat(),
            Request::Run { words, row, channels, values, output } => {
                let numbers = [number(*row), number(*channels)].concat();
                [vec![12], word_run(words), numbers, signed_run(values), signed_run(output)].concat()
            }
            Request::Convert { words, sheet, buffer } => {
                [vec![13], word_run(words), byte_run(sheet), byte_run(buffer)].concat()
            }
        }
    }
}

fn number(number: u32) -> Vec<u8> {
    number.to_be_bytes().to_vec()
}

fn word_run(words: &[u32]) -> Vec<u8> {
    let words_alone = words.iter().flat_map(|word| word.to_be_bytes());
    number(words.len() as u32).into_iter().chain(words_alone).collect()
}

fn signed_run(counts: &[i32]) -> Vec<u8> {
    word_run(&counts.iter().map(|&count| count as u32).collect::<Vec<_>>())
}

fn byte_run(bytes: &[u8]) -> Vec<u8> {
    [number(bytes.len() as u32), bytes.to_vec()].concat()
}

/// The bytes of request number `wanted`, counted from 1; nothing when there are fewer. One that
/// cannot be read takes all bytes that are left.
pub fn pick(bytes: &[u8], wanted: usize) -> Option<&[u8]> {
    let mut source = Source::new(bytes);
    for _ in 1..wanted {
        source.request().ok().flatten()?;
    }
    let front = source.rest();
    match source.request() {
        Ok(None) => None,
        Ok(Some(_)) => Some(&front[..front.len() - source.rest().len()]),
        Err(_) => Some(front),
    }
}
