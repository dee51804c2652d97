// The streams of bytes that a program replays with no Rust at hand, and the
// checksum of what it must find. README.md beside this folder describes both.

use crate::answers::{Call, Pads, State, BLANK, LARGEST_ASKED, LINE, NONE};

const MODULUS: u64 = 17179869143;

/// Starts at 1; each number x is taken in by
/// sum = (sum * 31 + x) mod 17179869143.
#[derive(Clone, Copy)]
pub struct Checksum {
    pub sum: u64,
}

impl Checksum {
    pub fn new() -> Self {
        Checksum { sum: 1 }
    }

    pub fn take(&mut self, number: u64) {
        self.sum = (self.sum * 31 + number % MODULUS) % MODULUS;
    }

    pub fn take_bytes(&mut self, bytes: &[u8]) {
        for byte in bytes {
            self.take(*byte as u64);
        }
    }

    /// An end e that is not negative as 2e, a negative one as 2(-1 - e) + 1.
    fn take_end(&mut self, end: i64) {
        self.take(match end {
            0.. => 2 * end as u64,
            _ => 2 * (-1 - end) as u64 + 1,
        });
    }

    /// After a call: the answer, the flag, each byte of the record, and each
    /// end.
    pub fn take_call(&mut self, answer: u8, state: &State) {
        self.take(answer as u64);
        self.take(state.flag as u64);
        self.take_bytes(&state.edges);
        for end in &state.ends {
            self.take_end(*end);
        }
    }
}

/// A cell is one byte: 0 for blank, b - 1 for 1 to 250, and 2147483391 + b
/// for 251 to 255. A hole has none.
fn cell_byte(cell: i64) -> u8 {
    match cell {
        BLANK => 0,
        0..=249 => cell as u8 + 1,
        _ => {
            let from_largest = LARGEST_ASKED - cell;
            assert!((0..5).contains(&from_largest), "cell {cell} has no byte");
            (255 - from_largest) as u8
        }
    }
}

fn cell_of(byte: u8) -> i64 {
    match byte {
        0..=250 => byte as i64 - 1,
        _ => LARGEST_ASKED - 255 + byte as i64,
    }
}

/// H, W, and the cells.
pub fn put_pads(stream: &mut Vec<u8>, pads: &Pads) {
    stream.push(pads.height as u8);
    stream.push(pads.width as u8);
    stream.extend(pads.cells.iter().map(|cell| cell_byte(*cell)));
}

/// Two bytes: 32 times the kind of call, plus the row; and the column. The
/// kinds are 0 checkpoint, 1 undo, 2 read, 3 decide a line, 4 decide none.
pub fn put_call(stream: &mut Vec<u8>, call: Call) {
    let (kind, row, column) = match call {
        Call::Checkpoint => (0, 0, 0),
        Call::Undo => (1, 0, 0),
        Call::Read(row, column) => (2, row, column),
        Call::Decide(row, column, LINE) => (3, row, column),
        Call::Decide(row, column, _) => (4, row, column),
    };
    stream.push((kind * 32 + row) as u8);
    stream.push(column as u8);
}

/// A number in so many bytes, the highest first.
pub fn put_number(stream: &mut Vec<u8>, number: u64, bytes: usize) {
    for place in (0..bytes).rev() {
        stream.push((number >> (8 * place)) as u8);
    }
}

/// Reads what the functions above wrote.
pub struct Reader<'a> {
    pub bytes: &'a [u8],
    pub at: usize,
}

impl Reader<'_> {
    pub fn at_end(&self) -> bool {
        self.at == self.bytes.len()
    }

    pub fn byte(&mut self) -> u8 {
        self.at += 1;
        self.bytes[self.at - 1]
    }

    pub fn number(&mut self, bytes: usize) -> u64 {
        (0..bytes).fold(0, |number, _| number * 256 + self.byte() as u64)
    }

    pub fn pads(&mut self) -> Pads {
        let (height, width) = (self.byte() as usize, self.byte() as usize);
        let cells = (0..height * width).map(|_| cell_of(self.byte())).collect();
        Pads {
            height,
            width,
            cells,
        }
    }

    pub fn call(&mut self) -> Call {
        let (first, column) = (self.byte() as usize, self.byte() as usize);
        let row = first % 32;
        match first / 32 {
            0 => Call::Checkpoint,
            1 => Call::Undo,
            2 => Call::Read(row, column),
            3 => Call::Decide(row, column, LINE),
            _ => Call::Decide(row, column, NONE),
        }
    }
}
