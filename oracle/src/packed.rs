// Slices of packed decimal: what must be read from one, what the library reads,
// and slices chosen by a seed. A slice is read here in another way than by a walk
// over its bytes: every fault is looked for by itself, also where an earlier test
// fails, and the first in the order of the tests counts. What a pad holds is its
// hexadecimal text, read as a decimal number. A grid that was read is written as a
// file, and the file must give the same grid.

use crate::answers::{Pads, BLANK, LARGEST_CODE};
use crate::cases::{Case, Given, Reading};
use crate::chosen::{any_code, any_reading, coded_grid, size_of};
use crate::expected::{expected_write, reading_answer, reading_by, written_and_read_back, Answer};
use crate::library;
use crate::random::Random;

/// The bytes before the pads, and the bytes of a pad.
const HEAD: usize = 2;
const PAD: usize = 5;

/// No text of a grid is longer.
const LONGEST_TEXT: usize = 2822;

/// The tests, in the order in which they run.
#[derive(Clone, Copy, PartialEq, Eq, PartialOrd, Ord)]
enum Test {
    Head,
    Size,
    Length,
    Pad,
}

/// A fault, ordered by its test, then by its place. One test finds at most one at
/// a place.
#[derive(Clone, Copy, PartialEq, Eq, PartialOrd, Ord)]
struct Fault {
    test: Test,
    line: usize,
    field: usize,
    number: usize,
}

fn fault(test: Test, number: usize, (line, field): (usize, usize)) -> Fault {
    Fault {
        test,
        line,
        field,
        number,
    }
}

/// The bytes of a pad as one number.
fn plain(pad: &[u8]) -> i64 {
    pad.iter().fold(0, |plain, byte| plain << 8 | *byte as i64)
}

/// What a pad holds, or the number of its fault. A text with a letter is no
/// number, so that 17 comes before 3.
fn cell(pad: &[u8]) -> Result<i64, usize> {
    let text = format!("{:010x}", plain(pad));
    match text.parse() {
        _ if text == "ffffffffff" => Ok(BLANK),
        Err(_) => Err(17),
        Ok(code) if code > LARGEST_CODE => Err(3),
        Ok(code) => Ok(code),
    }
}

/// Height and width, sound or not and 0 where they are missing, and the bytes of
/// the pads.
fn parted(bytes: &[u8]) -> (usize, usize, &[u8]) {
    let [height, width] = [0, 1].map(|at| bytes.get(at).map_or(0, |byte| *byte as usize));
    (height, width, bytes.get(HEAD..).unwrap_or(&[]))
}

/// The faults of the first two bytes.
fn head_faults(bytes: &[u8]) -> Vec<Fault> {
    let head = bytes.iter().take(HEAD).enumerate();
    let unsound = head.filter(|(_, byte)| !(2..=16).contains(*byte));
    let mut found: Vec<Fault> = unsound
        .map(|(at, _)| fault(Test::Size, 5, (1, at + 1)))
        .collect();
    if bytes.len() < HEAD {
        found.push(fault(Test::Head, 6, (1, 1)));
    }
    found
}

/// The faults of all that follows, for the size that the slice tells.
fn pad_faults(bytes: &[u8]) -> Vec<Fault> {
    let (height, width, pads) = parted(bytes);
    let (due, whole) = (height * width, pads.len() / PAD);
    let place = |pad: usize| (2 + pad / width, 1 + pad % width);
    let mut found = Vec::new();
    if whole < due {
        found.push(fault(Test::Length, 6, place(whole)));
    }
    if pads.len() > PAD * due {
        found.push(fault(Test::Length, 6, (height + 2, 1)));
    }
    for (index, pad) in pads.chunks_exact(PAD).take(due).enumerate() {
        if let Err(number) = cell(pad) {
            found.push(fault(Test::Pad, number, place(index)));
        }
    }
    found
}

/// All faults, in the order of the tests.
fn faults(bytes: &[u8]) -> Vec<Fault> {
    let mut found = [head_faults(bytes), pad_faults(bytes)].concat();
    found.sort();
    found
}

/// The numbers of all faults, in the order of the tests.
pub fn fault_numbers(bytes: &[u8]) -> Vec<usize> {
    faults(bytes).iter().map(|fault| fault.number).collect()
}

/// The grid of a slice, or number, line and field of its refusal.
fn read(bytes: &[u8]) -> Result<Pads, (usize, usize, usize)> {
    if let Some(first) = faults(bytes).first() {
        return Err((first.number, first.line, first.field));
    }
    let (height, width, pads) = parted(bytes);
    let cells = pads.chunks(PAD).flat_map(cell).collect();
    Ok(Pads {
        height,
        width,
        cells,
    })
}

/// A grid that was read must be written as a file, and this read back.
pub fn expected_packed(reading: &Reading) -> Answer {
    reading_answer(reading, read(&reading.bytes), |grid| {
        vec![expected_write(&grid, 3, LONGEST_TEXT)]
    })
}

pub fn packed_by_library(reading: &Reading) -> Answer {
    reading_by(library::read_packed, reading, |grid| {
        vec![written_and_read_back(&grid, 3, LONGEST_TEXT)]
    })
}

/// The slice whose pads have these numbers for their five bytes; a blank one has
/// BLANK.
pub fn plain_slice(grid: &Given) -> Vec<u8> {
    let (height, width) = grid.size;
    let mut slice = vec![height as u8, width as u8];
    for plain in &grid.cells {
        slice.extend(&plain.to_be_bytes()[8 - PAD..]);
    }
    slice
}

/// The numbers of a slice, where its size is sound; missing bytes are FF, and what
/// is too much is left out.
pub fn plain_grid(bytes: &[u8]) -> Option<Given> {
    if !head_faults(bytes).is_empty() {
        return None;
    }
    let (height, width, pads) = parted(bytes);
    let mut pads = pads.to_vec();
    pads.resize(PAD * height * width, 0xff);
    let number = |pad: &[u8]| match pad == [0xff; PAD] {
        true => BLANK,
        false => plain(pad),
    };
    Some(Given {
        size: (height, width),
        cells: pads.chunks(PAD).map(number).collect(),
    })
}

/// The number of the five bytes that hold a cell: its decimal text, read as a
/// hexadecimal number.
fn plain_of(cell: i64) -> i64 {
    i64::from_str_radix(&cell.to_string(), 16).unwrap_or(BLANK)
}

/// The slice of a grid without holes.
pub fn slice_of(grid: &Given) -> Vec<u8> {
    plain_slice(&Given {
        size: grid.size,
        cells: grid.cells.iter().copied().map(plain_of).collect(),
    })
}

/// Numbers of ten digits that are too large; cut to 32 bits, they are codes.
const BEYOND: [i64; 8] = [
    LARGEST_CODE + 1,
    LARGEST_CODE + 2,
    LARGEST_CODE + 6,
    4294967300,
    5000000000,
    (1 << 33) - 1,
    1 << 33,
    9999999999,
];

fn any_beyond(random: &mut Random) -> i64 {
    let numbers = 10000000000 - (LARGEST_CODE + 1);
    let any = LARGEST_CODE + 1 + random.below(numbers as usize) as i64;
    match random.below(4) {
        0 => any,
        _ => random.choose(&BEYOND),
    }
}

/// Any half byte, from the given one on, put at one of the ten places.
fn put_half(random: &mut Random, plain: i64, least: usize) -> i64 {
    let shift = 4 * random.below(2 * PAD);
    let half = least + random.below(16 - least);
    plain & !(15 << shift) | (half as i64) << shift
}

/// FF in one to four of the five bytes.
fn put_blank_bytes(random: &mut Random, plain: i64) -> i64 {
    let chosen = 1 + random.below((1 << PAD) - 2);
    (0..PAD)
        .filter(|byte| chosen >> byte & 1 == 1)
        .fold(plain, |plain, byte| plain | 0xff << (8 * byte))
}

/// The number of the five bytes of a pad, mostly one that is refused: a half byte
/// above 9 in a code or in a number that is too large, a code and a blank pad
/// mixed, a number that is too large, any digits, any bytes.
fn odd_plain(random: &mut Random) -> i64 {
    let code = plain_of(any_code(random));
    let beyond = plain_of(any_beyond(random));
    match random.below(8) {
        0 => BLANK,
        1 => put_half(random, code, 10),
        2 => put_half(random, beyond, 10),
        3 => put_half(random, BLANK, 0),
        4 => put_blank_bytes(random, code),
        5 => beyond,
        6 => plain_of(random.below(10000000000) as i64),
        _ => random.next() as i64,
    }
}

/// Such a pad at the first place, at the last or at any.
fn spoil_pad(random: &mut Random, bytes: &mut [u8]) {
    let pads = parted(bytes).2.len() / PAD;
    if pads > 0 {
        let any = random.below(pads);
        let start = HEAD + PAD * random.choose(&[0, pads - 1, any, any]);
        let plain = odd_plain(random).to_be_bytes();
        bytes[start..start + PAD].copy_from_slice(&plain[8 - PAD..]);
    }
}

/// Cut off, or gone on with equal bytes.
fn put_length(random: &mut Random, bytes: &mut Vec<u8>, length: usize) {
    bytes.resize(length, random.choose(&[0, 0x17, 0xff]));
}

/// 0 to 2 bytes, or a length about the end of a pad or about the end of all.
fn spoil_length(random: &mut Random, bytes: &mut Vec<u8>) {
    let end = HEAD + PAD * random.below(bytes.len() / PAD + 1);
    let length = match random.below(6) {
        0 => random.below(3),
        1 | 2 => end - 1 + random.below(3),
        3 => bytes.len().saturating_sub(1 + random.below(5)),
        _ => bytes.len() + random.choose(&[1, 1, 2, 4, 5, 6, 10, 256]),
    };
    put_length(random, bytes, length);
}

/// Another height or width, or the two exchanged; every second time with the
/// length that is then due, if it is not too long.
fn spoil_size(random: &mut Random, bytes: &mut Vec<u8>) {
    if bytes.len() < HEAD {
        return;
    }
    let any = random.below(256) as u8;
    match random.below(5) {
        0 => bytes.swap(0, 1),
        at => bytes[at % HEAD] = random.choose(&[0, 1, 2, 16, 17, 255, any]),
    }
    let (height, width, _) = parted(bytes);
    let due = HEAD + PAD * height * width;
    if random.chance(50) && due < 3000 {
        put_length(random, bytes, due);
    }
}

/// Any bytes, in place of all or of all pads.
fn spoil_all(random: &mut Random, bytes: &mut [u8]) {
    for byte in bytes.iter_mut().skip(random.choose(&[0, HEAD])) {
        *byte = random.below(256) as u8;
    }
}

/// One of ten times a single byte, which may be one of the size.
fn spoil(random: &mut Random, bytes: &mut Vec<u8>) {
    match random.below(40) {
        0 => spoil_all(random, bytes),
        1..=4 if !bytes.is_empty() => {
            let at = random.below(bytes.len());
            bytes[at] = random.below(256) as u8;
        }
        5..=10 => spoil_length(random, bytes),
        11..=16 => spoil_size(random, bytes),
        _ => spoil_pad(random, bytes),
    }
}

/// Every second slice is of the sizes in turn, the others are of small grids; a
/// quarter stay as they are.
pub fn packed_case(random: &mut Random, number: usize) -> Case {
    let size = match number % 2 {
        0 => size_of(number / 2),
        _ => (2 + random.below(3), 2 + random.below(3)),
    };
    let mut bytes = slice_of(&coded_grid(random, size));
    for _ in 0..random.choose(&[0, 0, 1, 1, 1, 2, 2, 3]) {
        spoil(random, &mut bytes);
    }
    Case::Packed(any_reading(random, bytes))
}
