// Cases chosen at random: sequences of board calls on all sizes with declined
// calls between them, searches with limits and rooms, records, damaged copies
// of good files, and grids to be written with rooms about their texts. Files,
// grids to be written and declined grids have holes here and there; boards and
// searches that are held beside the reference have none. One grid in four has
// codes that the reference cannot be asked as they stand.

use crate::answers::{Call, Pads, BLANK, HOLE, LARGEST_ASKED, LARGEST_CODE, LINE, NONE};
use crate::calls::grids_and_calls;
use crate::cases::{Asked, Case, Given, Reading, Search};
use crate::expected::{board_room, grid_text, written_text};
use crate::random::{any_pads, any_plan, wired_pads, Chooser, Random};
use crate::sequences::checkpoint_calls;

pub fn given(pads: &Pads) -> Given {
    Given {
        size: (pads.height, pads.width),
        cells: pads.cells.clone(),
    }
}

/// All sizes in turn.
pub fn size_of(number: usize) -> (usize, usize) {
    (2 + number / 15 % 15, 2 + number % 15)
}

/// A length that mostly suffices, sometimes with more, sometimes too short.
pub fn any_lent(random: &mut Random, needed: usize) -> usize {
    match random.below(50) {
        0 => needed.saturating_sub(1),
        1 => random.below(needed + 1),
        2..=9 => needed + 1 + random.below(3),
        _ => needed,
    }
}

/// Codes about the edges of 31 and 32 bits. Cut to 32 bits, the two largest are
/// a hole and a blank pad.
const EDGE_CODES: [i64; 9] = [
    0,
    1,
    LARGEST_ASKED,
    LARGEST_ASKED + 1,
    LARGEST_ASKED + 2,
    LARGEST_ASKED + 3,
    LARGEST_CODE - 2,
    LARGEST_CODE - 1,
    LARGEST_CODE,
];

/// A code that is taken for something else where too few bits are kept: at the
/// edges, as far as 31 bits go the same as another code, or with an end that is
/// a pad's index in 32 bits.
fn confusable_code(random: &mut Random, other: i64) -> i64 {
    match random.below(5) {
        0 | 1 => random.choose(&EDGE_CODES),
        2 => other ^ 1 << 31,
        3 => LARGEST_CODE - 1 - random.below(256) as i64,
        _ => random.below(1 << 32) as i64,
    }
}

/// One grid in four with its codes renamed, each to one that no other has.
pub fn widen(random: &mut Random, pads: &mut Pads) {
    if !random.chance(25) {
        return;
    }
    let codes = pads.codes();
    let mut names: Vec<i64> = Vec::new();
    while names.len() < codes.len() {
        let name = confusable_code(random, names.last().copied().unwrap_or(0));
        if !names.contains(&name) {
            names.push(name);
        }
    }
    for cell in pads.cells.iter_mut() {
        if let Ok(place) = codes.binary_search(cell) {
            *cell = names[place];
        }
    }
}

/// Cells that are declined; of most the lower 32 bits would be a sound cell.
const BAD_CELLS: [i64; 16] = [
    HOLE - 1,
    HOLE - 2,
    i64::MIN,
    i64::MIN + 1,
    -(1 << 31),
    -(1 << 32) - 2,
    -(1 << 32) - 1,
    -(1 << 32),
    -(1 << 32) + 5,
    LARGEST_CODE + 1,
    LARGEST_CODE + 2,
    (1 << 32) + 5,
    (1 << 33) - 2,
    (1 << 33) - 1,
    1 << 62,
    i64::MAX,
];

/// A bad cell; before every second one stands a hole, which is not bad.
fn put_bad_cell(cells: &mut [i64], at: usize, bad: i64) {
    cells[at] = bad;
    if at % 2 == 1 {
        cells[at - 1] = HOLE;
    }
}

/// So many percent of the pads, or only of the blank ones, made holes.
pub fn drill(random: &mut Random, cells: &mut [i64], percent: usize, only_blank: bool) {
    for cell in cells.iter_mut() {
        if random.chance(percent) && (!only_blank || *cell == BLANK) {
            *cell = HOLE;
        }
    }
}

/// A grid that is mostly declined; one with holes always is.
pub fn odd_grid(random: &mut Random) -> Given {
    let (height, width) = (2 + random.below(15), 2 + random.below(15));
    let mut pads = any_pads(random, height, width);
    widen(random, &mut pads);
    let mut grid = given(&pads);
    let pads = height * width;
    let odd_size = random.choose(&[0, 1, 2, 16, 17, 18, 255, 258, 1 << 32, usize::MAX]);
    match random.below(8) {
        0 => grid.size.0 = odd_size,
        1 => grid.size.1 = odd_size,
        2 => grid.cells.truncate(random.below(pads)),
        3 => grid.cells.resize(pads + 1 + random.below(3), BLANK),
        4 => grid.cells.resize(random.choose(&[0, 256, 257]), 0),
        _ => {
            for _ in 0..1 + random.below(3) {
                let bad = random.choose(&BAD_CELLS);
                put_bad_cell(&mut grid.cells, random.below(pads), bad);
            }
        }
    }
    grid
}

fn asked(call: Call) -> Asked {
    match call {
        Call::Decide(row, column, state) => Asked::Decide(row as u64, column as u64, state as u64),
        Call::Read(row, column) => Asked::Read(row as u64, column as u64),
        Call::Checkpoint => Asked::Checkpoint,
        Call::Undo => Asked::Undo,
    }
}

/// A call that is mostly declined: no such place, or no such state.
fn odd_call(random: &mut Random, (height, width): (usize, usize)) -> Asked {
    let far = random.choose(&[
        31,
        32,
        33,
        255,
        256,
        1 << 32,
        1 << 63,
        u64::MAX - 1,
        u64::MAX,
    ]);
    let (rows, columns) = (2 * height as u64 - 1, 2 * width as u64 - 1);
    let row = random.next() % rows;
    let column = random.next() % columns;
    let state = random.choose(&[1, 2]);
    let odd_state = random.choose(&[0, 3, 255, 256, 257, 258, 1 << 32, u64::MAX]);
    let (row, column, state) = match random.below(7) {
        0 => (row, row % 2, state),
        1 => (rows, column, state),
        2 => (row, columns, state),
        3 => (far, column, state),
        4 => (row, far, state),
        5 => (rows + 1, columns + random.next() % 3, odd_state),
        _ => (row, (row + 1) % 2, odd_state),
    };
    if random.chance(30) {
        Asked::Read(row, column)
    } else {
        Asked::Decide(row, column, state)
    }
}

/// The calls with declined ones between them, and now and then a fresh board.
fn with_odd_calls(random: &mut Random, size: (usize, usize), calls: &[Call]) -> Vec<Asked> {
    let mut found = vec![Asked::Fresh];
    for call in calls {
        if random.chance(6) {
            found.push(odd_call(random, size));
        }
        found.push(asked(*call));
        if random.below(400) == 0 {
            found.push(Asked::Fresh);
        }
    }
    found
}

/// Half of the sequences go on after the flag is set; some agree with a
/// layout for a while; some have 256 checkpoints and more.
fn board_calls(random: &mut Random, pads: &Pads, number: usize) -> Vec<Call> {
    if number % 400 == 399 {
        return checkpoint_calls(random, pads);
    }
    let mut plan = any_plan(random, if number % 2 == 0 { 0 } else { 6 });
    plan.calls += random.below(60);
    let mut chooser = Chooser::new(random, pads);
    if number % 60 == 0 {
        chooser.follow_layout(pads, plan.calls / 2);
    }
    chooser.follow(plan);
    chooser.calls
}

/// The sequences of the two texts show slips that random calls seldom show.
pub fn known_sequences() -> Vec<(Pads, Vec<Call>)> {
    let mut known = grids_and_calls(include_str!("../dozen.txt"));
    known.extend(grids_and_calls(include_str!("../rare.txt")));
    known
}

/// A known sequence with a few pads and calls changed.
pub fn varied_case(random: &mut Random, known: &[(Pads, Vec<Call>)]) -> Case {
    let (mut pads, mut calls) = known[random.below(known.len())].clone();
    for _ in 0..random.below(5) {
        let at = random.below(calls.len());
        let pad = random.below(pads.cells.len());
        let row = random.below(2 * pads.height - 1);
        let column = 2 * random.below(pads.width) + 1 - row % 2;
        let any = Call::Decide(
            row,
            column % (2 * pads.width - 1),
            random.choose(&[LINE, NONE]),
        );
        match random.below(6) {
            0 => pads.cells[pad] = BLANK,
            1 => pads.cells[pad] = random.below(4) as i64,
            2 if calls.len() > 1 => {
                calls.remove(at);
            }
            3 => calls.insert(at, random.choose(&[Call::Checkpoint, Call::Undo])),
            4 => calls[at] = any,
            _ => calls.insert(at, any),
        }
    }
    widen(random, &mut pads);
    let calls = with_odd_calls(random, (pads.height, pads.width), &calls);
    let grid = given(&pads);
    let lent = any_lent(random, board_room(&grid, calls.len()));
    Case::Board { grid, lent, calls }
}

pub fn board_case(random: &mut Random, number: usize) -> Case {
    if random.chance(1) {
        let grid = odd_grid(random);
        let calls: Vec<Asked> = (0..20).map(|_| odd_call(random, (2, 2))).collect();
        let calls = [vec![Asked::Fresh, Asked::Checkpoint], calls].concat();
        let lent = any_lent(random, board_room(&grid, calls.len()));
        return Case::Board { grid, lent, calls };
    }
    let (height, width) = size_of(number);
    let mut pads = any_pads(random, height, width);
    widen(random, &mut pads);
    let calls = board_calls(random, &pads, number);
    let mut calls = with_odd_calls(random, (height, width), &calls);
    if number % 400 == 399 {
        for at in [300, 280, 260] {
            calls.insert(at, Asked::Checkpoint);
        }
    }
    let grid = given(&pads);
    let lent = any_lent(random, board_room(&grid, calls.len()));
    Case::Board { grid, lent, calls }
}

/// A grid for a search; every second one has a layout.
pub fn search_pads(random: &mut Random, number: usize) -> Pads {
    let (height, width) = if number % 3 == 0 {
        (2 + random.below(5), 2 + random.below(5))
    } else {
        size_of(number)
    };
    let mut pads = if number % 2 == 0 {
        wired_pads(random, height, width)
    } else {
        any_pads(random, height, width)
    };
    widen(random, &mut pads);
    pads
}

/// The number from which come the bytes that stand in what is lent.
pub fn any_fill(random: &mut Random) -> u64 {
    random.below(1000000) as u64
}

pub fn any_search(random: &mut Random, pads: &Pads, limit: u64, room: usize) -> Search {
    Search {
        grid: given(pads),
        lent: any_lent(random, 6),
        limit,
        room,
    }
}

pub fn declined_search(random: &mut Random) -> Search {
    let limit = random.choose(&[0, 1, 1000, u64::MAX]);
    Search {
        grid: odd_grid(random),
        lent: any_lent(random, 6),
        limit: limit.min(1000),
        room: random.below(2000),
    }
}

pub fn record_case(random: &mut Random) -> Case {
    let odd = random.choose(&[0, 1, 17, 1 << 60, usize::MAX]);
    let (mut height, mut width) = (2 + random.below(15), 2 + random.below(15));
    let length = (2 * height - 1) * (2 * width - 1);
    let k = random.choose(&[0, 1, 2, 3, 7, 63, 64, 1 << 58, usize::MAX]);
    let count = random.choose(&[k, k.saturating_add(1), k.saturating_sub(1), 5, usize::MAX]);
    let room = length.saturating_mul(k.saturating_add(1)).min(61504);
    let room = random.choose(&[room, room.saturating_sub(1), room + 1, room + length, 0]);
    match random.below(12) {
        0 => height = odd,
        1 => width = odd,
        _ => {}
    }
    Case::Record {
        size: (height, width),
        lent: any_lent(random, 2),
        count,
        k,
        room,
    }
}

/// A file of the grid, some codes larger; in one file of ten some codes are
/// filled up with zeros.
fn file_text(random: &mut Random, pads: &Pads) -> Vec<u8> {
    let digits = if random.chance(10) {
        random.choose(&[2, 3, 10])
    } else {
        1
    };
    let text = grid_text(&given(pads), |code| match code {
        code if random.chance(20) => format!("{code:0digits$}"),
        code if random.chance(5) => (code + random.below(1 << 20) as i64).to_string(),
        code => code.to_string(),
    });
    text.into_bytes()
}

const FIELDS: [&str; 46] = [
    "",
    "0",
    "00",
    "007",
    "00x",
    "00#",
    "x",
    "1O",
    "0O",
    "O1",
    "1",
    "2",
    "16",
    "17",
    "10",
    "100",
    "1000000000",
    "02",
    "0000000016",
    "00000000002",
    "-1",
    "2147483646",
    "2147483647",
    "2147483648",
    "4294967294",
    "4294967295",
    "4294967296",
    "4294967298",
    "4294967301",
    "9999999999",
    "12345678901",
    "5\r",
    "1234567890x",
    "12345678901x",
    " 5",
    "\"5\"",
    "#",
    "##",
    "#5",
    "5#",
    "0#",
    "# ",
    " #",
    "#\r",
    "1234567890#",
    "#1234567890",
];

/// One of the file's fields replaced; the header's as often as all others.
fn replace_field(random: &mut Random, file: &mut Vec<u8>) {
    let is_end = |byte: &u8| *byte == b',' || *byte == b'\n';
    let ends: Vec<usize> = (0..file.len()).filter(|at| is_end(&file[*at])).collect();
    if ends.is_empty() {
        return;
    }
    let which = if random.chance(50) {
        random.below(2.min(ends.len()))
    } else {
        random.below(ends.len())
    };
    let start = if which == 0 { 0 } else { ends[which - 1] + 1 };
    let field = random.choose(&FIELDS);
    file.splice(start..ends[which], field.bytes());
}

fn damage(random: &mut Random, file: &mut Vec<u8>) {
    let at = random.below(file.len() + 1);
    let byte = random.choose(b"0123456789,,,\n\n\n######Ol \r\t-\"\0\xff/:");
    match random.below(9) {
        0 => file.truncate(at),
        1 => file.insert(at, byte),
        2 => file.push(byte),
        3 if at < file.len() => file[at] = byte,
        4 if at < file.len() => file[at] = random.below(256) as u8,
        5 if at < file.len() => {
            file.remove(at);
        }
        6 if !file.is_empty() => {
            file.pop();
        }
        7 => {
            let end = (at + random.below(12)).min(file.len());
            let part = file[at..end].to_vec();
            file.splice(at..at, part);
        }
        _ => replace_field(random, file),
    }
}

/// Bytes to be read, mostly with enough numbers for the answer and the cells.
pub fn any_reading(random: &mut Random, bytes: Vec<u8>) -> Reading {
    Reading {
        lent: any_lent(random, 5),
        cells_lent: any_lent(random, 256),
        bytes,
    }
}

pub fn file_case(random: &mut Random) -> Case {
    let (height, width) = if random.chance(70) {
        (2 + random.below(3), 2 + random.below(3))
    } else {
        (2 + random.below(15), 2 + random.below(15))
    };
    let mut pads = any_pads(random, height, width);
    widen(random, &mut pads);
    if random.chance(20) {
        for cell in pads.cells.iter_mut() {
            *cell = LARGEST_CODE - random.below(3) as i64;
        }
    }
    if random.chance(33) {
        let percent = random.choose(&[10, 30, 60, 100]);
        drill(random, &mut pads.cells, percent, false);
    }
    let mut bytes = file_text(random, &pads);
    for _ in 0..random.choose(&[0, 1, 1, 1, 1, 2, 3]) {
        damage(random, &mut bytes);
    }
    Case::File(any_reading(random, bytes))
}

/// Any code with as many digits as the power of ten `least`.
fn code_from(random: &mut Random, least: i64) -> i64 {
    let codes = (9 * least).min(LARGEST_CODE - least + 1);
    least + random.below(codes as usize) as i64
}

/// A code with one to ten digits; often a power of ten or one less, or one about
/// the edges of 31 and 32 bits.
pub fn any_code(random: &mut Random) -> i64 {
    let least = 10_i64.pow(random.below(10) as u32);
    match random.below(8) {
        0 => 0,
        1 => random.below(10) as i64,
        2 => least,
        3 => least - 1,
        4 => random.choose(&EDGE_CODES),
        _ => code_from(random, least),
    }
}

/// A grid with blank pads and any codes; some are all blank, some have ten
/// digits at every pad.
pub fn coded_grid(random: &mut Random, (height, width): (usize, usize)) -> Given {
    let blank = random.choose(&[0, 0, 20, 20, 50, 50, 90, 100]);
    let long = random.chance(25);
    let mut cell = || {
        if random.chance(blank) {
            BLANK
        } else if long {
            code_from(random, 1000000000)
        } else {
            any_code(random)
        }
    };
    Given {
        size: (height, width),
        cells: (0..height * width).map(|_| cell()).collect(),
    }
}

/// Such a grid, some with holes, few or nothing else.
fn grid_to_write(random: &mut Random, size: (usize, usize)) -> Given {
    let mut grid = coded_grid(random, size);
    let holes = random.choose(&[0, 0, 0, 5, 20, 50, 90, 100]);
    drill(random, &mut grid.cells, holes, false);
    grid
}

/// A room for a text: mostly one short of it, equal to it or one beyond it.
fn text_room(random: &mut Random, length: usize) -> usize {
    let short = random.below(length);
    match random.below(10) {
        0..=2 => length - 1,
        3..=5 => length,
        6 | 7 => length + 1,
        8 => length + 2 + random.below(3000),
        _ => random.choose(&[0, short]),
    }
}

/// Where the grid is declined it has no text, and any length stands for it.
pub fn write_case(random: &mut Random, number: usize) -> Case {
    let grid = if random.chance(4) {
        odd_grid(random)
    } else {
        grid_to_write(random, size_of(number))
    };
    let length = match written_text(&grid).len() {
        0 => 1 + random.below(3000),
        length => length,
    };
    Case::Write {
        grid,
        lent: any_lent(random, 3),
        room: text_room(random, length),
    }
}
