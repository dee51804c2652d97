// Grids and records to be judged. Tiny grids one after another and small ones
// chosen at random, whose drawings are all tried; on grids of all sizes chains
// that were drawn at random and turned over square by square, so that each pad
// keeps its lines, layouts of searches, and both with faults put into them.

use crate::answers::{Pads, BLANK, HOLE, LARGEST_CODE, LINE, NONE, UNDECIDED};
use crate::cases::{Case, Given};
use crate::chosen::{any_lent, drill, given, odd_grid, widen};
use crate::holes::by_library;
use crate::judged::Drawn;
use crate::random::{wired, wired_pads, Random};

/// What stands on the pads of a tiny grid; a hole is -2, as is the end of the
/// code 0, and the largest code is -1 in 32 bits, as is a blank pad.
const TINY: [i64; 4] = [BLANK, HOLE, 0, LARGEST_CODE];

/// Every grid of 2 by 2, 2 by 3 and 3 by 2 pads that these four can make.
pub fn tiny_pads(number: usize) -> Option<Pads> {
    let mut left = number;
    for (height, width) in [(2, 2), (2, 3), (3, 2)] {
        let grids = 1 << (2 * height * width);
        if left < grids {
            let cells = (0..height * width).map(|pad| TINY[left >> (2 * pad) & 3]);
            return Some(Pads {
                height,
                width,
                cells: cells.collect(),
            });
        }
        left -= grids;
    }
    None
}

/// Pads of each kind at random, with two codes.
fn mixed_pads(random: &mut Random, height: usize, width: usize) -> Pads {
    let blank = random.choose(&[30, 50, 70, 90]);
    let code = random.below(9) as i64;
    let mut cell = || match random.chance(blank) {
        true => BLANK,
        false => random.choose(&[HOLE, code, code, code + 1]),
    };
    Pads {
        height,
        width,
        cells: (0..height * width).map(|_| cell()).collect(),
    }
}

/// A grid whose drawings can all be tried: up to 13 edges, seldom 17.
pub fn tried_pads(random: &mut Random) -> Pads {
    let size = match random.below(20) {
        0 => random.choose(&[(3, 4), (4, 3)]),
        _ => random.choose(&[(2, 4), (4, 2), (3, 3), (2, 5), (5, 2)]),
    };
    drilled_pads(random, size)
}

/// A grid with or without a layout, mostly with holes at some of its blank pads.
pub fn drilled_pads(random: &mut Random, (height, width): (usize, usize)) -> Pads {
    let mut pads = if random.chance(25) {
        mixed_pads(random, height, width)
    } else {
        wired_pads(random, height, width)
    };
    let percent = random.choose(&[0, 10, 30, 60]);
    drill(random, &mut pads.cells, percent, true);
    widen(random, &mut pads);
    pads
}

/// The place of the edge that joins two neighbouring pads.
fn place_between(width: usize, (one, other): (usize, usize)) -> usize {
    let row = one / width + other / width;
    let column = one % width + other % width;
    row * (2 * width - 1) + column
}

/// Whether there is an edge at a place of the record: its row and its column are
/// not both even and not both odd.
pub fn is_edge(pads: &Pads, place: usize) -> bool {
    let columns = 2 * pads.width - 1;
    (place / columns + place % columns) % 2 == 1
}

/// The record with no line.
fn empty_record(pads: &Pads) -> Vec<u8> {
    let byte = |place: usize| match is_edge(pads, place) {
        true => NONE,
        false => UNDECIDED,
    };
    (0..pads.record_length()).map(byte).collect()
}

/// Chains along a path through all pads, row by row or column by column and
/// back, cut here and there, half of them wherever the path turns: no drawing
/// has more lines. Beside the grid its lines.
fn snaked(random: &mut Random, (height, width): (usize, usize)) -> (Pads, Vec<(usize, usize)>) {
    let by_rows = random.chance(50);
    let side = if by_rows { width } else { height };
    let pad = |step: usize| {
        let (row, column) = (step / side, step % side);
        let column = [column, side - 1 - column][row % 2];
        [column * width + row, row * width + column][by_rows as usize]
    };
    let (percent, straight) = (random.choose(&[0, 1, 5, 20]), random.chance(50));
    let (mut cells, mut lines) = (vec![BLANK; height * width], Vec::new());
    let mut start = 0;
    for step in 0..cells.len() {
        let turns = (step + 1) % side == 0;
        if step + 1 < cells.len() && !(straight && turns) && !random.chance(percent) {
            lines.push((pad(step), pad(step + 1)));
            continue;
        }
        if start < step {
            cells[pad(start)] = random.below(3) as i64;
            cells[pad(step)] = cells[pad(start)];
        }
        start = step + 1;
    }
    let pads = Pads {
        height,
        width,
        cells,
    };
    (pads, lines)
}

/// Chains drawn at random, as a grid and the record of an ordinary layout of
/// it; holes only where no chain goes.
pub fn drawn(random: &mut Random, size: (usize, usize)) -> (Pads, Vec<u8>) {
    let (mut pads, lines) = match random.chance(10) {
        true => snaked(random, size),
        false => wired(random, size.0, size.1),
    };
    widen(random, &mut pads);
    let mut bytes = empty_record(&pads);
    let mut taken = vec![false; pads.cells.len()];
    for (one, other) in lines {
        bytes[place_between(pads.width, (one, other))] = LINE;
        taken[one] = true;
        taken[other] = true;
    }
    let percent = random.choose(&[0, 0, 5, 20, 60]);
    for pad in (0..taken.len()).filter(|pad| !taken[*pad]) {
        if random.chance(percent) {
            pads.cells[pad] = HOLE;
        }
    }
    (pads, bytes)
}

/// The four edges of a square turned over; how many lines it then has.
fn turn_over(bytes: &mut [u8], width: usize, pad: usize) -> usize {
    let below = pad + width;
    let edges = [
        (pad, pad + 1),
        (pad, below),
        (pad + 1, below + 1),
        (below, below + 1),
    ];
    let mut lines = 0;
    for place in edges.map(|edge| place_between(width, edge)) {
        bytes[place] = LINE + NONE - bytes[place];
        lines += (bytes[place] == LINE) as usize;
    }
    lines
}

/// A square turned over, so that each pad keeps even or odd its lines. It is
/// turned back where a pad then has too many or a hole has any, and mostly where
/// it makes a loop of four lines, which would soon be everywhere.
fn turn_square(random: &mut Random, pads: &Pads, bytes: &mut [u8]) -> bool {
    let width = pads.width;
    let pad = random.below(pads.height - 1) * width + random.below(width - 1);
    let lines = turn_over(bytes, width, pad);
    let corners = [pad, pad + 1, pad + width, pad + width + 1];
    let fits = |pad: &usize| Drawn { pads, bytes }.count_fits(*pad);
    let keeps = corners.iter().all(fits) && (lines < 4 || random.chance(2));
    if !keeps {
        turn_over(bytes, width, pad);
    }
    keeps
}

/// So many squares, one after another.
pub fn turn_squares(random: &mut Random, pads: &Pads, bytes: &mut [u8], squares: usize) {
    for _ in 0..squares {
        turn_square(random, pads, bytes);
    }
}

/// One square that stays turned over, if one is soon found.
pub fn turn_one(random: &mut Random, pads: &Pads, bytes: &mut [u8]) {
    let _ = (0..30).any(|_| turn_square(random, pads, bytes));
}

/// A place of the field, an edge or one between the edges.
fn any_place(random: &mut Random, pads: &Pads, edge: bool) -> usize {
    loop {
        let place = random.below(pads.record_length());
        if is_edge(pads, place) == edge {
            return place;
        }
    }
}

/// One edge turned over: a line for none, or none for a line.
pub fn flip_edge(random: &mut Random, pads: &Pads, bytes: &mut [u8]) {
    let place = any_place(random, pads, true);
    bytes[place] = LINE + NONE - bytes[place];
}

/// Bytes left out or put in, at the end or anywhere.
fn spoil_length(random: &mut Random, bytes: &mut Vec<u8>) {
    let at = random.below(bytes.len());
    match random.below(6) {
        0 => bytes.truncate(at),
        1 => bytes.clear(),
        2 => bytes.push(random.choose(&[UNDECIDED, LINE, NONE])),
        3 => bytes.insert(at, random.choose(&[UNDECIDED, LINE, NONE])),
        4 => bytes.extend(bytes.clone()),
        _ => {
            bytes.pop();
        }
    }
}

/// Edges with lines at random, or any bytes at all.
fn any_bytes(random: &mut Random, pads: &Pads) -> Vec<u8> {
    let percent = random.choose(&[2, 10, 30, 50]);
    let largest = random.choose(&[2, 3, 4, 256]);
    let keeps_places = random.chance(50);
    let byte = |byte: u8| match (keeps_places, byte) {
        (true, UNDECIDED) => UNDECIDED,
        (true, _) => NONE - random.chance(percent) as u8,
        _ => random.below(largest) as u8,
    };
    empty_record(pads).into_iter().map(byte).collect()
}

/// A fault, or what may be one: an edge, a byte, the length, a pad of the grid,
/// or all of the record.
pub fn spoil(random: &mut Random, pads: &mut Pads, bytes: &mut Vec<u8>) {
    let pad = random.below(pads.cells.len());
    match random.below(10) {
        0 | 1 => flip_edge(random, pads, bytes),
        2 => {
            let place = any_place(random, pads, true);
            bytes[place] = random.choose(&[0, 3, 4, 128, 129, 130, 255]);
        }
        3 => {
            let place = any_place(random, pads, false);
            bytes[place] = random.choose(&[1, 2, 3, 128, 255]);
        }
        4 => spoil_length(random, bytes),
        5 => pads.cells[pad] = random.choose(&[BLANK, HOLE, 0, 1, LARGEST_CODE - 1, LARGEST_CODE]),
        6 => *bytes = any_bytes(random, pads),
        7 => change_code(random, pads),
        _ => {}
    }
}

/// One of the grid's codes changed, to another of them or in one bit.
fn change_code(random: &mut Random, pads: &mut Pads) {
    let is_clue = |pad: &usize| pads.cells[*pad] >= 0;
    let clues: Vec<usize> = (0..pads.cells.len()).filter(is_clue).collect();
    if clues.is_empty() {
        return;
    }
    let (at, other) = (random.choose(&clues), random.choose(&clues));
    let changed = pads.cells[at] ^ 1 << random.below(32);
    pads.cells[at] = random.choose(&[pads.cells[other], changed]);
}

/// The layouts that a search of the library lists, with a limit and a room, and
/// whether they are all that there are.
pub fn listed(pads: &Pads, limit: u64, room: usize) -> (Vec<Vec<u8>>, bool) {
    let run = by_library(pads, limit, room);
    let records = run.bytes.chunks(pads.record_length());
    (records.map(<[u8]>::to_vec).collect(), run.outcome == 0)
}

pub fn judge_case(pads: &Pads, lent: usize, bytes: Vec<u8>) -> Case {
    Case::Judge {
        grid: given(pads),
        lent,
        bytes,
    }
}

/// A grid that is mostly declined, with a record of its length or another.
pub fn declined_judge(random: &mut Random) -> Case {
    let grid: Given = odd_grid(random);
    let (height, width) = (grid.size.0.clamp(2, 16), grid.size.1.clamp(2, 16));
    let (pads, mut bytes) = drawn(random, (height, width));
    match random.below(4) {
        0 => bytes = any_bytes(random, &pads),
        1 => spoil_length(random, &mut bytes),
        _ => {}
    }
    Case::Judge {
        grid,
        lent: any_lent(random, 4),
        bytes,
    }
}
