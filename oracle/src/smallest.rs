// Makes a failing case smaller as long as it still fails: calls left out,
// rows and columns cut off, holes filled, codes blanked or shortened, bytes of
// a file or a slice left out, chains rubbed out, less room, shorter tables, lower
// limits.

use crate::answers::{Pads, BLANK, HOLE, LINE, NONE, UNDECIDED};
use crate::cases::{Again, Asked, Case, Given, Reading, Search, Table};
use crate::expected::{
    board_pads, board_room, by_library, expected, grid_refusal, is_known, written_text,
};
use crate::grids::LIMIT;
use crate::holes;
use crate::judged::Drawn;
use crate::packed::{plain_grid, plain_slice};
use crate::walks::all_codes;
use std::time::{Duration, Instant};

/// Whether a search or a walk of the case ends within a reasonable limit, if it has
/// none itself: that of a smaller grid might go on for ever.
fn soon_ends(case: &Case) -> bool {
    let search = match case {
        Case::Search(search) | Case::Common(search, _) => search,
        Case::Pair(search, again) => &search.again(*again),
        Case::Walk(search, _) => {
            let codes = all_codes(&board_pads(&search.grid));
            return codes.min(search.limit) <= LIMIT;
        }
        _ => return true,
    };
    let run = || holes::by_library(&board_pads(&search.grid), LIMIT, search.room);
    search.limit <= LIMIT || run().outcome != 1
}

pub fn differs(case: &Case) -> bool {
    is_known(case) && soon_ends(case) && expected(case) != by_library(case)
}

/// The smallest case found in at most half a minute.
pub fn smallest(case: &Case) -> Case {
    let until = Instant::now() + Duration::from_secs(30);
    let mut found = case.clone();
    while let Some(smaller) = smaller_cases(&found)
        .into_iter()
        .take_while(|_| Instant::now() < until)
        .find(differs)
    {
        found = smaller;
    }
    found
}

fn smaller_cases(case: &Case) -> Vec<Case> {
    match case {
        Case::Board { grid, lent, calls } => {
            let short = *lent < board_room(grid, calls.len());
            smaller_boards(grid, calls)
                .into_iter()
                .map(|(grid, calls)| Case::Board {
                    lent: board_room(&grid, calls.len()).saturating_sub(short as usize),
                    grid,
                    calls,
                })
                .collect()
        }
        Case::Search(search) => {
            let smaller = smaller_searches(search).into_iter();
            smaller.map(Case::Search).collect()
        }
        Case::File(reading) => {
            let smaller = parts(&reading.bytes).into_iter();
            smaller
                .map(|bytes| Case::File(with_bytes(reading, bytes)))
                .collect()
        }
        Case::Packed(reading) => {
            let smaller = smaller_slices(&reading.bytes).into_iter();
            smaller
                .map(|bytes| Case::Packed(with_bytes(reading, bytes)))
                .collect()
        }
        Case::Write { grid, lent, room } => smaller_writes(grid, *lent, *room),
        Case::Judge { grid, lent, bytes } => smaller_judges(grid, *lent, bytes),
        Case::Common(search, table) => smaller_commons(search, *table),
        Case::Pair(search, again) => smaller_pairs(search, *again),
        Case::Walk(search, fill) => smaller_walks(search, *fill),
        Case::Record { .. } => Vec::new(),
    }
}

/// The list with its second half left out, its first half, each quarter and
/// so on, down to each single item.
fn parts<T: Clone>(items: &[T]) -> Vec<Vec<T>> {
    let mut found = Vec::new();
    let mut size = items.len();
    while size > 0 {
        let mut end = items.len();
        while end > 0 {
            let start = end.saturating_sub(size);
            found.push([&items[..start], &items[end..]].concat());
            end = start;
        }
        size /= 2;
    }
    found
}

fn with_bytes(reading: &Reading, bytes: Vec<u8>) -> Reading {
    Reading { bytes, ..*reading }
}

/// Slices of smaller grids, as much too short or with the same bytes behind them
/// as this one; and this one with bytes left out.
fn smaller_slices(bytes: &[u8]) -> Vec<Vec<u8>> {
    let mut found = Vec::new();
    if let Some(grid) = plain_grid(bytes) {
        let whole = plain_slice(&grid).len();
        let missing = whole.saturating_sub(bytes.len());
        for smaller in smaller_grids(&grid) {
            let mut slice = plain_slice(&smaller);
            slice.truncate(slice.len().saturating_sub(missing));
            slice.extend(bytes.iter().skip(whole));
            found.push(slice);
        }
    }
    found.extend(parts(bytes));
    found.retain(|smaller| smaller != bytes);
    found
}

fn smaller_boards(grid: &Given, calls: &[Asked]) -> Vec<(Given, Vec<Asked>)> {
    let mut found: Vec<(Given, Vec<Asked>)> = parts(calls)
        .into_iter()
        .map(|calls| (grid.clone(), calls))
        .collect();
    for (cut, rows, columns) in cuts(grid) {
        let on_cut = |call: &Asked| moved(*call, cut.size, rows, columns);
        let kept = calls.iter().filter_map(on_cut).collect();
        found.push((cut, kept));
    }
    for blanked in blanked_grids(grid) {
        found.push((blanked, calls.to_vec()));
    }
    found
}

fn smaller_searches(search: &Search) -> Vec<Search> {
    let (limit, room) = (search.limit, search.room);
    let with = |grid: Given, limit, room| Search {
        grid,
        limit,
        room,
        ..*search
    };
    let mut found = Vec::new();
    for (smaller, less) in [
        (limit.min(LIMIT), room),
        (limit / 2, room),
        (limit, room / 2),
    ] {
        if (smaller, less) != (limit, room) {
            found.push(with(search.grid.clone(), smaller, less));
        }
    }
    let grids = smaller_grids(&search.grid).into_iter();
    found.extend(grids.map(|grid| with(grid, limit, room)));
    if limit > 0 && limit < 100 {
        found.push(with(search.grid.clone(), limit - 1, room));
    }
    found
}

/// Smaller searches, their tables as far from the places as this one; shorter
/// tables, and the smallest fills.
fn smaller_commons(search: &Search, table: Table) -> Vec<Case> {
    let places_of = |search: &Search| board_pads(&search.grid).record_length();
    let places = places_of(search);
    let case = |search: Search, length, fill| Case::Common(search, Table { length, fill });
    let on_smaller = |smaller: Search| {
        let as_far = (table.length + places_of(&smaller)).saturating_sub(places);
        case(smaller, as_far, table.fill)
    };
    let mut found: Vec<Case> = smaller_searches(search)
        .into_iter()
        .map(on_smaller)
        .collect();
    let lengths = [0, places - 1, places, places + 1];
    let shorter = lengths.into_iter().filter(|less| *less < table.length);
    found.extend(shorter.map(|length| case(search.clone(), length, table.fill)));
    let fills = smaller_fills(table.fill);
    found.extend(fills.map(|fill| case(search.clone(), table.length, fill)));
    found
}

/// The smallest fills.
fn smaller_fills(fill: u64) -> impl Iterator<Item = u64> {
    (0..2).filter(move |less| *less < fill)
}

/// Smaller grids, lower limits and less room, and the smallest fills.
fn smaller_walks(search: &Search, fill: u64) -> Vec<Case> {
    let smaller = smaller_searches(search).into_iter();
    let mut found: Vec<Case> = smaller.map(|search| Case::Walk(search, fill)).collect();
    found.extend(smaller_fills(fill).map(|fill| Case::Walk(search.clone(), fill)));
    found
}

/// The pair with a smaller second search; the first has no more than that.
fn pair_within(search: &Search, again: Again, second: Search) -> Case {
    let (limit, room) = (second.limit, second.room);
    let first = Search {
        limit: search.limit.min(limit),
        room: search.room.min(room),
        ..second
    };
    let again = Again {
        limit,
        room,
        ..again
    };
    Case::Pair(first, again)
}

/// A smaller grid for both searches, a lower limit or less room for the first or
/// for both; the smallest fills, and a buffer of its own for the second.
fn smaller_pairs(search: &Search, again: Again) -> Vec<Case> {
    let seconds = smaller_searches(&search.again(again)).into_iter();
    let within = |second| pair_within(search, again, second);
    let mut found: Vec<Case> = seconds.map(within).collect();
    let firsts = smaller_searches(search).into_iter();
    let on_grid = firsts.filter(|first| first.grid == search.grid);
    found.extend(on_grid.map(|first| Case::Pair(first, again)));
    let lent = (again.fill, again.left);
    let others = [(0, again.left), (1, again.left), (again.fill, false)];
    for (fill, left) in others.into_iter().filter(|other| *other < lent) {
        let again = Again {
            fill,
            left,
            ..again
        };
        found.push(Case::Pair(search.clone(), again));
    }
    found
}

/// Smaller grids, their rooms as far from the text as this one; and less room.
fn smaller_writes(grid: &Given, lent: usize, room: usize) -> Vec<Case> {
    let length = written_text(grid).len();
    let case = |grid: Given, room| Case::Write { grid, lent, room };
    let on_smaller = |smaller: Given| {
        let as_far = (room + written_text(&smaller).len()).saturating_sub(length);
        case(smaller, as_far)
    };
    let mut found: Vec<Case> = smaller_grids(grid).into_iter().map(on_smaller).collect();
    let rooms = [0, room / 2, length.saturating_sub(1), length, length + 1];
    let less = rooms.into_iter().filter(|less| *less < room);
    found.extend(less.map(|less| case(grid.clone(), less)));
    found
}

/// The places of a field, as row and column.
fn places((height, width): (usize, usize)) -> impl Iterator<Item = (usize, usize)> {
    let columns = 2 * width - 1;
    (0..(2 * height - 1) * columns).map(move |place| (place / columns, place % columns))
}

fn smaller_judges(grid: &Given, lent: usize, bytes: &[u8]) -> Vec<Case> {
    let smaller = smaller_drawings(grid, bytes).into_iter();
    let case = |(grid, bytes): (Given, Vec<u8>)| Case::Judge { grid, lent, bytes };
    smaller.map(case).collect()
}

/// Where the record has the grid's length: the grid cut with it, chains rubbed
/// out, and bytes put to none or, between the edges, to undecided. Where it has
/// another, bytes left out.
fn smaller_drawings(grid: &Given, bytes: &[u8]) -> Vec<(Given, Vec<u8>)> {
    let blanked = blanked_grids(grid).into_iter();
    let mut found: Vec<(Given, Vec<u8>)> = blanked.map(|grid| (grid, bytes.to_vec())).collect();
    let whole = grid_refusal(grid) == (0, 0) && places(grid.size).count() == bytes.len();
    if !whole {
        let cut = cuts(grid)
            .into_iter()
            .map(|(cut, ..)| (cut, bytes.to_vec()));
        found.extend(cut);
        found.extend(parts(bytes).into_iter().map(|bytes| (grid.clone(), bytes)));
        return found;
    }
    for (cut, rows, columns) in cuts(grid) {
        let kept = cut_record(grid, bytes, cut.size, (rows as usize, columns as usize));
        found.insert(0, (cut, kept));
    }
    found.extend(without_chains(grid, bytes));
    for (at, (row, column)) in places(grid.size).enumerate() {
        let usual = [UNDECIDED, NONE][(row + column) % 2];
        if bytes[at] != usual {
            let mut fewer = bytes.to_vec();
            fewer[at] = usual;
            found.push((grid.clone(), fewer));
        }
    }
    found
}

fn cut_record(
    grid: &Given,
    bytes: &[u8],
    size: (usize, usize),
    (rows, columns): (usize, usize),
) -> Vec<u8> {
    let across = 2 * grid.size.1 - 1;
    places(size)
        .map(|(row, column)| bytes[(row + rows) * across + column + columns])
        .collect()
}

/// A chain at a time rubbed out, and its codes with it.
fn without_chains(grid: &Given, bytes: &[u8]) -> Vec<(Given, Vec<u8>)> {
    let pads = Pads {
        height: grid.size.0,
        width: grid.size.1,
        cells: grid.cells.clone(),
    };
    let chains = Drawn { pads: &pads, bytes }.chains();
    let without = |chain: &Vec<usize>| {
        let (mut rest, mut fewer) = (grid.clone(), bytes.to_vec());
        for (at, (row, column)) in places(grid.size).enumerate() {
            let pad = row / 2 * pads.width + column / 2;
            if chain.contains(&pad) {
                rest.cells[pad] = BLANK;
                if (row + column) % 2 == 1 && fewer[at] == LINE {
                    fewer[at] = NONE;
                }
            }
        }
        (rest, fewer)
    };
    chains.iter().map(without).collect()
}

fn smaller_grids(grid: &Given) -> Vec<Given> {
    let mut grids: Vec<Given> = cuts(grid).into_iter().map(|(cut, _, _)| cut).collect();
    grids.extend(blanked_grids(grid));
    grids
}

/// A hole or a code at a time made blank, or else a code the least one, or a
/// digit shorter.
fn blanked_grids(grid: &Given) -> Vec<Given> {
    let mut found = Vec::new();
    for (index, cell) in grid.cells.iter().enumerate() {
        for less in [BLANK, 0, 1, *cell / 10] {
            if *cell > less || (*cell, less) == (HOLE, BLANK) {
                let mut blanked = grid.clone();
                blanked.cells[index] = less;
                found.push(blanked);
            }
        }
    }
    found
}

/// The grid without its last or first row or column, and by how much the
/// places of what is left move up and to the left.
fn cuts(grid: &Given) -> Vec<(Given, u64, u64)> {
    let (height, width) = grid.size;
    let mut found = Vec::new();
    if grid.cells.len() != height.saturating_mul(width) {
        return found;
    }
    let keep = |kept: &dyn Fn(usize, usize) -> bool| -> Vec<i64> {
        let cells = grid.cells.iter().enumerate();
        cells
            .filter(|(index, _)| kept(index / width, index % width))
            .map(|(_, cell)| *cell)
            .collect()
    };
    let mut add = |size, cells, rows, columns| found.push((Given { size, cells }, rows, columns));
    if height > 2 {
        let size = (height - 1, width);
        add(size, keep(&|row, _| row < height - 1), 0, 0);
        add(size, keep(&|row, _| row > 0), 2, 0);
    }
    if width > 2 {
        let size = (height, width - 1);
        add(size, keep(&|_, column| column < width - 1), 0, 0);
        add(size, keep(&|_, column| column > 0), 0, 2);
    }
    found
}

/// The call at its new place, if that is still on the board.
fn moved(call: Asked, size: (usize, usize), rows: u64, columns: u64) -> Option<Asked> {
    let place = |row: u64, column: u64| {
        let (row, column) = (row.checked_sub(rows)?, column.checked_sub(columns)?);
        let on_board = row < 2 * size.0 as u64 - 1 && column < 2 * size.1 as u64 - 1;
        on_board.then_some((row, column))
    };
    match call {
        Asked::Decide(row, column, state) => {
            place(row, column).map(|(row, column)| Asked::Decide(row, column, state))
        }
        Asked::Read(row, column) => {
            place(row, column).map(|(row, column)| Asked::Read(row, column))
        }
        other => Some(other),
    }
}
