// The copper common to all wirings: what a call must give, what the
// library gives, and calls chosen by a seed. The table is taken from the list
// in the order's plain words, place by place: how many layouts have a line
// there. The list is that of the reference or, where the grid is small, that of
// the rules (holes.rs). Only of larger grids with holes it is that of the
// library's own search, and such a search is held beside itself.

use crate::answers::{Pads, Run, BLANK, LINE};
use crate::cases::{Case, Given, Search, Table};
use crate::chosen::{any_fill, any_search, declined_search, search_pads, size_of, widen};
use crate::drawn::{drawn, is_edge, tiny_pads};
use crate::expected::{
    board_pads, expected_run, grid_refusal, lent_bytes, put_bytes, search_answer, Answer, FILL,
};
use crate::grids::{ended, runs_of, ROOM};
use crate::holes::{beginning, by_library, checked_list, is_small, small_pads};
use crate::library;
use crate::random::Random;

/// So many boards a search may visit to its end; more where it is known that it
/// soon comes to one.
pub const FEW_BOARDS: u64 = 1000;
const MANY_BOARDS: u64 = 1000000;

/// The turn at which there are more layouts than 16 bits count.
const TURN_OF_MANY: usize = 1000;

/// The table of a complete list: at an edge 1 where all layouts have a line, 2
/// where none has, else 3; elsewhere 0, and 0 everywhere where there is none.
fn table_of(pads: &Pads, all: &Run) -> Vec<u8> {
    let length = pads.record_length();
    let byte = |place: usize| {
        let at_place = all.bytes.iter().skip(place).step_by(length);
        let lines = at_place.filter(|byte| **byte == LINE).count();
        match lines {
            _ if all.layouts == 0 || !is_edge(pads, place) => 0,
            lines if lines == all.layouts => 1,
            0 => 2,
            _ => 3,
        }
    };
    (0..length).map(byte).collect()
}

/// What is told before any search: the grid's own numbers, then 14 where the
/// table is shorter than the places.
fn early_refusal(grid: &Given, table: Table) -> (u64, u64) {
    match grid_refusal(grid) {
        (0, 0) if table.length < board_pads(grid).record_length() => (14, 0),
        refusal => refusal,
    }
}

/// What a call must give where it is known what its search gives; beside 16 the
/// table stays as it is, and beside an earlier number all does.
fn common_answer(search: &Search, lent: Table, run: &Run) -> Answer {
    let [buffer, mut table] = lent_bytes(lent.fill, [search.room, lent.length]);
    let early = early_refusal(&search.grid, lent);
    if early != (0, 0) {
        let answer = search_answer(early, &Run::new(), search.lent, buffer);
        return Answer { table, ..answer };
    }
    let complete = run.outcome == 0;
    let number = if complete { 0 } else { 16 };
    let answer = search_answer((number, 0), run, search.lent, buffer);
    if complete && answer.returned > 0 {
        put_bytes(&mut table, &table_of(&board_pads(&search.grid), run));
    }
    Answer { table, ..answer }
}

pub fn expected_common(search: &Search, table: Table) -> Answer {
    let run = match early_refusal(&search.grid, table) {
        (0, 0) => expected_run(search),
        _ => Run::new(),
    };
    common_answer(search, table, &run)
}

pub fn common_by_library(search: &Search, lent: Table) -> Answer {
    let [bytes, table] = lent_bytes(lent.fill, [search.room, lent.length]);
    let mut answer = Answer {
        numbers: vec![FILL as u64; search.lent],
        bytes,
        table,
        ..Answer::default()
    };
    let (grid, limit) = (&search.grid, search.limit);
    let buffer = &mut answer.bytes[..search.room];
    let table = &mut answer.table[..lent.length];
    let numbers = &mut answer.numbers;
    answer.returned = library::common(grid.size, &grid.cells, limit, buffer, table, numbers);
    answer
}

/// Squares of four pads. In `doubles` of them, one after another from any one
/// on, all pads have one code and can be joined in two ways; in the others two
/// pairs lie side by side or one above the other. What is left over at the rim
/// are pairs, and maybe a blank pad. No code is that of another square, so the
/// layouts are 2 to the power of `doubles`, if there are so many squares.
fn tiled_pads(random: &mut Random, (height, width): (usize, usize), doubles: usize) -> Pads {
    let across = width.div_ceil(2);
    let in_row = |row: usize| (0..width / 2).map(move |column| row * across + column);
    let squares: Vec<usize> = (0..height / 2).flat_map(in_row).collect();
    let mut kinds = vec![0; across * height.div_ceil(2)];
    for square in &squares {
        kinds[*square] = random.choose(&[1, 2]);
    }
    let from_any = squares.iter().cycle().skip(random.below(squares.len()));
    for square in from_any.take(doubles.min(squares.len())) {
        kinds[*square] = 0;
    }
    let code = |pad: usize| {
        let (row, column) = (pad / width, pad % width);
        let square = row / 2 * across + column / 2;
        (2 * square + [0, row % 2, column % 2][kinds[square]]) as i64
    };
    let mut cells: Vec<i64> = (0..height * width).map(code).collect();
    if height % 2 == 1 && width % 2 == 1 {
        cells[height * width - 1] = BLANK;
    }
    Pads {
        height,
        width,
        cells,
    }
}

/// Tiled grids of all sizes in turn, one in thirty with 256 layouts or more.
fn any_tiled(random: &mut Random, number: usize) -> Pads {
    let doubles = match random.below(30) {
        0 => random.choose(&[8, 9]),
        _ => random.below(6),
    };
    let mut pads = tiled_pads(random, size_of(number), doubles);
    widen(random, &mut pads);
    pads
}

/// The grids of one turn, each with the boards that its search may visit: a tiny
/// one, as long as there are any, one of any size without holes, and a tiled one,
/// one of any size with holes or a small one.
pub fn common_pads(random: &mut Random, turn: usize) -> Vec<(Pads, u64)> {
    let tiny = tiny_pads(turn).map(|pads| (pads, FEW_BOARDS));
    let mut grids: Vec<(Pads, u64)> = tiny.into_iter().collect();
    grids.push((search_pads(random, turn), FEW_BOARDS));
    grids.push(match turn % 4 {
        1 => (any_tiled(random, turn / 4), MANY_BOARDS),
        3 => (drawn(random, size_of(turn / 4)).0, FEW_BOARDS),
        _ => (small_pads(random), FEW_BOARDS),
    });
    if turn == TURN_OF_MANY {
        grids.push((tiled_pads(random, (8, 9), 16), MANY_BOARDS));
    }
    grids
}

/// Who says which layouts a grid has.
#[derive(Clone, Copy, Debug, PartialEq, Eq, PartialOrd, Ord)]
pub enum Lister {
    Rules,
    Reference,
    Library,
}

/// The rules where every drawing can soon be tried, else the reference, which
/// knows no holes.
pub fn lister(pads: &Pads) -> Lister {
    match (pads.has_hole(), is_small(pads)) {
        _ if pads.cells.len() <= 12 => Lister::Rules,
        (true, true) => Lister::Rules,
        (true, false) => Lister::Library,
        (false, _) => Lister::Reference,
    }
}

/// The whole list, where a search comes to its end within so many boards.
pub fn whole_within(pads: &Pads, boards: u64) -> Option<Run> {
    match lister(pads) {
        Lister::Rules => Some(checked_list(pads)),
        Lister::Reference => ended(pads, boards),
        Lister::Library => {
            let run = by_library(pads, boards, ROOM);
            (run.outcome == 0).then_some(run)
        }
    }
}

/// What a search gives of the whole list.
pub fn run_within(pads: &Pads, all: &Run, search: &Search) -> Run {
    let (limit, room) = (search.limit, search.room);
    if limit >= all.visited && room >= all.bytes.len() {
        return all.clone();
    }
    match pads.has_hole() && is_small(pads) {
        true => beginning(pads, all, limit, room),
        false => expected_run(search),
    }
}

/// A table that mostly suffices, sometimes with more, sometimes too short.
fn any_table(random: &mut Random, places: usize) -> Table {
    let length = match random.below(10) {
        0 => places - 1,
        1 => random.choose(&[0, places / 2, places - 2]),
        2..=4 => places + 1 + random.below(40),
        _ => places,
    };
    let fill = any_fill(random);
    Table { length, fill }
}

/// Limits past 32 bits; cut to 32, most are 0 or 1.
pub const WIDE_LIMITS: [u64; 4] = [1 << 32, (1 << 32) + 1, 1 << 63, u64::MAX];

/// Calls on one grid, with what each must give: limits and rooms with which the
/// list just ends complete, and others about the places where it ends.
pub fn common_cases(random: &mut Random, pads: &Pads, boards: u64) -> Vec<(Case, Answer)> {
    let length = pads.record_length();
    let Some(all) = whole_within(pads, boards) else {
        let limit = random.below(boards as usize) as u64;
        let room = random.below(20 * length);
        let search = any_search(random, pads, limit, room);
        let table = any_table(random, length);
        let answer = expected_common(&search, table);
        return vec![(Case::Common(search, table), answer)];
    };
    let wide = random.choose(&WIDE_LIMITS);
    let mut runs = vec![(all.visited, all.bytes.len()), (wide, usize::MAX)];
    let kind = random.below(4);
    runs.extend(runs_of(random, &all, length, kind));
    let mut case = |(limit, room): (u64, usize)| {
        let enough = all.bytes.len() + random.below(2 * length);
        let search = any_search(random, pads, limit, room.min(enough));
        let table = any_table(random, length);
        let answer = common_answer(&search, table, &run_within(pads, &all, &search));
        (Case::Common(search, table), answer)
    };
    runs.into_iter().map(&mut case).collect()
}

/// A grid that is mostly declined; every second table is shorter than the places
/// of its size.
pub fn declined_common(random: &mut Random) -> Case {
    let search = declined_search(random);
    let (height, width) = search.grid.size;
    let places = (2 * height.clamp(2, 16) - 1) * (2 * width.clamp(2, 16) - 1);
    let mut table = any_table(random, places);
    if random.chance(50) {
        table.length = random.below(places);
    }
    Case::Common(search, table)
}
