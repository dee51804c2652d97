// The slow walk: what it must give, what the library gives, and walks chosen by
// a seed. The walk is written here once more from the order's words: codes are
// given to the pads one by one, each is counted, and a full drawing is tested by
// the rules of judged.rs. Nothing is asked of the library for it. Where the
// library's walk is not spent, its search of the same grid in the same room is
// held beside it.

use crate::answers::{Pads, Run, BLANK, HOLE, LINE, NONE, UNDECIDED};
use crate::cases::{Case, Search};
use crate::chosen::{any_code, any_fill, any_search, declined_search, drill, search_pads, size_of};
use crate::common::{FEW_BOARDS, WIDE_LIMITS};
use crate::drawn::{drawn, drilled_pads, tiny_pads};
use crate::expected::{
    board_pads, grid_refusal, lent_bytes, run_by, search_answer, solved_by_library, Answer,
};
use crate::grids::ROOM;
use crate::holes::{checked_list, is_small};
use crate::judged::{found, Found};
use crate::library;
use crate::pairs::{any_limit, any_room, highest_limit};
use crate::random::Random;

/// Whether a code has no line off the board.
fn is_on_board(pads: &Pads, pad: usize, code: u8) -> bool {
    let has_right = pad % pads.width + 1 < pads.width;
    let has_down = pad / pads.width + 1 < pads.height;
    (code % 2 == 0 || has_right) && (code / 2 == 0 || has_down)
}

/// How many codes a walk tries that ends complete, or the largest number where
/// that is larger: at each pad one for each beginning of a drawing up to it.
pub fn all_codes(pads: &Pads) -> u64 {
    let (mut all, mut beginnings) = (0_u64, 1_u64);
    for pad in 0..pads.cells.len() {
        let codes = (0..4).filter(|code| is_on_board(pads, pad, *code)).count();
        beginnings = beginnings.saturating_mul(codes as u64);
        all = all.saturating_add(beginnings);
    }
    all
}

/// A walk, as far as it has come: the codes of the first pads, the record of the
/// drawing, the run, with the tried codes for visited, and how many codes had been
/// tried at each layout.
struct Walk<'a> {
    pads: &'a Pads,
    limit: u64,
    room: usize,
    given: Vec<u8>,
    drawing: Vec<u8>,
    run: Run,
    found: Vec<u64>,
}

impl<'a> Walk<'a> {
    /// The whole walk.
    fn new(pads: &'a Pads, limit: u64, room: usize) -> Self {
        let mut walk = Walk {
            pads,
            limit,
            room,
            given: Vec::new(),
            drawing: vec![UNDECIDED; pads.record_length()],
            run: Run::new(),
            found: Vec::new(),
        };
        walk.go();
        walk
    }

    fn is_full_drawing(&self) -> bool {
        self.given.len() == self.pads.cells.len()
    }

    fn go(&mut self) {
        while let Some(code) = self.next_code() {
            if self.run.visited == self.limit {
                self.run.outcome = 1;
                return;
            }
            self.run.visited += 1;
            self.give(code);
            if self.is_full_drawing() && found(self.pads, &self.drawing) == Found::Listed {
                self.put_layout();
            }
            if self.run.outcome != 0 {
                return;
            }
        }
    }

    /// The code that is due: the first one for the next pad. Where every pad has
    /// one, codes are taken back from the last pad on, up to one after which there
    /// is another.
    fn next_code(&mut self) -> Option<u8> {
        if !self.is_full_drawing() {
            return Some(0);
        }
        while let Some(code) = self.given.pop() {
            let pad = self.given.len();
            let next = (code + 1..4).find(|next| is_on_board(self.pads, pad, *next));
            if next.is_some() {
                return next;
            }
        }
        None
    }

    /// A code for the next pad, and its edges in the record.
    fn give(&mut self, code: u8) {
        let (pad, width) = (self.given.len(), self.pads.width);
        let columns = 2 * width - 1;
        let place = 2 * (pad / width) * columns + 2 * (pad % width);
        for (edge, bit) in [(place + 1, 1), (place + columns, 2)] {
            if is_on_board(self.pads, pad, bit) {
                self.drawing[edge] = if code & bit == 0 { NONE } else { LINE };
            }
        }
        self.given.push(code);
    }

    /// A layout is due.
    fn put_layout(&mut self) {
        let length = self.drawing.len();
        self.found.push(self.run.visited);
        if self.room - self.run.bytes.len() < length {
            self.run.outcome = 2;
            return;
        }
        self.run.bytes.extend(&self.drawing);
        self.run.count_layout(length);
    }

    /// A limit about the places where the walk ends, or where a layout is found.
    fn any_limit(&self, random: &mut Random) -> u64 {
        match self.found.is_empty() || random.chance(50) {
            true => any_limit(random, &self.run),
            false => random.choose(&self.found) - 1 + random.below(3) as u64,
        }
    }

    /// A limit and a room about these places.
    fn any_stop(&self, random: &mut Random) -> (u64, usize) {
        let room = any_room(random, &self.run, self.pads.record_length());
        let highest = highest_limit(&self.run, room);
        (self.any_limit(random).min(highest), room)
    }

    /// A walk with this limit and room, and so many more about these places.
    fn cases(&self, random: &mut Random, first: (u64, usize), more: usize) -> Vec<Case> {
        let mut stops = vec![first];
        stops.extend((0..more).map(|_| self.any_stop(random)));
        let case = |(limit, room)| {
            let search = any_search(random, self.pads, limit, room);
            Case::Walk(search, any_fill(random))
        };
        stops.into_iter().map(case).collect()
    }
}

pub fn expected_walk(search: &Search, fill: u64) -> Answer {
    let refusal = grid_refusal(&search.grid);
    let run = match refusal {
        (0, 0) => Walk::new(&board_pads(&search.grid), search.limit, search.room).run,
        _ => Run::new(),
    };
    let [before] = lent_bytes(fill, [search.room]);
    search_answer(refusal, &run, search.lent, before)
}

/// What a run that was not spent tells but for its count: number, index,
/// outcome, layouts and fewest.
fn told(answer: &Answer) -> Option<[u64; 5]> {
    match answer.numbers[..] {
        [number, index, outcome, layouts, _, fewest, ..] if outcome != 1 => {
            Some([number, index, outcome, layouts, fewest])
        }
        _ => None,
    }
}

/// Whether the library's search of the same grid, in the same room, has another
/// list than its walk, where neither is spent. On a small grid, where a walk can
/// end complete, the search has no limit, and is never spent.
fn broken_words(search: &Search, before: Vec<u8>, walk: &Answer) -> Vec<String> {
    let Some(walk_told) = told(walk) else {
        return Vec::new();
    };
    let limit = match is_small(&board_pads(&search.grid)) {
        true => u64::MAX,
        false => FEW_BOARDS,
    };
    let search = Search {
        limit,
        ..search.clone()
    };
    let beside = solved_by_library(&search, before);
    match told(&beside) {
        Some(told) if told != walk_told => {
            vec![format!(
                "the engines differ: {walk_told:?}, the search {told:?}"
            )]
        }
        Some(_) if beside.bytes != walk.bytes => vec!["the engines' buffers differ".to_string()],
        _ => Vec::new(),
    }
}

pub fn walk_by_library(search: &Search, fill: u64) -> Answer {
    let [before] = lent_bytes(fill, [search.room]);
    let answer = run_by(library::walk, search, before.clone());
    let broken = broken_words(search, before, &answer);
    Answer { broken, ..answer }
}

/// One code at nearly all pads, so that there may be several layouts.
fn alike_pads(random: &mut Random, (height, width): (usize, usize)) -> Pads {
    let code = any_code(random);
    let others = random.choose(&[0, 10, 30]);
    let mut cell = || match random.chance(others) {
        true => random.choose(&[BLANK, BLANK, HOLE]),
        false => code,
    };
    Pads {
        height,
        width,
        cells: (0..height * width).map(|_| cell()).collect(),
    }
}

/// Holes inside and blank pads around them: lines along the rim keep every rule but
/// for the one against loops.
fn ringed_pads((height, width): (usize, usize)) -> Pads {
    let is_inside = |at: usize, side: usize| at > 0 && at + 1 < side;
    let cell = |pad: usize| match is_inside(pad / width, height) && is_inside(pad % width, width) {
        true => HOLE,
        false => BLANK,
    };
    Pads {
        height,
        width,
        cells: (0..height * width).map(cell).collect(),
    }
}

/// A grid of any kind that fits the size.
fn some_pads(random: &mut Random, size: (usize, usize)) -> Pads {
    match random.below(6) {
        0 | 1 => alike_pads(random, size),
        2 if size.0.min(size.1) > 2 => ringed_pads(size),
        _ => drilled_pads(random, size),
    }
}

/// A grid on which every code can be tried: mostly of 4 to 6 pads, with up to 7
/// edges; seldom with 13, very seldom with 17.
fn small_pads(random: &mut Random) -> Pads {
    let size = match random.below(1000) {
        0 => random.choose(&[(3, 4), (4, 3)]),
        1..=20 => random.choose(&[(2, 5), (5, 2)]),
        21..=120 => (3, 3),
        121..=270 => random.choose(&[(2, 4), (4, 2)]),
        _ => random.choose(&[(2, 2), (2, 3), (3, 2)]),
    };
    some_pads(random, size)
}

/// A grid with blank pads only, and holes at some of them: its one layout is the
/// first full drawing.
fn empty_pads(random: &mut Random, (height, width): (usize, usize)) -> Pads {
    let mut cells = vec![BLANK; height * width];
    let percent = random.choose(&[0, 0, 10, 50, 100]);
    drill(random, &mut cells, percent, true);
    Pads {
        height,
        width,
        cells,
    }
}

/// Such a grid with a small one in its last corner, where the walk comes to all
/// codes first.
fn late_pads(random: &mut Random, (height, width): (usize, usize)) -> Pads {
    let mut pads = empty_pads(random, (height, width));
    let columns = 2 + random.below(4.min(width - 1));
    let rows = match columns {
        2 => 2,
        _ => 1 + random.below(3.min(height)),
    };
    let corner = some_pads(random, (rows, columns));
    for (index, cell) in corner.cells.into_iter().enumerate() {
        let row = height - rows + index / columns;
        let column = width - columns + index % columns;
        pads.cells[row * width + column] = cell;
    }
    pads
}

/// A grid of any size.
fn large_pads(random: &mut Random, turn: usize) -> Pads {
    let size = size_of(turn / 4);
    match turn % 4 {
        0 => empty_pads(random, size),
        1 => drawn(random, size).0,
        2 => search_pads(random, turn / 4),
        _ => late_pads(random, size),
    }
}

/// How many codes are tried on a grid that is too large for all of them.
fn some_codes(random: &mut Random) -> u64 {
    let most = match random.below(500) {
        0 => 100000,
        1..=25 => 5000,
        _ => 1000,
    };
    random.below(most) as u64
}

/// The walk through all codes of a small grid, with a limit and a room that just
/// suffice or with more, and walks about the places where it ends. Its list is also
/// that of the rules by bits and, where there are no holes, that of the reference.
fn small_walks(random: &mut Random, pads: &Pads, more: usize) -> Vec<Case> {
    let all = Walk::new(pads, u64::MAX, usize::MAX);
    let tried = all.run.visited;
    assert!(tried == all_codes(pads), "the codes differ: {pads:?}");
    let list = checked_list(pads);
    assert!(all.run.bytes == list.bytes, "the lists differ: {pads:?}");
    let wide = random.choose(&WIDE_LIMITS);
    let beyond = random.below(2 * pads.record_length());
    let limit = random.choose(&[tried, wide]);
    let room = all.run.bytes.len() + random.choose(&[0, beyond]);
    all.cases(random, (limit, room), more)
}

/// A walk on a grid of any size, which is mostly spent, and walks about the places
/// where it ends.
fn large_walks(random: &mut Random, pads: &Pads, more: usize) -> Vec<Case> {
    let limit = some_codes(random);
    let list = Walk::new(pads, limit, ROOM);
    let room = list.run.bytes.len() + random.below(2000);
    list.cases(random, (limit, room), more)
}

/// The walks of one turn: on a tiny grid, as long as there are any, on a small
/// one, on one of any size, and on one that is mostly declined.
pub fn walks_of_turn(random: &mut Random, turn: usize) -> Vec<Case> {
    let mut walks = Vec::new();
    if let Some(pads) = tiny_pads(turn) {
        walks.extend(small_walks(random, &pads, 2));
    }
    let pads = small_pads(random);
    walks.extend(small_walks(random, &pads, 4));
    let pads = large_pads(random, turn);
    walks.extend(large_walks(random, &pads, 2));
    walks.push(Case::Walk(declined_search(random), any_fill(random)));
    walks
}
