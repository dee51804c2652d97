// Searches of small grids with holes, which the reference does not know. The
// layouts are found by the rules alone: every drawing is tried. How many
// boards a search visits the rules do not say; that number is the library's
// own, and limits and rooms are held beside it. And the verdict on every
// drawing of a small grid.

use crate::answers::{whole, Pads, Run, BLANK, HOLE, LINE, NONE, UNDECIDED};
use crate::chosen::{drill, widen};
use crate::library;
use crate::random::{any_pads, wired_pads, Random};

/// So many edges a grid may have at the most for every drawing to be tried: 4
/// by 4 pads have as many.
const MOST_EDGES: usize = 24;

fn edges(pads: &Pads) -> usize {
    2 * pads.height * pads.width - pads.height - pads.width
}

pub fn is_small(pads: &Pads) -> bool {
    edges(pads) <= MOST_EDGES
}

/// The bits of the edges at a pad; 0 for one that lies off the board.
#[derive(Clone, Copy, Default)]
struct Around {
    left: u32,
    right: u32,
    up: u32,
    down: u32,
}

/// A drawing is a number with a bit for each edge, set for a line.
struct Drawings<'a> {
    pads: &'a Pads,
    around: Vec<Around>,
}

impl<'a> Drawings<'a> {
    /// Of each pad the edge downward has the higher bit, and earlier pads have
    /// higher bits, so that drawings counted upward ascend by their codes.
    fn new(pads: &'a Pads) -> Self {
        let mut around = vec![Around::default(); pads.cells.len()];
        let mut bit = 1 << edges(pads);
        for pad in 0..around.len() {
            if pad / pads.width + 1 < pads.height {
                bit >>= 1;
                around[pad].down = bit;
                around[pad + pads.width].up = bit;
            }
            if pad % pads.width + 1 < pads.width {
                bit >>= 1;
                around[pad].right = bit;
                around[pad + 1].left = bit;
            }
        }
        Drawings { pads, around }
    }

    /// A clue has one line, a hole none, a blank pad none or two.
    fn degrees_fit(&self, drawing: u32) -> bool {
        self.pads.cells.iter().zip(&self.around).all(|(cell, at)| {
            let lines = drawing & (at.left | at.right | at.up | at.down);
            match (*cell, lines.count_ones()) {
                (BLANK, count) => count == 0 || count == 2,
                (HOLE, count) => count == 0,
                (_, count) => count == 1,
            }
        })
    }

    /// At most two lines in the square whose first pad this is.
    fn square_fits(&self, drawing: u32, pad: usize) -> bool {
        let at = &self.around[pad];
        if at.right == 0 || at.down == 0 {
            return true;
        }
        let (beside, below) = (&self.around[pad + 1], &self.around[pad + self.pads.width]);
        let lines = drawing & (at.right | at.down | beside.down | below.right);
        lines.count_ones() <= 2
    }

    /// Diagonally below right+down, and left+down, lies a pad that is not
    /// blank or has the same two lines.
    fn corners_fit(&self, drawing: u32, pad: usize) -> bool {
        let below = pad + self.pads.width;
        let fits = |side: fn(&Around) -> u32, diagonal: usize| {
            let has_both = |pad: usize| {
                let at = &self.around[pad];
                drawing & side(at) != 0 && drawing & at.down != 0
            };
            !has_both(pad) || self.pads.cells[diagonal] != BLANK || has_both(diagonal)
        };
        fits(|at| at.right, below + 1) && fits(|at| at.left, below - 1)
    }

    /// Along a line that has not been walked yet, to the pad at its other end.
    fn step(&self, pad: usize, rest: &mut u32) -> Option<usize> {
        let (at, width) = (&self.around[pad], self.pads.width);
        let ways = [
            (at.left, pad.wrapping_sub(1)),
            (at.right, pad + 1),
            (at.up, pad.wrapping_sub(width)),
            (at.down, pad + width),
        ];
        let (bit, next) = ways.into_iter().find(|(bit, _)| *rest & bit != 0)?;
        *rest &= !bit;
        Some(next)
    }

    /// From each clue to the other end of its chain, which has the same code;
    /// no line is left over, as one of a closed loop would be.
    fn chains_fit(&self, drawing: u32) -> bool {
        let mut rest = drawing;
        let cells = &self.pads.cells;
        let clues = (0..cells.len()).filter(|pad| cells[*pad] >= 0);
        for clue in clues {
            let mut pad = clue;
            while let Some(next) = self.step(pad, &mut rest) {
                pad = next;
            }
            if cells[pad] != cells[clue] {
                return false;
            }
        }
        rest == 0
    }

    fn is_listed(&self, drawing: u32) -> bool {
        let fits = |pad: usize| self.square_fits(drawing, pad) && self.corners_fit(drawing, pad);
        self.degrees_fit(drawing) && (0..self.around.len()).all(fits) && self.chains_fit(drawing)
    }

    /// 0 for no layout, 1 for an ordinary one that is not listed, 2 for a listed.
    fn verdict(&self, drawing: u32) -> u64 {
        let is_ordinary = self.degrees_fit(drawing) && self.chains_fit(drawing);
        is_ordinary as u64 + self.is_listed(drawing) as u64
    }

    fn put_record(&self, drawing: u32, bytes: &mut Vec<u8>) {
        let byte = |bit: u32| if drawing & bit == 0 { NONE } else { LINE };
        for row in 0..2 * self.pads.height - 1 {
            for column in 0..2 * self.pads.width - 1 {
                let at = &self.around[row / 2 * self.pads.width + column / 2];
                bytes.push(match (row % 2, column % 2) {
                    (0, 1) => byte(at.right),
                    (1, 0) => byte(at.down),
                    _ => UNDECIDED,
                });
            }
        }
    }
}

/// The listed layouts of a small grid in ascending order; visited stays 0.
fn by_rules(pads: &Pads) -> Run {
    let drawings = Drawings::new(pads);
    let mut run = Run::new();
    let all = 0..1 << edges(pads);
    for drawing in all.filter(|drawing| drawings.is_listed(*drawing)) {
        drawings.put_record(drawing, &mut run.bytes);
        run.count_layout(pads.record_length());
    }
    run
}

/// Every drawing of a small grid as a record, ascending, with its verdict.
pub fn every_drawing(pads: &Pads) -> impl Iterator<Item = (Vec<u8>, u64)> + '_ {
    let drawings = Drawings::new(pads);
    (0..1 << edges(pads)).map(move |drawing| {
        let mut bytes = Vec::with_capacity(pads.record_length());
        drawings.put_record(drawing, &mut bytes);
        (bytes, drawings.verdict(drawing))
    })
}

/// What a search told in six numbers, and of its buffer the list.
pub fn run_told(numbers: &[u64], mut bytes: Vec<u8>, length: usize) -> Run {
    let (outcome, layouts) = (numbers[2] as u8, numbers[3] as usize);
    bytes.truncate(layouts.saturating_mul(length));
    Run {
        outcome,
        layouts,
        visited: numbers[4],
        fewest: numbers[5] as usize,
        bytes,
    }
}

/// What the library's own search gives.
pub fn by_library(pads: &Pads, limit: u64, room: usize) -> Run {
    let (mut bytes, mut answer) = (vec![0; room], [0; 6]);
    let size = (pads.height, pads.width);
    library::solve(size, &pads.cells, limit, &mut bytes, &mut answer);
    run_told(&answer, bytes, pads.record_length())
}

/// How many boards the library visits, with no limit, until a layout is due
/// for which there is no room, or else until the end.
fn visited(pads: &Pads, room: usize) -> u64 {
    by_library(pads, u64::MAX, room).visited
}

/// The list by the rules, with the boards that are visited to its end.
pub fn whole_list(pads: &Pads) -> Run {
    let mut all = by_rules(pads);
    all.visited = visited(pads, all.bytes.len()).max(all.layouts as u64);
    all
}

/// The list by the rules; where the grid has no holes, it must be that of
/// `solve`, which then says how many boards are visited.
pub fn checked_list(pads: &Pads) -> Run {
    let all = whole_list(pads);
    if pads.has_hole() {
        return all;
    }
    let list = whole(pads);
    assert!(all.bytes == list.bytes, "the rules differ: {pads:?}");
    list
}

/// The beginning of the whole list that a limit and a room leave. Each layout
/// is entered as a board of its own.
pub fn beginning(pads: &Pads, all: &Run, limit: u64, room: usize) -> Run {
    let length = pads.record_length();
    let entered = |k: usize| visited(pads, k * length).max(k as u64 + 1);
    let fitting = all.layouts.min(room / length);
    let (end, outcome) = if fitting < all.layouts {
        (entered(fitting), 2)
    } else {
        (all.visited, 0)
    };
    let mut run = Run::new();
    for k in (0..fitting).take_while(|k| entered(*k) <= limit) {
        run.bytes.extend(&all.bytes[k * length..(k + 1) * length]);
        run.count_layout(length);
    }
    run.outcome = if limit < end { 1 } else { outcome };
    run.visited = limit.min(end);
    run
}

/// A grid of up to 3 by 4 or 4 by 3 pads, seldom of 4 by 4; mostly with holes,
/// at its blank pads or at any.
pub fn small_pads(random: &mut Random) -> Pads {
    let (short, long) = (2 + random.below(2), 2 + random.below(3));
    let (height, width) = match random.below(1000) {
        0 => (4, 4),
        number if number % 2 == 0 => (short, long),
        _ => (long, short),
    };
    let mut pads = if random.chance(70) {
        wired_pads(random, height, width)
    } else {
        any_pads(random, height, width)
    };
    let percent = random.choose(&[5, 15, 30, 60]);
    let only_blank = random.chance(75);
    drill(random, &mut pads.cells, percent, only_blank);
    widen(random, &mut pads);
    pads
}
