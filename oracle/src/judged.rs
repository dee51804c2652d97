// What a record is by the layout rules of document 01 and of order 4: no
// layout, an ordinary one or a listed one. On grids of all sizes, by counting
// the lines at each pad and in each square and by gathering chains; it shares
// nothing with the search by bits of holes.rs, and the two are held together.

use crate::answers::{Pads, BLANK, HOLE, LINE, NONE, UNDECIDED};

/// What was found first: a fault, in the order of the tests, or none.
#[derive(Clone, Copy, Debug, PartialEq, Eq, PartialOrd, Ord)]
pub enum Found {
    WrongLength,
    WrongByte,
    WrongByteBetween,
    WrongCount,
    ClosedLoop,
    UnequalCodes,
    FullSquare,
    OpenCorner,
    Listed,
}

impl Found {
    /// 0 for no layout, 1 for one that the list leaves out, 2 for a listed one.
    pub fn verdict(self) -> u64 {
        match self {
            Found::Listed => 2,
            Found::FullSquare | Found::OpenCorner => 1,
            _ => 0,
        }
    }
}

/// A grid, and a record of the grid's length. A pad stands at a place whose row
/// and column are even, a unit square at one where both are odd; the edges of
/// either are its four neighbouring places.
pub struct Drawn<'a> {
    pub pads: &'a Pads,
    pub bytes: &'a [u8],
}

impl Drawn<'_> {
    fn rows(&self) -> usize {
        2 * self.pads.height - 1
    }

    fn columns(&self) -> usize {
        2 * self.pads.width - 1
    }

    /// Whether there is a line at a place; there is none off the field.
    fn line(&self, row: usize, column: usize) -> bool {
        row < self.rows()
            && column < self.columns()
            && self.bytes[row * self.columns() + column] == LINE
    }

    /// Whether there are lines to the left, right, up and down of a place.
    fn sides(&self, row: usize, column: usize) -> [bool; 4] {
        [
            self.line(row, column.wrapping_sub(1)),
            self.line(row, column + 1),
            self.line(row.wrapping_sub(1), column),
            self.line(row + 1, column),
        ]
    }

    fn count(&self, row: usize, column: usize) -> usize {
        let sides = self.sides(row, column);
        sides.into_iter().filter(|line| *line).count()
    }

    fn place_of(&self, pad: usize) -> (usize, usize) {
        (2 * (pad / self.pads.width), 2 * (pad % self.pads.width))
    }

    /// A byte that may not stand at its place.
    fn wrong_byte(&self) -> Option<Found> {
        let wrong = |(place, byte): (usize, &u8)| {
            let (row, column) = (place / self.columns(), place % self.columns());
            match (row + column) % 2 {
                1 => (*byte != LINE && *byte != NONE).then_some(Found::WrongByte),
                _ => (*byte != UNDECIDED).then_some(Found::WrongByteBetween),
            }
        };
        self.bytes.iter().enumerate().find_map(wrong)
    }

    /// A clue has one line, a hole none, a blank pad none or two.
    pub fn count_fits(&self, pad: usize) -> bool {
        let (row, column) = self.place_of(pad);
        let lines = self.count(row, column);
        match self.pads.cells[pad] {
            BLANK => lines == 0 || lines == 2,
            HOLE => lines == 0,
            _ => lines == 1,
        }
    }

    /// The pads at the other ends of a pad's lines.
    fn joined_to(&self, pad: usize) -> Vec<usize> {
        let (row, column) = self.place_of(pad);
        let [left, right, up, down] = self.sides(row, column);
        let near = [
            (left, pad.wrapping_sub(1)),
            (right, pad + 1),
            (up, pad.wrapping_sub(self.pads.width)),
            (down, pad + self.pads.width),
        ];
        let joined = near.into_iter().filter(|(line, _)| *line);
        joined.map(|(_, other)| other).collect()
    }

    /// The pads that lines join to a pad, itself among them.
    fn chain_of(&self, pad: usize, seen: &mut [bool]) -> Vec<usize> {
        let mut chain = vec![pad];
        let mut at = 0;
        seen[pad] = true;
        while at < chain.len() {
            for other in self.joined_to(chain[at]) {
                if !seen[other] {
                    seen[other] = true;
                    chain.push(other);
                }
            }
            at += 1;
        }
        chain
    }

    /// The pads of each chain; a pad without a line is in none.
    pub fn chains(&self) -> Vec<Vec<usize>> {
        let mut seen = vec![false; self.pads.cells.len()];
        let mut chains = Vec::new();
        for pad in 0..seen.len() {
            if !seen[pad] {
                chains.push(self.chain_of(pad, &mut seen));
            }
        }
        chains.retain(|chain| chain.len() > 1);
        chains
    }

    /// Where each pad has its lines, a chain without a clue is a closed loop,
    /// and any other has two clues at its ends.
    fn wrong_chain(&self, chain: &[usize]) -> Option<Found> {
        let codes = chain.iter().map(|pad| self.pads.cells[*pad]);
        let clues: Vec<i64> = codes.filter(|code| *code >= 0).collect();
        match clues[..] {
            [] => Some(Found::ClosedLoop),
            [one, other] if one == other => None,
            _ => Some(Found::UnequalCodes),
        }
    }

    fn square_fits(&self, square: usize) -> bool {
        let across = self.pads.width - 1;
        self.count(2 * (square / across) + 1, 2 * (square % across) + 1) <= 2
    }

    /// Diagonally below a pad with two lines down and to a side stands, on that
    /// side, a clue, a hole or a pad with the same two lines.
    fn corners_fit(&self, pad: usize) -> bool {
        let (row, column) = self.place_of(pad);
        let [left, right, _, down] = self.sides(row, column);
        let fits = |other: usize, side: usize| {
            let (row, column) = self.place_of(other);
            let sides = self.sides(row, column);
            self.pads.cells[other] != BLANK || (sides[side] && sides[3])
        };
        let below = pad + self.pads.width;
        (!left || !down || fits(below - 1, 0)) && (!right || !down || fits(below + 1, 1))
    }

    fn found(&self) -> Found {
        let mut all = 0..self.pads.cells.len();
        let mut squares = 0..(self.pads.height - 1) * (self.pads.width - 1);
        if let Some(wrong) = self.wrong_byte() {
            return wrong;
        }
        if !all.clone().all(|pad| self.count_fits(pad)) {
            return Found::WrongCount;
        }
        let chains = self.chains();
        if let Some(wrong) = chains.iter().find_map(|chain| self.wrong_chain(chain)) {
            return wrong;
        }
        if !squares.all(|square| self.square_fits(square)) {
            return Found::FullSquare;
        }
        if !all.all(|pad| self.corners_fit(pad)) {
            return Found::OpenCorner;
        }
        Found::Listed
    }
}

/// What a record is on an accepted grid.
pub fn found(pads: &Pads, bytes: &[u8]) -> Found {
    if bytes.len() != pads.record_length() {
        return Found::WrongLength;
    }
    Drawn { pads, bytes }.found()
}

/// The lines that are told beside a verdict: none beside 0.
pub fn lines_told(bytes: &[u8], verdict: u64) -> u64 {
    if verdict == 0 {
        return 0;
    }
    bytes.iter().filter(|byte| **byte == LINE).count() as u64
}
