// What the Rust reference answers: calls on a board replayed one by one, and
// whole searches. Everything is asked of the reference's own public calls;
// only the limit and the room of a search are added, as document 01 has them.
// The reference knows no holes, and is never asked about a grid that has one.
// It knows codes to 2147483646 only: where a grid has wider ones, it is asked
// about the same grid with other names for its codes. Of two codes only matters
// whether they are equal, so all answers are the same, but for the names in ends.

use reference::board;
use reference::solver::solve;
use reference::{EdgeState, Problem};

pub const UNDECIDED: u8 = 0;
pub const LINE: u8 = 1;
pub const NONE: u8 = 2;

pub const BLANK: i64 = -1;
pub const HOLE: i64 = -2;

/// The largest code that a grid may have, and the largest that the reference
/// can be asked.
pub const LARGEST_CODE: i64 = 4294967295;
pub const LARGEST_ASKED: i64 = 2147483646;

/// The fewest lines of a run that put no layout in its buffer.
pub const NO_LAYOUT: usize = 481;

/// A grid of pads, each cell BLANK, HOLE or a code.
#[derive(Clone, Debug, PartialEq, Eq)]
pub struct Pads {
    pub height: usize,
    pub width: usize,
    pub cells: Vec<i64>,
}

impl Pads {
    pub fn record_length(&self) -> usize {
        (2 * self.height - 1) * (2 * self.width - 1)
    }

    pub fn has_hole(&self) -> bool {
        self.cells.contains(&HOLE)
    }

    /// The codes, each once and ascending.
    pub fn codes(&self) -> Vec<i64> {
        let mut codes = self.cells.clone();
        codes.retain(|cell| *cell >= 0);
        codes.sort();
        codes.dedup();
        codes
    }

    /// The codes where some of them cannot be asked; a code's name is then its
    /// place among them. None where each code is its own name.
    fn renamed(&self) -> Vec<i64> {
        let mut codes = self.codes();
        if codes.last() <= Some(&LARGEST_ASKED) {
            codes.clear();
        }
        codes
    }

    fn problem(&self) -> Problem {
        assert!(!self.has_hole(), "the reference knows no holes: {self:?}");
        let renamed = self.renamed();
        let mut problem = Problem::new(self.height, self.width, None);
        for (index, cell) in self.cells.iter().enumerate() {
            if *cell >= 0 {
                let place = renamed.binary_search(cell);
                let name = place.map_or(*cell, |place| place as i64);
                let name = i32::try_from(name).expect("a code that can be asked");
                problem[(index / self.width, index % self.width)] = Some(name);
            }
        }
        problem
    }
}

/// A board of the reference, and the codes of its grid that it has other names
/// for.
pub struct Board {
    asked: board::Board,
    renamed: Vec<i64>,
}

impl Board {
    pub fn new(pads: &Pads) -> Self {
        Board {
            asked: board::Board::new(pads.problem()),
            renamed: pads.renamed(),
        }
    }

    pub fn inconsistent(&self) -> bool {
        self.asked.inconsistent()
    }

    /// An end of a pad; that of a clue tells the grid's own code.
    fn end(&self, pad: usize) -> i64 {
        let end = self.asked.end(pad) as i64;
        let name = usize::try_from(-end - 2).ok();
        let code = name.and_then(|name| self.renamed.get(name));
        code.map_or(end, |code| -code - 2)
    }
}

/// One call on a board; a place is a row and a column of the field.
#[derive(Clone, Copy, Debug, PartialEq, Eq)]
pub enum Call {
    Decide(usize, usize, u8),
    Read(usize, usize),
    Checkpoint,
    Undo,
}

/// Edges as a record, ends by pad, and the flag.
#[derive(Clone, Debug, Default, PartialEq, Eq)]
pub struct State {
    pub edges: Vec<u8>,
    pub ends: Vec<i64>,
    pub flag: bool,
}

pub fn byte_of(state: EdgeState) -> u8 {
    match state {
        EdgeState::Undecided => UNDECIDED,
        EdgeState::Line => LINE,
        EdgeState::NoLine => NONE,
    }
}

pub fn state_of(byte: u8) -> EdgeState {
    match byte {
        LINE => EdgeState::Line,
        NONE => EdgeState::NoLine,
        _ => EdgeState::Undecided,
    }
}

/// Makes one call. The answer is the flag for a decision, the edge's byte for
/// a reading, and 0 for a checkpoint and an undo, which answer nothing.
pub fn make_call(board: &mut Board, call: Call) -> u8 {
    let board = &mut board.asked;
    match call {
        Call::Decide(row, column, state) => board.decide_edge(row, column, state_of(state)) as u8,
        Call::Read(row, column) => byte_of(board.get_edge(row, column)),
        Call::Checkpoint => {
            board.add_checkpoint();
            0
        }
        Call::Undo => {
            board.undo();
            0
        }
    }
}

/// Writes the board's edges into `record`, row by row of the field.
fn write_record(board: &board::Board, record: &mut [u8]) {
    let columns = 2 * board.width() - 1;
    for (place, byte) in record.iter_mut().enumerate() {
        let (row, column) = (place / columns, place % columns);
        *byte = if row % 2 == column % 2 {
            UNDECIDED
        } else {
            byte_of(board.get_edge(row, column))
        };
    }
}

pub fn read_state(board: &Board, state: &mut State) {
    let (height, width) = (board.asked.height(), board.asked.width());
    state
        .edges
        .resize((2 * height - 1) * (2 * width - 1), UNDECIDED);
    write_record(&board.asked, &mut state.edges);
    state.ends.clear();
    state
        .ends
        .extend((0..height * width).map(|pad| board.end(pad)));
    state.flag = board.inconsistent();
}

/// Makes the calls on a fresh board; the answer and the state after each.
pub fn replay(pads: &Pads, calls: &[Call]) -> Vec<(u8, State)> {
    let mut board = Board::new(pads);
    let mut answers = Vec::new();
    for call in calls {
        let answer = make_call(&mut board, *call);
        let mut state = State::default();
        read_state(&board, &mut state);
        answers.push((answer, state));
    }
    answers
}

/// What a search gives: outcome 0 complete, 1 spent, 2 full; `bytes` holds
/// the records, one behind the other.
#[derive(Clone, Debug, PartialEq, Eq)]
pub struct Run {
    pub outcome: u8,
    pub layouts: usize,
    pub visited: u64,
    pub fewest: usize,
    pub bytes: Vec<u8>,
}

impl Run {
    pub fn new() -> Self {
        Run {
            outcome: 0,
            layouts: 0,
            visited: 0,
            fewest: NO_LAYOUT,
            bytes: Vec::new(),
        }
    }

    /// Counts the layout whose record is the last of the bytes.
    pub fn count_layout(&mut self, length: usize) {
        let start = self.bytes.len() - length;
        let lines = self.bytes[start..]
            .iter()
            .filter(|byte| **byte == LINE)
            .count();
        self.layouts += 1;
        self.fewest = self.fewest.min(lines);
    }
}

/// The reference's `solve`, with no limit and no end of room.
pub fn whole(pads: &Pads) -> Run {
    let result = solve(pads.problem());
    let answers = result.answers();
    let mut run = Run::new();
    run.visited = result.stats().visited_boards() as u64;
    for index in 0..answers.len() {
        for row in 0..2 * pads.height - 1 {
            for column in 0..2 * pads.width - 1 {
                run.bytes.push(if row % 2 == column % 2 {
                    UNDECIDED
                } else {
                    byte_of(answers[index].get(row, column))
                });
            }
        }
        run.count_layout(pads.record_length());
    }
    run
}

/// The reference's `backtrack` written again over its public `Board`, with a
/// limit of visited boards and a room in bytes.
pub fn limited(pads: &Pads, limit: u64, room: usize) -> Run {
    let mut search = Search {
        board: board::Board::new(pads.problem()),
        limit,
        room,
        length: pads.record_length(),
        run: Run::new(),
    };
    search.backtrack(0, 0);
    search.run
}

struct Search {
    board: board::Board,
    limit: u64,
    room: usize,
    length: usize,
    run: Run,
}

impl Search {
    fn next_pad(&self, mut y: usize, mut x: usize) -> (usize, usize) {
        while y < self.board.height() - 1 {
            if self.board.get_edge(y * 2, x * 2 + 1) == EdgeState::Undecided {
                return (y, x);
            }
            if x == self.board.width() - 2 {
                y += 1;
                x = 0;
            } else {
                x += 1;
            }
        }
        (y, x)
    }

    fn put_layout(&mut self) {
        let start = self.run.bytes.len();
        if self.room - start < self.length {
            self.run.outcome = 2;
            return;
        }
        self.run.bytes.resize(start + self.length, UNDECIDED);
        write_record(&self.board, &mut self.run.bytes[start..]);
        self.run.count_layout(self.length);
    }

    fn line_at(&self, row: usize, column: usize) -> usize {
        (self.board.get_edge(row, column) == EdgeState::Line) as usize
    }

    fn backtrack(&mut self, y: usize, x: usize) {
        if self.run.visited == self.limit {
            self.run.outcome = 1;
            return;
        }
        self.run.visited += 1;
        if y == self.board.height() - 1 {
            self.put_layout();
            return;
        }
        let degree = self.degree_so_far(y, x);
        for m in 0..4 {
            let (right, down) = (m % 2, m / 2);
            let total = degree + right + down;
            if total != 0 && total != 2 {
                continue;
            }
            self.try_edges(y, x, right, down);
            if self.run.outcome != 0 {
                return;
            }
        }
    }

    fn degree_so_far(&self, y: usize, x: usize) -> usize {
        let mut degree = self.board.has_clue(y, x) as usize;
        if x > 0 {
            degree += self.line_at(y * 2, x * 2 - 1);
        }
        if y > 0 {
            degree += self.line_at(y * 2 - 1, x * 2);
        }
        degree
    }

    fn try_edges(&mut self, y: usize, x: usize, right: usize, down: usize) {
        self.board.add_checkpoint();
        self.board
            .decide_edge(y * 2, x * 2 + 1, line_or_none(right));
        self.board.decide_edge(y * 2 + 1, x * 2, line_or_none(down));
        if !self.board.inconsistent() {
            let (next_y, next_x) = self.next_pad(y, x);
            self.backtrack(next_y, next_x);
        }
        self.board.undo();
    }
}

fn line_or_none(line: usize) -> EdgeState {
    if line == 1 {
        EdgeState::Line
    } else {
        EdgeState::NoLine
    }
}
