// What a case must give: by the reference where the call is accepted, by the
// numbers of the documents where it is declined, for a search of a grid with
// holes by the rules alone (holes.rs), for a file by the reader of routes.rs,
// for a packed slice by that of packed.rs, for a grid that is written by Rust's
// own digits, for a drawing by the rules (judged.rs), and for a table of common
// copper and for a pair of runs by such searches (common.rs, pairs.rs); for a slow
// walk by one written again (walks.rs). And what the library gives for the same
// case. A text that was written is read back, and a grid that was read is written
// back.

use crate::answers::{
    limited, make_call, read_state, whole, Board, Call, Pads, Run, State, BLANK, HOLE, LARGEST_CODE,
};
use crate::cases::{Asked, Case, Given, Reading, Search};
use crate::chosen::given;
use crate::common::{common_by_library, expected_common};
use crate::judged::{found, lines_told};
use crate::packed::{expected_packed, packed_by_library, slice_of};
use crate::pairs::{expected_pair, pair_by_library};
use crate::random::Random;
use crate::walks::{expected_walk, walk_by_library};
use crate::{holes, library, routes};

/// What fills each lent slice before a call, so that a stray store shows.
pub const FILL: u8 = 7;

/// So many bytes lie behind a slice that `lent_bytes` gives, and are compared
/// with it.
pub const BEHIND: usize = 8;

const MOST_CHECKPOINTS: usize = 256;

/// What the call returned, and every lent number and byte after it.
#[derive(Clone, Debug, Default, PartialEq, Eq)]
pub struct Answer {
    pub returned: usize,
    pub numbers: Vec<u64>,
    pub signed: Vec<i64>,
    pub cells: Vec<i64>,
    pub bytes: Vec<u8>,
    pub table: Vec<u8>,
    /// The answers of the calls that follow: what was written is read back, what
    /// was read is written back, or the grid is searched again.
    pub then: Vec<Answer>,
    /// The words of an order that two runs, or two engines, break; there must be
    /// none.
    pub broken: Vec<String>,
}

/// The refusals 7, 8 and 9 of a grid, with the index of the first bad cell.
pub fn grid_refusal(grid: &Given) -> (u64, u64) {
    let (height, width) = grid.size;
    if !(2..=16).contains(&height) || !(2..=16).contains(&width) {
        return (7, 0);
    }
    if grid.cells.len() != height * width {
        return (8, 0);
    }
    let bad = |cell: &i64| *cell < HOLE || *cell > LARGEST_CODE;
    grid.cells
        .iter()
        .position(bad)
        .map_or((0, 0), |index| (9, index as u64))
}

/// The grid of a board: the given one, or 2 by 2 blank where it is declined.
pub fn board_pads(grid: &Given) -> Pads {
    if grid_refusal(grid) != (0, 0) {
        return Pads {
            height: 2,
            width: 2,
            cells: vec![BLANK; 4],
        };
    }
    Pads {
        height: grid.size.0,
        width: grid.size.1,
        cells: grid.cells.clone(),
    }
}

/// The numbers that the calls of a board case write.
pub fn board_room(grid: &Given, calls: usize) -> usize {
    let pads = board_pads(grid);
    calls * (3 + pads.record_length() + pads.cells.len())
}

/// A board of the reference with the refusals of the documents.
struct Guarded {
    refusal: (u64, u64),
    pads: Pads,
    board: Board,
    standing: usize,
}

impl Guarded {
    fn new(grid: &Given) -> Self {
        let pads = board_pads(grid);
        Guarded {
            refusal: grid_refusal(grid),
            board: Board::new(&pads),
            pads,
            standing: 0,
        }
    }

    fn is_edge(&self, row: u64, column: u64) -> bool {
        let rows = 2 * self.pads.height as u64 - 1;
        let columns = 2 * self.pads.width as u64 - 1;
        row < rows && column < columns && row % 2 != column % 2
    }

    fn accepted(&mut self, call: Call) -> (u64, u64) {
        (0, make_call(&mut self.board, call) as u64)
    }

    /// Number and answer of one call.
    fn make(&mut self, asked: Asked) -> (u64, u64) {
        match asked {
            Asked::Fresh => {
                self.board = Board::new(&self.pads);
                self.standing = 0;
                self.refusal
            }
            Asked::Decide(row, column, _) | Asked::Read(row, column)
                if !self.is_edge(row, column) =>
            {
                (10, 0)
            }
            Asked::Decide(_, _, state) if state != 1 && state != 2 => (11, 0),
            Asked::Decide(row, column, state) => {
                self.accepted(Call::Decide(row as usize, column as usize, state as u8))
            }
            Asked::Read(row, column) => self.accepted(Call::Read(row as usize, column as usize)),
            Asked::Checkpoint if self.standing == MOST_CHECKPOINTS => (12, 0),
            Asked::Checkpoint => {
                self.standing += 1;
                self.accepted(Call::Checkpoint)
            }
            Asked::Undo => {
                self.standing = self.standing.saturating_sub(1);
                self.accepted(Call::Undo)
            }
        }
    }
}

fn expected_board(grid: &Given, lent: usize, calls: &[Asked]) -> Answer {
    let mut answer = Answer::default();
    if board_room(grid, calls.len()) <= lent {
        answer.signed.reserve(lent);
        let mut board = Guarded::new(grid);
        let mut state = State::default();
        for call in calls {
            let (number, given) = board.make(*call);
            read_state(&board.board, &mut state);
            let head = [number as i64, given as i64, state.flag as i64];
            answer.signed.extend(head);
            let edges = state.edges.iter().map(|byte| *byte as i64);
            answer.signed.extend(edges);
            answer.signed.extend(&state.ends);
        }
    }
    answer.returned = answer.signed.len();
    answer.signed.resize(lent, FILL as i64);
    answer
}

/// What stands in slices of these lengths before a call, and behind them: bytes
/// that are not 0, in every second case 1 to 3 only, as in a layout or a table.
pub fn lent_bytes<const SLICES: usize>(fill: u64, lengths: [usize; SLICES]) -> [Vec<u8>; SLICES] {
    let mut random = Random::new(fill);
    let byte = |any: u8| match fill % 2 {
        0 => 1 + any % 3,
        _ => any.max(1),
    };
    lengths.map(|length| {
        let mut bytes = Vec::with_capacity(length + 2 * BEHIND);
        while bytes.len() < length + BEHIND {
            bytes.extend(random.next().to_le_bytes().map(byte));
        }
        bytes.truncate(length + BEHIND);
        bytes
    })
}

/// Bytes written over the beginning of what stood there before.
pub fn put_bytes(before: &mut [u8], bytes: &[u8]) {
    before[..bytes.len()].copy_from_slice(bytes);
}

/// The answer of a search whose run is known, in a buffer that held `before`.
pub fn search_answer(refusal: (u64, u64), run: &Run, lent: usize, before: Vec<u8>) -> Answer {
    let mut answer = Answer {
        bytes: before,
        ..Answer::default()
    };
    if lent >= 6 {
        answer.returned = 6;
        answer.numbers = vec![
            refusal.0,
            refusal.1,
            run.outcome as u64,
            run.layouts as u64,
            run.visited,
            run.fewest as u64,
        ];
        put_bytes(&mut answer.bytes, &run.bytes);
    }
    answer.numbers.resize(lent, FILL as u64);
    answer
}

/// What a search gives: of a declined grid nothing; of one with holes by the
/// rules, and where it is too large for that, by the library's own search.
pub fn expected_run(search: &Search) -> Run {
    let (limit, room) = (search.limit, search.room);
    if grid_refusal(&search.grid) != (0, 0) {
        return Run::new();
    }
    let pads = board_pads(&search.grid);
    if !pads.has_hole() {
        let run = limited(&pads, limit, room);
        if run.outcome == 0 {
            assert!(run == whole(&pads), "backtrack written again differs");
        }
        return run;
    }
    if !holes::is_small(&pads) {
        return holes::by_library(&pads, limit, room);
    }
    holes::beginning(&pads, &holes::whole_list(&pads), limit, room)
}

fn expected_search(search: &Search) -> Answer {
    let (refusal, run) = (grid_refusal(&search.grid), expected_run(search));
    search_answer(refusal, &run, search.lent, vec![FILL; search.room])
}

fn expected_record(
    size: (usize, usize),
    lent: usize,
    asked: (usize, usize),
    room: usize,
) -> Answer {
    let mut answer = Answer::default();
    if lent >= 2 {
        let (height, width) = size;
        let (count, k) = asked;
        let sized = (2..=16).contains(&height) && (2..=16).contains(&width);
        let length = if sized {
            (2 * height - 1) * (2 * width - 1)
        } else {
            1
        };
        let end = (k as u128 + 1) * length as u128;
        let there = sized && k < count && end <= room as u128;
        answer.returned = 2;
        answer.numbers = if there {
            vec![(k * length) as u64, length as u64]
        } else {
            vec![0, 0]
        };
    }
    answer.numbers.resize(lent, FILL as u64);
    answer
}

/// The answer of a read whose grid or refusal is known.
fn read_answer(
    read: Result<Pads, (usize, usize, usize)>,
    lent: usize,
    cells_lent: usize,
) -> Answer {
    let mut answer = Answer::default();
    if lent >= 5 && cells_lent >= 256 {
        answer.returned = 5;
        match read {
            Ok(pads) => {
                answer.numbers = vec![0, 0, 0, pads.height as u64, pads.width as u64];
                answer.cells = pads.cells;
            }
            Err((number, line, field)) => {
                answer.numbers = vec![number as u64, line as u64, field as u64, 0, 0];
            }
        }
        answer.cells.resize(256, BLANK);
    }
    answer.numbers.resize(lent, FILL as u64);
    answer.cells.resize(cells_lent, FILL as i64);
    answer
}

/// The answer of a write whose refusal and text are known.
fn write_answer(refusal: (u64, u64), text: &[u8], lent: usize, room: usize) -> Answer {
    let mut answer = Answer::default();
    if lent >= 3 {
        answer.returned = 3;
        answer.numbers = vec![refusal.0, refusal.1, text.len() as u64];
        answer.bytes = text.to_vec();
    }
    answer.numbers.resize(lent, FILL as u64);
    answer.bytes.resize(room, FILL);
    answer
}

/// The answer of a reading whose grid or refusal is known, and of the calls that
/// follow where a grid is told.
pub fn reading_answer(
    reading: &Reading,
    read: Result<Pads, (usize, usize, usize)>,
    then: impl Fn(Given) -> Vec<Answer>,
) -> Answer {
    let grid = read.as_ref().ok().map(given);
    let mut answer = read_answer(read, reading.lent, reading.cells_lent);
    if let (Some(grid), 5) = (grid, answer.returned) {
        answer.then = then(grid);
    }
    answer
}

/// What follows a file: its grid is written back, and where that has no holes,
/// the slice of its codes is read.
fn after_file(grid: &Given, written: Answer, packed: impl Fn() -> Answer) -> Vec<Answer> {
    match board_pads(grid).has_hole() {
        true => vec![written],
        false => vec![written, packed()],
    }
}

/// A grid that was read must be written back as the file itself, in a room as
/// long as the file, and must be the one that the slice gives.
fn expected_file(reading: &Reading) -> Answer {
    let bytes = &reading.bytes;
    reading_answer(reading, routes::read(bytes), |grid| {
        let written = write_answer((0, 0), bytes, 3, bytes.len());
        let packed = || read_answer(Ok(board_pads(&grid)), 5, 256);
        after_file(&grid, written, packed)
    })
}

/// The text of a grid, its codes as `digits` gives them, its blank pads empty,
/// its holes as `#`.
pub fn grid_text(grid: &Given, mut digits: impl FnMut(i64) -> String) -> String {
    let (height, width) = grid.size;
    let mut text = format!("{height},{width}\n");
    for (index, cell) in grid.cells.iter().enumerate() {
        match *cell {
            BLANK => {}
            HOLE => text.push('#'),
            code => text += &digits(code),
        }
        let last = (index + 1) % width == 0;
        text.push(if last { '\n' } else { ',' });
    }
    text
}

/// The text that must be written; empty where the grid is declined.
pub fn written_text(grid: &Given) -> String {
    if grid_refusal(grid) != (0, 0) {
        return String::new();
    }
    grid_text(grid, |code| code.to_string())
}

/// A text that was written must give the grid when it is read back, by the
/// library and by the reader of routes.rs.
pub fn expected_write(grid: &Given, lent: usize, room: usize) -> Answer {
    let text = written_text(grid);
    if text.len() > room {
        return write_answer((14, 0), &[], lent, room);
    }
    let refusal = grid_refusal(grid);
    let mut answer = write_answer(refusal, text.as_bytes(), lent, room);
    if answer.returned > 0 && refusal == (0, 0) {
        answer.then = vec![read_answer(Ok(board_pads(grid)), 5, 256); 2];
    }
    answer
}

/// The answer to a record whose verdict is known.
pub fn judge_answer(refusal: (u64, u64), verdict: u64, bytes: &[u8], lent: usize) -> Answer {
    let mut answer = Answer::default();
    if lent >= 4 {
        answer.returned = 4;
        answer.numbers = vec![refusal.0, refusal.1, verdict, lines_told(bytes, verdict)];
    }
    answer.numbers.resize(lent, FILL as u64);
    answer
}

/// The grid's refusals come first, beside a 0.
fn expected_judge(grid: &Given, lent: usize, bytes: &[u8]) -> Answer {
    let refusal = grid_refusal(grid);
    let verdict = match refusal {
        (0, 0) => found(&board_pads(grid), bytes).verdict(),
        _ => 0,
    };
    judge_answer(refusal, verdict, bytes, lent)
}

/// Whether it is known what the case must give. The reference knows no holes:
/// of a board with holes it is not, of a search only where the grid is small.
/// A table and a pair are held beside the library's own search where nothing else
/// is known.
pub fn is_known(case: &Case) -> bool {
    match case {
        Case::Board { grid, .. } => !board_pads(grid).has_hole(),
        Case::Search(search) => {
            let pads = board_pads(&search.grid);
            !pads.has_hole() || holes::is_small(&pads)
        }
        _ => true,
    }
}

pub fn expected(case: &Case) -> Answer {
    match case {
        Case::Board { grid, lent, calls } => expected_board(grid, *lent, calls),
        Case::Search(search) => expected_search(search),
        Case::Record {
            size,
            lent,
            count,
            k,
            room,
        } => expected_record(*size, *lent, (*count, *k), *room),
        Case::File(reading) => expected_file(reading),
        Case::Packed(reading) => expected_packed(reading),
        Case::Write { grid, lent, room } => expected_write(grid, *lent, *room),
        Case::Judge { grid, lent, bytes } => expected_judge(grid, *lent, bytes),
        Case::Common(search, table) => expected_common(search, *table),
        Case::Pair(search, again) => expected_pair(search, *again),
        Case::Walk(search, fill) => expected_walk(search, *fill),
    }
}

/// Four numbers for each call: kind, row, column, state.
fn call_numbers(calls: &[Asked]) -> Vec<u64> {
    calls
        .iter()
        .flat_map(|call| match *call {
            Asked::Fresh => [0, 0, 0, 0],
            Asked::Decide(row, column, state) => [1, row, column, state],
            Asked::Read(row, column) => [2, row, column, 0],
            Asked::Checkpoint => [3, 0, 0, 0],
            Asked::Undo => [4, 0, 0, 0],
        })
        .collect()
}

/// A function of the library that reads bytes.
type Reader = fn(&[u8], &mut [u64], &mut [i64]) -> usize;

fn read_by(reader: Reader, bytes: &[u8], lent: usize, cells_lent: usize) -> Answer {
    let mut answer = Answer {
        numbers: vec![FILL as u64; lent],
        cells: vec![FILL as i64; cells_lent],
        ..Answer::default()
    };
    answer.returned = reader(bytes, &mut answer.numbers, &mut answer.cells);
    answer
}

/// What a function of the library reads, and the calls that follow where it
/// tells a grid.
pub fn reading_by(
    reader: Reader,
    reading: &Reading,
    then: impl Fn(Given) -> Vec<Answer>,
) -> Answer {
    let mut answer = read_by(reader, &reading.bytes, reading.lent, reading.cells_lent);
    if let [0, 0, 0, height, width, ..] = answer.numbers[..] {
        let size = (height as usize, width as usize);
        let pads = size.0.saturating_mul(size.1);
        let cells = answer.cells.iter().take(pads).copied().collect();
        answer.then = then(Given { size, cells });
    }
    answer
}

fn write_by_library(grid: &Given, lent: usize, room: usize) -> Answer {
    let mut answer = Answer {
        numbers: vec![FILL as u64; lent],
        bytes: vec![FILL; room],
        ..Answer::default()
    };
    let (text, numbers) = (&mut answer.bytes, &mut answer.numbers);
    answer.returned = library::write(grid.size, &grid.cells, text, numbers);
    answer
}

fn file_by_library(reading: &Reading) -> Answer {
    reading_by(library::read, reading, |grid| {
        let written = write_by_library(&grid, 3, reading.bytes.len());
        let packed = || read_by(library::read_packed, &slice_of(&grid), 5, 256);
        after_file(&grid, written, packed)
    })
}

pub fn written_and_read_back(grid: &Given, lent: usize, room: usize) -> Answer {
    let mut answer = write_by_library(grid, lent, room);
    if let [0, 0, length, ..] = answer.numbers[..] {
        let text = &answer.bytes[..room.min(length as usize)];
        let second = read_answer(routes::read(text), 5, 256);
        answer.then = vec![read_by(library::read, text, 5, 256), second];
    }
    answer
}

/// An engine of the library: the search or the walk.
type Engine = fn((usize, usize), &[i64], u64, &mut [u8], &mut [u64]) -> usize;

/// A run of an engine in a buffer that holds `before`, of which the room is lent.
pub fn run_by(engine: Engine, search: &Search, before: Vec<u8>) -> Answer {
    let mut answer = Answer {
        numbers: vec![FILL as u64; search.lent],
        bytes: before,
        ..Answer::default()
    };
    let (buffer, numbers) = (&mut answer.bytes[..search.room], &mut answer.numbers);
    let (grid, limit) = (&search.grid, search.limit);
    answer.returned = engine(grid.size, &grid.cells, limit, buffer, numbers);
    answer
}

pub fn solved_by_library(search: &Search, before: Vec<u8>) -> Answer {
    run_by(library::solve, search, before)
}

fn judged_by_library(grid: &Given, lent: usize, bytes: &[u8]) -> Answer {
    let mut answer = Answer {
        numbers: vec![FILL as u64; lent],
        ..Answer::default()
    };
    answer.returned = library::judge(grid.size, &grid.cells, bytes, &mut answer.numbers);
    answer
}

pub fn by_library(case: &Case) -> Answer {
    let mut answer = Answer::default();
    match case {
        Case::Board { grid, lent, calls } => {
            let numbers = call_numbers(calls);
            answer.signed = vec![FILL as i64; *lent];
            answer.returned = library::replay(grid.size, &grid.cells, &numbers, &mut answer.signed);
        }
        Case::Search(search) => answer = solved_by_library(search, vec![FILL; search.room]),
        Case::Record {
            size,
            lent,
            count,
            k,
            room,
        } => {
            answer.numbers = vec![FILL as u64; *lent];
            let buffer = vec![FILL; *room];
            answer.returned = library::record(*size, (*count, *k), &buffer, &mut answer.numbers);
        }
        Case::File(reading) => answer = file_by_library(reading),
        Case::Packed(reading) => answer = packed_by_library(reading),
        Case::Write { grid, lent, room } => answer = written_and_read_back(grid, *lent, *room),
        Case::Judge { grid, lent, bytes } => answer = judged_by_library(grid, *lent, bytes),
        Case::Common(search, table) => answer = common_by_library(search, *table),
        Case::Pair(search, again) => answer = pair_by_library(search, *again),
        Case::Walk(search, fill) => answer = walk_by_library(search, *fill),
    }
    answer
}
