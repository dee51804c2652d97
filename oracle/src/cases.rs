// A case of the comparison: one call of the library, or two, with all that is
// lent. It is written as one line of text, so that it can be replayed:
//   board H,W CELLS LENT CALL;CALL;..   calls: fresh, decide ROW COLUMN STATE,
//                                       read ROW COLUMN, checkpoint, undo
//   search H,W CELLS LENT LIMIT ROOM
//   record H,W LENT COUNT K ROOM
//   file LENT CELLS-LENT HEXADECIMAL
//   packed LENT CELLS-LENT HEXADECIMAL
//   write H,W CELLS LENT ROOM
//   judge H,W CELLS LENT HEXADECIMAL
//   common H,W CELLS LENT LIMIT ROOM TABLE FILL
//   pair H,W CELLS LENT LIMIT ROOM LIMIT ROOM FILL BUFFER
//   walk H,W CELLS LENT LIMIT ROOM FILL
// CELLS are numbers parted by commas, -1 for blank and -2 for a hole. LENT is
// the length of the slice that is lent for the answer, ROOM that of the buffer
// and TABLE that of the table; FILL is the number from which come the bytes
// that stand there before the call. BUFFER is what the second call of a pair is
// lent: `new`, or `left` for the buffer that the first call left. `-` stands for
// an empty list.

#[derive(Clone, Copy, Debug, PartialEq, Eq)]
pub enum Asked {
    Fresh,
    Decide(u64, u64, u64),
    Read(u64, u64),
    Checkpoint,
    Undo,
}

/// Any numbers: a grid that may be one that is declined.
#[derive(Clone, Debug, PartialEq, Eq)]
pub struct Given {
    pub size: (usize, usize),
    pub cells: Vec<i64>,
}

/// A search or a walk, with a room for its buffer.
#[derive(Clone, Debug, PartialEq, Eq)]
pub struct Search {
    pub grid: Given,
    pub lent: usize,
    pub limit: u64,
    pub room: usize,
}

impl Search {
    /// The second search of a pair.
    pub fn again(&self, again: Again) -> Search {
        Search {
            limit: again.limit,
            room: again.room,
            ..self.clone()
        }
    }
}

/// A second search of the same grid, with at least the limit and at least the
/// room of the first. What stands in the two buffers before the calls comes from
/// the number `fill`; where `left` is true, the second is lent the buffer that
/// the first left, with more bytes behind it where there is more room.
#[derive(Clone, Copy, Debug, PartialEq, Eq)]
pub struct Again {
    pub limit: u64,
    pub room: usize,
    pub fill: u64,
    pub left: bool,
}

/// A table that is lent beside a search; what stands in it and in the buffer
/// before the call comes from the number `fill`.
#[derive(Clone, Copy, Debug, PartialEq, Eq)]
pub struct Table {
    pub length: usize,
    pub fill: u64,
}

/// Bytes to be read, and how many numbers are lent for the answer and for the
/// cells.
#[derive(Clone, Debug, PartialEq, Eq)]
pub struct Reading {
    pub lent: usize,
    pub cells_lent: usize,
    pub bytes: Vec<u8>,
}

#[derive(Clone, Debug, PartialEq, Eq)]
pub enum Case {
    Board {
        grid: Given,
        lent: usize,
        calls: Vec<Asked>,
    },
    Search(Search),
    Record {
        size: (usize, usize),
        lent: usize,
        count: usize,
        k: usize,
        room: usize,
    },
    File(Reading),
    Packed(Reading),
    Write {
        grid: Given,
        lent: usize,
        room: usize,
    },
    Judge {
        grid: Given,
        lent: usize,
        bytes: Vec<u8>,
    },
    Common(Search, Table),
    Pair(Search, Again),
    /// A walk, and the number from which come the bytes that stand in its buffer
    /// before the call.
    Walk(Search, u64),
}

fn listed<T: ToString>(items: &[T], between: &str) -> String {
    if items.is_empty() {
        return "-".to_string();
    }
    let texts: Vec<String> = items.iter().map(|item| item.to_string()).collect();
    texts.join(between)
}

fn hexadecimal(bytes: &[u8]) -> String {
    bytes.iter().map(|byte| format!("{byte:02x}")).collect()
}

impl std::fmt::Display for Asked {
    fn fmt(&self, out: &mut std::fmt::Formatter<'_>) -> std::fmt::Result {
        match self {
            Asked::Fresh => write!(out, "fresh"),
            Asked::Decide(row, column, state) => write!(out, "decide {row} {column} {state}"),
            Asked::Read(row, column) => write!(out, "read {row} {column}"),
            Asked::Checkpoint => write!(out, "checkpoint"),
            Asked::Undo => write!(out, "undo"),
        }
    }
}

impl std::fmt::Display for Given {
    fn fmt(&self, out: &mut std::fmt::Formatter<'_>) -> std::fmt::Result {
        let (height, width) = self.size;
        write!(out, "{height},{width} {}", listed(&self.cells, ","))
    }
}

impl std::fmt::Display for Reading {
    fn fmt(&self, out: &mut std::fmt::Formatter<'_>) -> std::fmt::Result {
        let (lent, cells_lent) = (self.lent, self.cells_lent);
        write!(out, "{lent} {cells_lent} {}", hexadecimal(&self.bytes))
    }
}

impl std::fmt::Display for Search {
    fn fmt(&self, out: &mut std::fmt::Formatter<'_>) -> std::fmt::Result {
        let (grid, lent) = (&self.grid, self.lent);
        write!(out, "{grid} {lent} {} {}", self.limit, self.room)
    }
}

impl std::fmt::Display for Again {
    fn fmt(&self, out: &mut std::fmt::Formatter<'_>) -> std::fmt::Result {
        let buffer = if self.left { "left" } else { "new" };
        write!(out, "{} {} {} {buffer}", self.limit, self.room, self.fill)
    }
}

impl std::fmt::Display for Case {
    fn fmt(&self, out: &mut std::fmt::Formatter<'_>) -> std::fmt::Result {
        match self {
            Case::Board { grid, lent, calls } => {
                write!(out, "board {grid} {lent} {}", listed(calls, ";"))
            }
            Case::Search(search) => write!(out, "search {search}"),
            Case::Record {
                size: (height, width),
                lent,
                count,
                k,
                room,
            } => write!(out, "record {height},{width} {lent} {count} {k} {room}"),
            Case::File(reading) => write!(out, "file {reading}"),
            Case::Packed(reading) => write!(out, "packed {reading}"),
            Case::Write { grid, lent, room } => write!(out, "write {grid} {lent} {room}"),
            Case::Judge { grid, lent, bytes } => {
                write!(out, "judge {grid} {lent} {}", hexadecimal(bytes))
            }
            Case::Common(search, Table { length, fill }) => {
                write!(out, "common {search} {length} {fill}")
            }
            Case::Pair(search, again) => write!(out, "pair {search} {again}"),
            Case::Walk(search, fill) => write!(out, "walk {search} {fill}"),
        }
    }
}

fn number<T: std::str::FromStr>(text: &str) -> T {
    let Ok(number) = text.parse() else {
        panic!("no number: {text}");
    };
    number
}

fn numbers<T: std::str::FromStr>(text: &str) -> Vec<T> {
    if text == "-" {
        return Vec::new();
    }
    text.split(',').map(number).collect()
}

fn read_size(text: &str) -> (usize, usize) {
    let (height, width) = text.split_once(',').expect("H,W");
    (number(height), number(width))
}

fn read_asked(text: &str) -> Asked {
    let words: Vec<&str> = text.split_whitespace().collect();
    match words.as_slice() {
        ["fresh"] => Asked::Fresh,
        ["decide", row, column, state] => Asked::Decide(number(row), number(column), number(state)),
        ["read", row, column] => Asked::Read(number(row), number(column)),
        ["checkpoint"] => Asked::Checkpoint,
        ["undo"] => Asked::Undo,
        _ => panic!("no such call: {text}"),
    }
}

fn read_hexadecimal(text: &str) -> Vec<u8> {
    (0..text.len() / 2)
        .map(|at| u8::from_str_radix(&text[2 * at..2 * at + 2], 16).expect("hexadecimal"))
        .collect()
}

/// The bytes of the word at a place, or none where there is no such word.
fn read_bytes(words: &[&str], at: usize) -> Vec<u8> {
    words.get(at).copied().map_or(Vec::new(), read_hexadecimal)
}

fn read_reading(words: &[&str]) -> Reading {
    Reading {
        lent: number(words[1]),
        cells_lent: number(words[2]),
        bytes: read_bytes(words, 3),
    }
}

fn read_calls(text: &str) -> Vec<Asked> {
    let calls = text.split(';').filter(|call| *call != "-");
    calls.map(read_asked).collect()
}

fn read_grid(words: &[&str]) -> Given {
    Given {
        size: read_size(words[1]),
        cells: numbers(words[2]),
    }
}

fn read_search(words: &[&str]) -> Search {
    Search {
        grid: read_grid(words),
        lent: number(words[3]),
        limit: number(words[4]),
        room: number(words[5]),
    }
}

fn read_again(words: &[&str]) -> Again {
    Again {
        limit: number(words[6]),
        room: number(words[7]),
        fill: number(words[8]),
        left: match words[9] {
            "new" => false,
            "left" => true,
            word => panic!("no such buffer: {word}"),
        },
    }
}

/// A second search with less than the first has is no case.
fn read_pair(words: &[&str]) -> Case {
    let (search, again) = (read_search(words), read_again(words));
    let at_least = again.limit >= search.limit && again.room >= search.room;
    assert!(at_least, "the second search has less");
    Case::Pair(search, again)
}

fn read_record(words: &[&str]) -> Case {
    Case::Record {
        size: read_size(words[1]),
        lent: number(words[2]),
        count: number(words[3]),
        k: number(words[4]),
        room: number(words[5]),
    }
}

pub fn read_case(text: &str) -> Case {
    let words: Vec<&str> = text.split_whitespace().collect();
    let grid = || read_grid(&words);
    match words[0] {
        "board" => Case::Board {
            grid: grid(),
            lent: number(words[3]),
            calls: read_calls(&words[4..].join(" ")),
        },
        "search" => Case::Search(read_search(&words)),
        "record" => read_record(&words),
        "file" => Case::File(read_reading(&words)),
        "packed" => Case::Packed(read_reading(&words)),
        "write" => Case::Write {
            grid: grid(),
            lent: number(words[3]),
            room: number(words[4]),
        },
        "judge" => Case::Judge {
            grid: grid(),
            lent: number(words[3]),
            bytes: read_bytes(&words, 4),
        },
        "common" => {
            let (length, fill) = (number(words[6]), number(words[7]));
            Case::Common(read_search(&words), Table { length, fill })
        }
        "pair" => read_pair(&words),
        "walk" => Case::Walk(read_search(&words), number(words[6])),
        word => panic!("no such case: {word}"),
    }
}
