// Seeded numbers (the generator known as splitmix64), and from them grids of
// every kind and sequences of board calls. The same seed gives the same
// grids and calls on every machine.

use crate::answers::{
    limited, make_call, Board, Call, Pads, BLANK, LARGEST_ASKED, LINE, NONE, UNDECIDED,
};

pub struct Random {
    state: u64,
}

impl Random {
    pub fn new(seed: u64) -> Self {
        Random { state: seed }
    }

    pub fn next(&mut self) -> u64 {
        self.state = self.state.wrapping_add(0x9E3779B97F4A7C15);
        let mut mixed = self.state;
        mixed = (mixed ^ (mixed >> 30)).wrapping_mul(0xBF58476D1CE4E5B9);
        mixed = (mixed ^ (mixed >> 27)).wrapping_mul(0x94D049BB133111EB);
        mixed ^ (mixed >> 31)
    }

    pub fn below(&mut self, bound: usize) -> usize {
        (self.next() % bound as u64) as usize
    }

    pub fn chance(&mut self, percent: usize) -> bool {
        self.below(100) < percent
    }

    pub fn choose<T: Copy>(&mut self, items: &[T]) -> T {
        items[self.below(items.len())]
    }
}

/// A grid of the given size without holes, of a kind chosen at random.
pub fn any_pads(random: &mut Random, height: usize, width: usize) -> Pads {
    match random.below(10) {
        0 => blank_pads(height, width),
        1..=3 => scattered_pads(random, height, width),
        4 | 5 => paired_pads(random, height, width),
        _ => wired_pads(random, height, width),
    }
}

fn blank_pads(height: usize, width: usize) -> Pads {
    Pads {
        height,
        width,
        cells: vec![BLANK; height * width],
    }
}

/// Few or many clues at random pads, of one to five codes.
fn scattered_pads(random: &mut Random, height: usize, width: usize) -> Pads {
    let mut pads = blank_pads(height, width);
    let percent = random.choose(&[4, 10, 20, 40]);
    let codes = some_codes(random, 5);
    let used = 1 + random.below(5);
    for cell in pads.cells.iter_mut() {
        if random.chance(percent) {
            *cell = codes[random.below(used)];
        }
    }
    pads
}

/// A few codes, each on two random pads.
fn paired_pads(random: &mut Random, height: usize, width: usize) -> Pads {
    let mut pads = blank_pads(height, width);
    let pairs = 1 + random.below((height + width) / 2);
    let codes = some_codes(random, pairs);
    for code in codes {
        for _ in 0..2 {
            let pad = random.below(height * width);
            pads.cells[pad] = code;
        }
    }
    pads
}

/// Chains drawn at random over free pads, and a code on the two pads at the
/// ends of each: such a grid has a layout. Some chains share a code. Beside the
/// grid the lines of the chains, each as the two pads that it joins.
pub fn wired(random: &mut Random, height: usize, width: usize) -> (Pads, Vec<(usize, usize)>) {
    let mut pads = blank_pads(height, width);
    let mut lines = Vec::new();
    let mut free = vec![true; height * width];
    let chains = 1 + random.below(height * width / 3);
    let longest = random.choose(&[3, 5, 8, 16]);
    let codes = some_codes(random, chains);
    for code in codes {
        let first = random.below(height * width);
        if !free[first] {
            continue;
        }
        free[first] = false;
        let mut last = first;
        for _ in 0..1 + random.below(longest) {
            let near = free_neighbours(&free, height, width, last);
            if near.is_empty() {
                break;
            }
            let next = random.choose(&near);
            lines.push((last, next));
            last = next;
            free[last] = false;
        }
        if last != first {
            pads.cells[first] = code;
            pads.cells[last] = code;
        }
    }
    (pads, lines)
}

pub fn wired_pads(random: &mut Random, height: usize, width: usize) -> Pads {
    wired(random, height, width).0
}

fn free_neighbours(free: &[bool], height: usize, width: usize, pad: usize) -> Vec<usize> {
    let (row, column) = (pad / width, pad % width);
    let mut near = Vec::new();
    if column > 0 {
        near.push(pad - 1);
    }
    if column + 1 < width {
        near.push(pad + 1);
    }
    if row > 0 {
        near.push(pad - width);
    }
    if row + 1 < height {
        near.push(pad + width);
    }
    near.retain(|other| free[*other]);
    near
}

/// Mostly 0, 1, 2, ..; sometimes the largest that can be asked, sometimes some
/// twice. A grid of the streams holds no codes but these: 0 to 249 and five more.
fn some_codes(random: &mut Random, count: usize) -> Vec<i64> {
    let style = random.below(6);
    (0..count as i64)
        .map(|index| match style {
            0 => LARGEST_ASKED - index % 5,
            1 => random.below(4) as i64,
            2 if index == 0 => LARGEST_ASKED,
            3 => 249 - index % 250,
            _ => index % 250,
        })
        .collect()
}

/// How a sequence of calls is chosen.
#[derive(Clone, Copy)]
pub struct Plan {
    pub calls: usize,
    /// Percent of the decisions that are chosen to leave the flag clear.
    pub careful: usize,
    /// Percent of the decisions that are a line.
    pub lines: usize,
    /// Percent of the calls that are a checkpoint, and that are an undo.
    pub checkpoints: usize,
    pub undos: usize,
    /// At least so many decisions are made on a flagged board.
    pub on_flagged: usize,
}

pub fn any_plan(random: &mut Random, on_flagged: usize) -> Plan {
    Plan {
        calls: 6 + random.below(36),
        careful: random.choose(&[0, 70, 95]),
        lines: random.choose(&[20, 50, 80]),
        checkpoints: random.choose(&[3, 10, 20]),
        undos: random.choose(&[2, 8, 15]),
        on_flagged,
    }
}

/// Chooses calls one by one, making each on a board of its own.
pub struct Chooser<'a> {
    random: &'a mut Random,
    board: Board,
    places: Vec<(usize, usize)>,
    pub calls: Vec<Call>,
    pub standing: usize,
    pub on_flagged: usize,
}

impl<'a> Chooser<'a> {
    pub fn new(random: &'a mut Random, pads: &Pads) -> Self {
        let mut places = Vec::new();
        for row in 0..2 * pads.height - 1 {
            for column in 0..2 * pads.width - 1 {
                if row % 2 != column % 2 {
                    places.push((row, column));
                }
            }
        }
        let board = Board::new(pads);
        Chooser {
            random,
            board,
            places,
            calls: Vec::new(),
            standing: 0,
            on_flagged: 0,
        }
    }

    pub fn make(&mut self, call: Call) {
        match call {
            Call::Decide(..) => self.on_flagged += self.board.inconsistent() as usize,
            Call::Checkpoint => self.standing += 1,
            Call::Undo => self.standing = self.standing.saturating_sub(1),
            Call::Read(..) => {}
        }
        make_call(&mut self.board, call);
        self.calls.push(call);
    }

    fn byte_at(&mut self, (row, column): (usize, usize)) -> u8 {
        make_call(&mut self.board, Call::Read(row, column))
    }

    /// A place, and mostly one that is undecided.
    fn any_place(&mut self) -> (usize, usize) {
        let places = self.places.len();
        let any = self.random.below(places);
        if self.random.chance(10) {
            return self.places[any];
        }
        for step in 0..places {
            let place = self.places[(any + step) % places];
            if self.byte_at(place) == UNDECIDED {
                return place;
            }
        }
        self.places[any]
    }

    fn any_decision(&mut self, lines: usize) -> Call {
        let (row, column) = self.any_place();
        Call::Decide(
            row,
            column,
            if self.random.chance(lines) {
                LINE
            } else {
                NONE
            },
        )
    }

    fn sets_flag(&mut self, call: Call) -> bool {
        make_call(&mut self.board, Call::Checkpoint);
        let flag = make_call(&mut self.board, call) == 1;
        make_call(&mut self.board, Call::Undo);
        flag
    }

    fn careful_decision(&mut self, lines: usize) -> Call {
        let mut call = self.any_decision(lines);
        for _ in 0..6 {
            if self.board.inconsistent() || !self.sets_flag(call) {
                break;
            }
            call = self.any_decision(lines);
        }
        call
    }

    /// The opposite of what a decided edge is, or any decision.
    fn contrary_decision(&mut self) -> Call {
        let any = self.random.below(self.places.len());
        for step in 0..self.places.len() {
            let place = self.places[(any + step) % self.places.len()];
            let byte = self.byte_at(place);
            if byte != UNDECIDED {
                return Call::Decide(place.0, place.1, LINE + NONE - byte);
            }
        }
        self.any_decision(50)
    }

    pub fn decide(&mut self, careful: usize, lines: usize) {
        let call = if self.random.chance(careful) {
            self.careful_decision(lines)
        } else {
            self.any_decision(lines)
        };
        self.make(call);
    }

    fn any_call(&mut self, plan: Plan) {
        let roll = self.random.below(100);
        if roll < plan.checkpoints {
            if self.standing < 256 {
                self.make(Call::Checkpoint);
            }
        } else if roll < plan.checkpoints + plan.undos {
            self.make(Call::Undo);
        } else if roll < plan.checkpoints + plan.undos + 3 {
            let (row, column) = self.any_place();
            self.make(Call::Read(row, column));
        } else {
            self.decide(plan.careful, plan.lines);
        }
    }

    /// Calls by the plan; then, where too few decisions were made on a
    /// flagged board, a contrary decision and more.
    pub fn follow(&mut self, plan: Plan) {
        while self.calls.len() < plan.calls {
            self.any_call(plan);
        }
        while self.on_flagged < plan.on_flagged {
            if self.board.inconsistent() {
                self.decide(0, plan.lines);
            } else {
                let call = self.contrary_decision();
                self.make(call);
            }
        }
    }

    /// Decisions in random order that agree with a layout, with checkpoints
    /// between them; the grid must have a layout within the limit.
    pub fn follow_layout(&mut self, pads: &Pads, decisions: usize) {
        let length = pads.record_length();
        let run = limited(pads, 20000, 20 * length);
        if run.layouts == 0 {
            return;
        }
        let start = self.random.below(run.layouts) * length;
        for _ in 0..decisions {
            let (row, column) = self.any_place();
            let byte = run.bytes[start + row * (2 * pads.width - 1) + column];
            self.make(Call::Decide(row, column, byte));
            if self.random.chance(15) && self.standing < 256 {
                self.make(Call::Checkpoint);
            }
        }
    }
}
