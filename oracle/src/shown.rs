// What the cases that were compared have shown, counted and printed: how many
// there were of each kind and of each answer.

use crate::answers::{Pads, Run, BLANK, HOLE, LARGEST_ASKED, LARGEST_CODE};
use crate::cases::{Again, Asked, Case, Given, Search};
use crate::common::{lister, Lister};
use crate::expected::{board_pads, written_text, Answer};
use crate::holes::is_small;
use crate::judged::Found;
use crate::packed::fault_numbers;
use std::collections::BTreeMap;

/// What the board calls that were compared have shown.
#[derive(Default)]
pub struct ShownCalls {
    on_flagged: usize,
    going_on: usize,
    declined: [usize; 13],
}

impl ShownCalls {
    /// Each call has a block: number, answer, flag, and the rest.
    pub fn count(&mut self, calls: &[Asked], answer: &Answer) {
        let (mut flagged, mut on_flagged) = (false, 0);
        let size = answer.returned / calls.len();
        for (index, call) in calls.iter().enumerate().take_while(|_| size > 0) {
            let block = &answer.signed[index * size..];
            let accepted = block[0] == 0;
            self.declined[block[0] as usize] += !accepted as usize;
            on_flagged += (flagged && accepted && matches!(call, Asked::Decide(..))) as usize;
            flagged = block[2] == 1;
        }
        self.on_flagged += on_flagged;
        self.going_on += (on_flagged >= 3) as usize;
    }

    pub fn figures(&self) -> String {
        format!(
            "{} decisions on flagged boards, {} sequences with three or more of them; declined calls and boards by number: {:?}",
            self.on_flagged,
            self.going_on,
            (7..13).map(|number| (number, self.declined[number])).collect::<Vec<_>>()
        )
    }
}

/// Whether there is a code that the reference cannot be asked as it stands.
fn has_wide(cells: &[i64]) -> bool {
    let wide = LARGEST_ASKED + 1..=LARGEST_CODE;
    cells.iter().any(|cell| wide.contains(cell))
}

/// How many cases of each kind had a code that the reference cannot be asked as
/// it stands.
#[derive(Default)]
pub struct ShownWide {
    cases: BTreeMap<&'static str, usize>,
}

impl ShownWide {
    pub fn count(&mut self, case: &Case, answer: &Answer) {
        let (kind, cells) = match case {
            Case::Board { grid, .. } => ("board", &grid.cells),
            Case::Search(search) => ("search", &search.grid.cells),
            Case::File(_) => ("file", &answer.cells),
            Case::Packed(_) => ("packed", &answer.cells),
            Case::Write { grid, .. } => ("write", &grid.cells),
            Case::Judge { grid, .. } => ("judge", &grid.cells),
            Case::Common(search, _) => ("common", &search.grid.cells),
            Case::Pair(search, _) => ("pair", &search.grid.cells),
            Case::Walk(search, _) => ("walk", &search.grid.cells),
            Case::Record { .. } => return,
        };
        if has_wide(cells) {
            *self.cases.entry(kind).or_default() += 1;
        }
    }

    pub fn figures(&self) -> String {
        format!("cases with codes above {LARGEST_ASKED}: {:?}", self.cases)
    }
}

/// How many files or writes were accepted (number 0), how many refused, by
/// number, how many had holes, and how many were written or read back.
#[derive(Default)]
pub struct ShownNumbers {
    numbers: BTreeMap<u64, usize>,
    with_holes: usize,
    back: usize,
}

impl ShownNumbers {
    /// Where a slice was too short for the answer, there is no number.
    pub fn count(&mut self, answer: &Answer) {
        if answer.returned > 0 {
            *self.numbers.entry(answer.numbers[0]).or_default() += 1;
        }
        let mut grids = answer.then.iter().chain([answer]);
        self.with_holes += grids.any(|grid| grid.cells.contains(&HOLE)) as usize;
        self.back += !answer.then.is_empty() as usize;
    }

    pub fn figures(&self) -> String {
        let (numbers, with_holes, back) = (&self.numbers, self.with_holes, self.back);
        format!("by number: {numbers:?}; {with_holes} of the accepted with holes; {back} of them")
    }
}

/// How many packed slices were accepted (number 0) and how many refused, by
/// number; how many of the accepted had blank pads, and how many were written and
/// read back; those with several faults by the first two in the order of the
/// tests; and those whose answer was too short.
#[derive(Default)]
pub struct ShownPacked {
    pub slices: usize,
    numbers: BTreeMap<u64, usize>,
    with_blank: usize,
    back: usize,
    several: BTreeMap<[usize; 2], usize>,
    too_short: usize,
}

impl ShownPacked {
    pub fn count(&mut self, case: &Case, answer: &Answer) {
        self.slices += 1;
        let Case::Packed(reading) = case else {
            return;
        };
        if let [first, second, ..] = fault_numbers(&reading.bytes)[..] {
            *self.several.entry([first, second]).or_default() += 1;
        }
        if answer.returned == 0 {
            self.too_short += 1;
            return;
        }
        let numbers = &answer.numbers;
        *self.numbers.entry(numbers[0]).or_default() += 1;
        let pads = (numbers[3] * numbers[4]) as usize;
        self.with_blank += answer.cells[..pads].contains(&BLANK) as usize;
        self.back += !answer.then.is_empty() as usize;
    }

    pub fn print(&self) {
        println!(
            "packed slices by number: {:?}; {} of the accepted with blank pads; {} of them written as a file and read back; {} answers too short",
            self.numbers, self.with_blank, self.back, self.too_short
        );
        println!(
            "{} packed slices with two faults or more, by the first two: {:?}",
            self.several.values().sum::<usize>(),
            self.several
        );
    }
}

/// How many rooms were one short of the text, equal to it and beyond it.
#[derive(Default)]
pub struct ShownRooms {
    one_short: usize,
    equal: usize,
    beyond: usize,
}

impl ShownRooms {
    /// Where the grid is declined or no answer is given, there is no text.
    pub fn count(&mut self, grid: &Given, room: usize, answer: &Answer) {
        let length = written_text(grid).len();
        if length > 0 && answer.returned > 0 {
            self.one_short += (room + 1 == length) as usize;
            self.equal += (room == length) as usize;
            self.beyond += (room > length) as usize;
        }
    }

    pub fn figures(&self) -> String {
        format!(
            "rooms: {} one short of the text, {} equal to it, {} beyond it",
            self.one_short, self.equal, self.beyond
        )
    }
}

/// Searches of small grids, how many grids had holes, and how many of these
/// had layouts.
#[derive(Default)]
pub struct ShownHoles {
    pub searches: usize,
    pub grids: usize,
    pub with_layouts: usize,
}

impl ShownHoles {
    pub fn count(&mut self, pads: &Pads, all: &Run) {
        self.grids += pads.has_hole() as usize;
        self.with_layouts += (pads.has_hole() && all.layouts > 0) as usize;
    }

    pub fn figures(&self) -> String {
        format!(
            "{} searches by the rules alone; {} grids with holes, {} of them with layouts",
            self.searches, self.grids, self.with_layouts
        )
    }
}

/// Grids whose drawings were judged, how many of them had holes, and the records
/// by what they are.
#[derive(Default)]
pub struct ShownDrawings {
    pub grids: usize,
    pub with_holes: usize,
    pub found: BTreeMap<Found, usize>,
}

impl ShownDrawings {
    pub fn count_grid(&mut self, pads: &Pads) {
        self.grids += 1;
        self.with_holes += pads.has_hole() as usize;
    }

    pub fn records(&self) -> usize {
        self.found.values().sum()
    }

    pub fn figures(&self) -> String {
        let (grids, with_holes, found) = (self.grids, self.with_holes, &self.found);
        let records = self.records();
        format!("{grids} grids, {with_holes} of them with holes, {records} records: {found:?}")
    }
}

/// Small grids of which every drawing was tried; grids of all sizes, with the
/// layouts of their searches; and declined grids by number.
#[derive(Default)]
pub struct ShownJudged {
    pub turns: usize,
    pub tried: ShownDrawings,
    pub drawn: ShownDrawings,
    pub layouts: usize,
    pub declined: BTreeMap<u64, usize>,
}

impl ShownJudged {
    pub fn records(&self) -> usize {
        self.tried.records() + self.drawn.records()
    }

    pub fn print(&self) {
        println!("judged, every drawing: {}", self.tried.figures());
        println!("judged, all sizes: {}", self.drawn.figures());
        println!(
            "{} layouts of searches judged; grids by number, mostly declined: {:?}",
            self.layouts, self.declined
        );
    }
}

/// Calls for common copper: their grids by who lists the layouts; by number,
/// beside 16 by the search's outcome, and those whose answer was too short; the
/// tables by how many layouts there were, and their places by byte.
#[derive(Default)]
pub struct ShownCommon {
    pub turns: usize,
    pub calls: usize,
    grids: BTreeMap<Lister, usize>,
    with_holes: usize,
    numbers: BTreeMap<u64, usize>,
    outcomes: BTreeMap<u64, usize>,
    too_short: usize,
    tables: BTreeMap<&'static str, usize>,
    places: [usize; 4],
}

impl ShownCommon {
    pub fn count_grid(&mut self, pads: &Pads) {
        *self.grids.entry(lister(pads)).or_default() += 1;
        self.with_holes += pads.has_hole() as usize;
    }

    pub fn count(&mut self, case: &Case, answer: &Answer) {
        self.calls += 1;
        if answer.returned == 0 {
            self.too_short += 1;
            return;
        }
        let number = answer.numbers[0];
        *self.numbers.entry(number).or_default() += 1;
        match (number, case) {
            (0, Case::Common(search, _)) => self.count_table(&search.grid, answer),
            (16, _) => *self.outcomes.entry(answer.numbers[2]).or_default() += 1,
            _ => {}
        }
    }

    fn count_table(&mut self, grid: &Given, answer: &Answer) {
        let layouts = match answer.numbers[3] {
            0 => "none",
            1 => "one",
            2..=255 => "several",
            _ => "256 and more",
        };
        *self.tables.entry(layouts).or_default() += 1;
        for byte in &answer.table[..board_pads(grid).record_length()] {
            self.places[*byte as usize] += 1;
        }
    }

    pub fn print(&self) {
        println!(
            "common copper: {} calls; accepted grids by who lists: {:?}, {} of them with holes; calls by number: {:?}, beside 16 by outcome: {:?}; {} answers too short",
            self.calls, self.grids, self.with_holes, self.numbers, self.outcomes, self.too_short
        );
        println!(
            "tables by layouts: {:?}; their places by byte: {:?}",
            self.tables, self.places
        );
    }
}

/// Pairs of runs: those of accepted grids by their two outcomes, those of
/// declined grids by number, and how many were of which kind; and those whose
/// answer was too short.
#[derive(Default)]
pub struct ShownPairs {
    pub turns: usize,
    pub pairs: usize,
    outcomes: BTreeMap<[&'static str; 2], usize>,
    declined: BTreeMap<u64, usize>,
    kinds: BTreeMap<&'static str, usize>,
    too_short: usize,
}

const OUTCOMES: [&str; 3] = ["complete", "spent", "full"];

impl ShownPairs {
    pub fn count(&mut self, case: &Case, answer: &Answer) {
        self.pairs += 1;
        let (Case::Pair(search, again), [then]) = (case, &answer.then[..]) else {
            return;
        };
        if answer.returned == 0 {
            self.too_short += 1;
        } else if answer.numbers[0] != 0 {
            *self.declined.entry(answer.numbers[0]).or_default() += 1;
        } else {
            self.count_accepted(search, *again, &answer.numbers, &then.numbers);
        }
    }

    fn count_accepted(&mut self, search: &Search, again: Again, told: &[u64], then: &[u64]) {
        let outcomes = [told, then].map(|numbers| OUTCOMES[numbers[2] as usize]);
        *self.outcomes.entry(outcomes).or_default() += 1;
        let pads = board_pads(&search.grid);
        let (same_limit, same_room) = (search.limit == again.limit, search.room == again.room);
        let kinds = [
            ("with holes", pads.has_hole()),
            ("with holes, large", pads.has_hole() && !is_small(&pads)),
            ("with layouts in the first", told[3] > 0),
            ("with layouts in the second", then[3] > 0),
            ("with more layouts in the second", then[3] > told[3]),
            ("equal limits", same_limit),
            ("equal rooms", same_room),
            ("both equal", same_limit && same_room),
            (
                "not spent, same room, higher limit",
                told[2] != 1 && same_room && !same_limit,
            ),
            ("limit past 32 bits", again.limit >> 32 > 0),
            ("limit 2^64-1", again.limit == u64::MAX),
            ("lent what the first left", again.left),
            (
                "lent what the first left, equal rooms",
                again.left && same_room,
            ),
        ];
        for (kind, is_so) in kinds {
            *self.kinds.entry(kind).or_default() += is_so as usize;
        }
    }

    pub fn print(&self) {
        println!(
            "{} pairs of runs by outcomes: {:?}; declined by number: {:?}; {} answers too short",
            self.pairs, self.outcomes, self.declined, self.too_short
        );
        println!("of the accepted pairs: {:?}", self.kinds);
    }
}

/// Slow walks: those of accepted grids by outcome, those of declined grids by
/// number, how many were of which kind, and those whose answer was too short.
#[derive(Default)]
pub struct ShownWalks {
    pub turns: usize,
    pub walks: usize,
    outcomes: BTreeMap<&'static str, usize>,
    declined: BTreeMap<u64, usize>,
    kinds: BTreeMap<&'static str, usize>,
    too_short: usize,
    tried: u64,
}

impl ShownWalks {
    pub fn count(&mut self, case: &Case, answer: &Answer) {
        self.walks += 1;
        match (case, &answer.numbers[..]) {
            _ if answer.returned == 0 => self.too_short += 1,
            (Case::Walk(search, _), [0, _, outcome, layouts, tried, ..]) => {
                self.tried += tried;
                self.count_accepted(search, *outcome as usize, *layouts);
            }
            (_, numbers) => *self.declined.entry(numbers[0]).or_default() += 1,
        }
    }

    fn count_accepted(&mut self, search: &Search, outcome: usize, layouts: u64) {
        *self.outcomes.entry(OUTCOMES[outcome]).or_default() += 1;
        let pads = board_pads(&search.grid);
        let (large, with_layouts) = (!is_small(&pads), layouts > 0);
        let kinds = [
            ("with holes", pads.has_hole()),
            ("with wide codes", has_wide(&pads.cells)),
            ("with layouts", with_layouts),
            ("with two layouts or more", layouts > 1),
            ("with holes and layouts", pads.has_hole() && with_layouts),
            ("complete, with layouts", outcome == 0 && with_layouts),
            ("spent, with layouts", outcome == 1 && with_layouts),
            ("full, with layouts", outcome == 2 && with_layouts),
            ("large", large),
            ("large, with layouts", large && with_layouts),
            ("large, full", large && outcome == 2),
            ("limit 0", search.limit == 0),
            ("limit past 32 bits", search.limit >> 32 > 0),
        ];
        for (kind, is_so) in kinds {
            *self.kinds.entry(kind).or_default() += is_so as usize;
        }
    }

    pub fn print(&self) {
        println!(
            "{} walks by outcome: {:?}; {} codes tried; declined by number: {:?}; {} answers too short",
            self.walks, self.outcomes, self.tried, self.declined, self.too_short
        );
        println!("of the accepted walks: {:?}", self.kinds);
    }
}
