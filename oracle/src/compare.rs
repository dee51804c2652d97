// Compares the proved library with the reference: board calls, searches,
// records, files, writes and tables of common copper, chosen by a seed, until
// the time or the counts are reached; packed slices with a second reader; searches
// of grids with holes, and drawings that are judged, with the rules alone; pairs
// of runs with each other; and slow walks with a second walk and with searches.
// The first case that differs is made smaller and printed.

use crate::answers::{limited, Call, Pads, Run};
use crate::cases::{read_case, Case, Search};
use crate::chosen::{
    any_lent, any_search, board_case, declined_search, file_case, given, known_sequences,
    record_case, search_pads, size_of, varied_case, write_case,
};
use crate::common::{common_cases, common_pads, declined_common};
use crate::drawn::{
    declined_judge, drawn, flip_edge, judge_case, listed, spoil, tiny_pads, tried_pads, turn_one,
    turn_squares,
};
use crate::expected::{by_library, expected, is_known, judge_answer, search_answer, Answer, FILL};
use crate::grids::{check_beginning, ended, runs_of};
use crate::holes::{beginning, checked_list, every_drawing, small_pads};
use crate::judged::{found, Found};
use crate::packed::packed_case;
use crate::pairs::pairs_of_turn;
use crate::random::Random;
use crate::shown::{
    ShownCalls, ShownCommon, ShownHoles, ShownJudged, ShownNumbers, ShownPacked, ShownPairs,
    ShownRooms, ShownWalks, ShownWide,
};
use crate::smallest::smallest;
use crate::walks::walks_of_turn;
use std::time::{Duration, Instant};

/// How far the comparison goes, and how far it has come.
#[derive(Clone, Copy, Default)]
pub struct Counts {
    pub calls: usize,
    pub searches: usize,
    pub files: usize,
}

/// Compares cases of one kind.
type Compare = fn(&mut Comparison);

/// Each kind of case has numbers of its own, so that a seed gives the same
/// cases however long the others take.
struct Comparison {
    shown_calls: ShownCalls,
    shown_files: ShownNumbers,
    shown_packed: ShownPacked,
    shown_writes: ShownNumbers,
    shown_rooms: ShownRooms,
    shown_holes: ShownHoles,
    shown_judged: ShownJudged,
    shown_common: ShownCommon,
    shown_pairs: ShownPairs,
    shown_walks: ShownWalks,
    shown_wide: ShownWide,
    boards: Random,
    grid_numbers: Random,
    declined: Random,
    file_numbers: Random,
    write_numbers: Random,
    hole_numbers: Random,
    judge_numbers: Random,
    common_numbers: Random,
    pair_numbers: Random,
    packed_numbers: Random,
    walk_numbers: Random,
    known: Vec<(Pads, Vec<Call>)>,
    done: Counts,
    whole_searches: usize,
    declined_searches: usize,
    records: usize,
    writes: usize,
    sequences: usize,
    grids: usize,
    visited: u64,
    started: Instant,
    shown: Instant,
}

impl Comparison {
    fn new(seed: u64) -> Self {
        Comparison {
            shown_calls: ShownCalls::default(),
            shown_files: ShownNumbers::default(),
            shown_packed: ShownPacked::default(),
            shown_writes: ShownNumbers::default(),
            shown_rooms: ShownRooms::default(),
            shown_holes: ShownHoles::default(),
            shown_judged: ShownJudged::default(),
            shown_common: ShownCommon::default(),
            shown_pairs: ShownPairs::default(),
            shown_walks: ShownWalks::default(),
            shown_wide: ShownWide::default(),
            boards: Random::new(seed),
            grid_numbers: Random::new(seed.wrapping_add(1 << 32)),
            declined: Random::new(seed.wrapping_add(2 << 32)),
            file_numbers: Random::new(seed.wrapping_add(3 << 32)),
            write_numbers: Random::new(seed.wrapping_add(4 << 32)),
            hole_numbers: Random::new(seed.wrapping_add(5 << 32)),
            judge_numbers: Random::new(seed.wrapping_add(6 << 32)),
            common_numbers: Random::new(seed.wrapping_add(7 << 32)),
            pair_numbers: Random::new(seed.wrapping_add(8 << 32)),
            packed_numbers: Random::new(seed.wrapping_add(9 << 32)),
            walk_numbers: Random::new(seed.wrapping_add(10 << 32)),
            known: known_sequences(),
            done: Counts::default(),
            whole_searches: 0,
            declined_searches: 0,
            records: 0,
            writes: 0,
            sequences: 0,
            grids: 0,
            visited: 0,
            started: Instant::now(),
            shown: Instant::now(),
        }
    }

    fn figures(&self) -> String {
        format!(
            "{:.0} s: {} board calls in {} sequences; {} searches ({} of them whole, against solve), {} visited boards; {} declined searches; {} records; {} files; {} packed slices; {} writes; {} records judged; {} calls for common copper; {} pairs of runs; {} walks",
            self.started.elapsed().as_secs_f64(),
            self.done.calls,
            self.sequences,
            self.done.searches,
            self.whole_searches,
            self.visited,
            self.declined_searches,
            self.records,
            self.done.files,
            self.shown_packed.slices,
            self.writes,
            self.shown_judged.records(),
            self.shown_common.calls,
            self.shown_pairs.pairs,
            self.shown_walks.walks
        )
    }

    fn print_end(&self) {
        println!("{}; no difference", self.figures());
        println!("{}", self.shown_calls.figures());
        println!("files {} written back", self.shown_files.figures());
        self.shown_packed.print();
        println!("writes {} read back", self.shown_writes.figures());
        println!("{}", self.shown_rooms.figures());
        println!("{}", self.shown_holes.figures());
        self.shown_judged.print();
        self.shown_common.print();
        self.shown_pairs.print();
        self.shown_walks.print();
        println!("{}", self.shown_wide.figures());
    }

    fn show_progress(&mut self) {
        if self.shown.elapsed() > Duration::from_secs(2) {
            eprintln!("{}", self.figures());
            self.shown = Instant::now();
        }
    }

    /// Ends the program where the library differs.
    fn hold(&mut self, case: &Case, answer: &Answer) {
        let found = by_library(case);
        self.shown_wide.count(case, answer);
        if found != *answer {
            println!("{}", self.figures());
            report(case);
            std::process::exit(1);
        }
    }

    fn compare_board(&mut self) {
        let case = if self.sequences % 4 == 3 {
            varied_case(&mut self.boards, &self.known)
        } else {
            board_case(
                &mut self.boards,
                self.sequences / 4 * 3 + self.sequences % 4,
            )
        };
        let answer = expected(&case);
        self.hold(&case, &answer);
        self.sequences += 1;
        if let Case::Board { calls, .. } = &case {
            self.done.calls += calls.len();
            self.shown_calls.count(calls, &answer);
        }
    }

    /// One search of an accepted grid, where it is known what it gives.
    fn hold_search(&mut self, search: Search, run: &Run) {
        let answer = search_answer((0, 0), run, search.lent, vec![FILL; search.room]);
        self.hold(&Case::Search(search), &answer);
    }

    fn compare_run(&mut self, pads: &Pads, run: &Run, limit: u64, room: usize) {
        let search = any_search(&mut self.grid_numbers, pads, limit, room);
        self.hold_search(search, run);
        self.done.searches += 1;
        self.visited += run.visited;
    }

    /// The whole list against `solve`, and runs that are beginnings of it; a
    /// grid whose search does not end in reasonable time only with a limit.
    fn compare_search(&mut self) {
        let reasonable = if self.grids % 100 == 0 { 100000 } else { 2000 };
        let pads = search_pads(&mut self.grid_numbers, self.grids);
        self.grids += 1;
        let Some(all) = ended(&pads, reasonable) else {
            let room = self.grid_numbers.below(20000);
            let limit = self.grid_numbers.below(reasonable as usize) as u64;
            return self.compare_run(&pads, &limited(&pads, limit, room), limit, room);
        };
        let length = pads.record_length();
        let room = all.bytes.len() + self.grid_numbers.below(2 * length);
        self.compare_run(&pads, &all, all.visited, room);
        self.compare_run(&pads, &all, u64::MAX, all.bytes.len());
        self.whole_searches += 2;
        for (limit, room) in runs_of(&mut self.grid_numbers, &all, length, self.grids) {
            let run = limited(&pads, limit, room);
            check_beginning(&all, &run, limit, room, length);
            self.compare_run(&pads, &run, limit, room);
        }
    }

    /// A small grid, mostly with holes, by the rules alone.
    fn compare_holes(&mut self) {
        let pads = small_pads(&mut self.hole_numbers);
        let all = checked_list(&pads);
        self.shown_holes.count(&pads, &all);
        let kind = self.hole_numbers.below(4);
        let runs = runs_of(&mut self.hole_numbers, &all, pads.record_length(), kind);
        for (limit, room) in runs {
            let search = any_search(&mut self.hole_numbers, &pads, limit, room);
            self.hold_search(search, &beginning(&pads, &all, limit, room));
            self.shown_holes.searches += 1;
        }
    }

    fn compare_declined(&mut self) {
        let case = Case::Search(declined_search(&mut self.declined));
        self.hold(&case, &expected(&case));
        self.declined_searches += 1;
        for _ in 0..5 {
            let case = record_case(&mut self.declined);
            self.hold(&case, &expected(&case));
            self.records += 1;
        }
    }

    fn compare_file(&mut self) {
        let case = file_case(&mut self.file_numbers);
        let answer = expected(&case);
        self.hold(&case, &answer);
        self.done.files += 1;
        self.shown_files.count(&answer);
    }

    fn compare_packed(&mut self) {
        let case = packed_case(&mut self.packed_numbers, self.shown_packed.slices);
        let answer = expected(&case);
        self.hold(&case, &answer);
        self.shown_packed.count(&case, &answer);
    }

    /// Writes and packed slices come before files, because they can be made
    /// smaller.
    fn compare_write(&mut self) {
        let case = write_case(&mut self.write_numbers, self.writes);
        let answer = expected(&case);
        self.hold(&case, &answer);
        self.writes += 1;
        self.shown_writes.count(&answer);
        if let Case::Write { grid, room, .. } = &case {
            self.shown_rooms.count(grid, *room, &answer);
        }
    }

    /// One record on an accepted grid; what it is by the rules.
    fn compare_drawing(&mut self, pads: &Pads, lent: usize, bytes: &[u8]) -> Found {
        let found = found(pads, bytes);
        let case = judge_case(pads, lent, bytes.to_vec());
        self.hold(&case, &judge_answer((0, 0), found.verdict(), bytes, lent));
        found
    }

    /// Every drawing of a small grid, by two tests of the rules; those that are
    /// listed are the list of a search.
    fn compare_every_drawing(&mut self, pads: &Pads) {
        let mut list = Vec::new();
        for (bytes, verdict) in every_drawing(pads) {
            let found = self.compare_drawing(pads, 4, &bytes);
            let agree = found.verdict() == verdict;
            assert!(agree, "the rules differ: {pads:?} {bytes:?}");
            *self.shown_judged.tried.found.entry(found).or_default() += 1;
            if verdict == 2 {
                list.extend(bytes);
            }
        }
        self.shown_judged.tried.count_grid(pads);
        let case = Case::Search(Search {
            grid: given(pads),
            lent: 6,
            limit: u64::MAX,
            room: list.len(),
        });
        let answer = expected(&case);
        let agree = answer.numbers[2] == 0 && answer.bytes == list;
        assert!(agree, "the rules differ: {pads:?}");
        self.hold(&case, &answer);
    }

    /// One record on a grid of any size.
    fn compare_large(&mut self, pads: &Pads, lent: usize, bytes: &[u8]) -> Found {
        let found = self.compare_drawing(pads, lent, bytes);
        *self.shown_judged.drawn.found.entry(found).or_default() += 1;
        found
    }

    /// A layout that the library lists, which must be a listed one; and with an
    /// edge or a square turned over.
    fn compare_layout(&mut self, pads: &Pads, layout: &[u8]) {
        let found = self.compare_large(pads, 4, layout);
        self.hold_listed(pads, layout, found == Found::Listed);
        self.shown_judged.layouts += 1;
        for change in [flip_edge, turn_one] {
            let mut bytes = layout.to_vec();
            change(&mut self.judge_numbers, pads, &mut bytes);
            self.compare_large(pads, 4, &bytes);
        }
    }

    /// Ends the program where the library lists what it should not, or does not
    /// list what it should.
    fn hold_listed(&self, pads: &Pads, bytes: &[u8], right: bool) {
        if !right {
            println!("{}", self.figures());
            println!("DIFFERENT: the list of {pads:?} and the layout {bytes:?}");
            std::process::exit(1);
        }
    }

    /// Chains drawn at random on a grid of any size, turned over again and
    /// again, and with faults; a listed one must be in the list, if that is
    /// complete.
    fn compare_drawn(&mut self, number: usize) {
        let (pads, mut bytes) = drawn(&mut self.judge_numbers, size_of(number));
        let (layouts, complete) = listed(&pads, 1000, 12 * pads.record_length());
        self.shown_judged.drawn.count_grid(&pads);
        for turns in [0, 1, 1, 2, 4, 8, 16, 32, 100, 300] {
            turn_squares(&mut self.judge_numbers, &pads, &mut bytes, turns);
            let found = self.compare_large(&pads, 4, &bytes);
            let in_list = layouts.contains(&bytes);
            let right = in_list || found != Found::Listed || !complete;
            self.hold_listed(&pads, &bytes, right);
            for _ in 0..2 {
                let (mut pads, mut bytes) = (pads.clone(), bytes.clone());
                spoil(&mut self.judge_numbers, &mut pads, &mut bytes);
                let lent = any_lent(&mut self.judge_numbers, 4);
                self.compare_large(&pads, lent, &bytes);
            }
        }
        for layout in layouts {
            self.compare_layout(&pads, &layout);
        }
    }

    /// A tiny grid, as long as there are any, now and then another small one,
    /// one of any size, and one that is mostly declined.
    fn compare_judged(&mut self) {
        let number = self.shown_judged.turns;
        self.shown_judged.turns += 1;
        if let Some(pads) = tiny_pads(number) {
            self.compare_every_drawing(&pads);
        }
        if number % 20 == 0 {
            let pads = tried_pads(&mut self.judge_numbers);
            self.compare_every_drawing(&pads);
        }
        self.compare_drawn(number);
        let case = declined_judge(&mut self.judge_numbers);
        let answer = expected(&case);
        self.hold(&case, &answer);
        if answer.returned > 0 {
            let number = answer.numbers[0];
            *self.shown_judged.declined.entry(number).or_default() += 1;
        }
    }

    /// One call for common copper.
    fn compare_table(&mut self, case: &Case, answer: &Answer) {
        self.hold(case, answer);
        self.shown_common.count(case, answer);
    }

    /// The grids of one turn, and one that is mostly declined.
    fn compare_common(&mut self) {
        let turn = self.shown_common.turns;
        self.shown_common.turns += 1;
        for (pads, boards) in common_pads(&mut self.common_numbers, turn) {
            self.shown_common.count_grid(&pads);
            for (case, answer) in common_cases(&mut self.common_numbers, &pads, boards) {
                self.compare_table(&case, &answer);
            }
        }
        let case = declined_common(&mut self.common_numbers);
        self.compare_table(&case, &expected(&case));
    }

    fn compare_pairs(&mut self) {
        let turn = self.shown_pairs.turns;
        self.shown_pairs.turns += 1;
        for (case, answer) in pairs_of_turn(&mut self.pair_numbers, turn) {
            self.hold(&case, &answer);
            self.shown_pairs.count(&case, &answer);
        }
    }

    fn compare_walks(&mut self) {
        let turn = self.shown_walks.turns;
        self.shown_walks.turns += 1;
        for case in walks_of_turn(&mut self.walk_numbers, turn) {
            let answer = expected(&case);
            self.hold(&case, &answer);
            self.shown_walks.count(&case, &answer);
        }
    }

    /// The kinds of which more cases are wanted.
    fn kinds_left(&self, wanted: Counts) -> Vec<Compare> {
        let (calls, searches, files) = (wanted.calls, wanted.searches, wanted.files);
        let holes = self.shown_holes.searches;
        let judged = self.shown_judged.records();
        let common = self.shown_common.calls;
        let pairs = self.shown_pairs.pairs;
        let packed = self.shown_packed.slices;
        let walks = self.shown_walks.walks;
        let kinds: [(usize, usize, Compare); 10] = [
            (self.done.calls, calls, Comparison::compare_board),
            (self.done.searches, searches, Comparison::compare_search),
            (self.done.files, files, Comparison::compare_write),
            (packed, files, Comparison::compare_packed),
            (self.done.files, files, Comparison::compare_file),
            (holes, searches, Comparison::compare_holes),
            (judged, calls, Comparison::compare_judged),
            (common, 2 * searches, Comparison::compare_common),
            (pairs, searches, Comparison::compare_pairs),
            (walks, searches, Comparison::compare_walks),
        ];
        let left = kinds.into_iter().filter(|(done, wanted, _)| done < wanted);
        left.map(|(_, _, compare)| compare).collect()
    }

    /// Cases of one kind for a twentieth of a second.
    fn turn(&mut self, compare: Compare) {
        let start = Instant::now();
        while start.elapsed() < Duration::from_millis(50) {
            compare(self);
        }
    }
}

/// The case, made as small as can be, and where the answers differ.
fn report(case: &Case) {
    println!("DIFFERENT, as first found:\n  {case}");
    let small = smallest(case);
    println!("the smallest found:\n  {small}");
    println!("to replay it: oracle case '{small}'");
    show(&small);
}

/// Prints what a case must give and what the library gives.
fn show(case: &Case) -> bool {
    let (wanted, found) = (expected(case), by_library(case));
    show_answers(&wanted, &found);
    let same = wanted == found;
    println!("{}", if same { "no difference" } else { "DIFFERENT" });
    same
}

/// Where two answers differ, and where those of the calls that follow differ.
fn show_answers(wanted: &Answer, found: &Answer) {
    println!(
        "returned: {} wanted, {} found",
        wanted.returned, found.returned
    );
    let signed = |answer: &Answer| answer.signed.iter().map(|n| *n as i128).collect();
    let numbers = |answer: &Answer| answer.numbers.iter().map(|n| *n as i128).collect();
    let cells = |answer: &Answer| answer.cells.iter().map(|n| *n as i128).collect();
    let bytes = |answer: &Answer| answer.bytes.iter().map(|n| *n as i128).collect();
    let table = |answer: &Answer| answer.table.iter().map(|n| *n as i128).collect();
    show_first("answers", signed(wanted), signed(found));
    show_first("answer", numbers(wanted), numbers(found));
    show_first("cells", cells(wanted), cells(found));
    show_first("buffer", bytes(wanted), bytes(found));
    show_first("table", table(wanted), table(found));
    for words in &found.broken {
        println!("broken: {words}");
    }
    for (wanted, found) in wanted.then.iter().zip(&found.then) {
        println!("and then:");
        show_answers(wanted, found);
    }
}

fn show_first(name: &str, wanted: Vec<i128>, found: Vec<i128>) {
    let differs = (0..wanted.len()).find(|at| wanted[*at] != found[*at]);
    if let Some(at) = differs {
        println!("{name}[{at}]: {} wanted, {} found", wanted[at], found[at]);
    }
}

/// Replays one case that was printed; true where nothing differs, nothing
/// where it is not known what the case must give.
pub fn replay_case(text: &str) -> Option<bool> {
    let case = read_case(text);
    is_known(&case).then(|| show(&case))
}

/// Compares for so many seconds, a tenth of the time on each kind.
pub fn compare_for(seconds: u64, seed: u64) {
    println!("seed {seed}");
    let mut comparison = Comparison::new(seed);
    let end = Instant::now() + Duration::from_secs(seconds);
    while Instant::now() < end {
        comparison.turn(|comparison| comparison.compare_board());
        comparison.turn(|comparison| comparison.compare_search());
        comparison.turn(|comparison| comparison.compare_write());
        comparison.turn(|comparison| comparison.compare_packed());
        comparison.turn(|comparison| comparison.compare_file());
        comparison.turn(|comparison| comparison.compare_holes());
        comparison.turn(|comparison| comparison.compare_judged());
        comparison.turn(|comparison| comparison.compare_common());
        comparison.turn(|comparison| comparison.compare_pairs());
        comparison.turn(|comparison| comparison.compare_walks());
        comparison.compare_declined();
        comparison.show_progress();
    }
    comparison.print_end();
}

/// Compares until so many board calls, searches and files are done, as many
/// searches by the rules as searches, as many writes and as many packed slices as
/// files, as many judged records as board calls, twice as many calls for common
/// copper as searches, and as many pairs of runs and as many walks as searches.
pub fn compare_counts(wanted: Counts, seed: u64) {
    println!("seed {seed}");
    let mut comparison = Comparison::new(seed);
    loop {
        let kinds = comparison.kinds_left(wanted);
        if kinds.is_empty() {
            break;
        }
        for _ in 0..10 {
            kinds.iter().for_each(|compare| compare(&mut comparison));
        }
        comparison.compare_declined();
        comparison.show_progress();
    }
    comparison.print_end();
}
