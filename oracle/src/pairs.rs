// Pairs of runs: two searches of one grid, the second with at least the limit
// and at least the room of the first, as an operator goes on where a search was
// spent. What the two calls gave is judged by the order's words, which need no
// reference, on grids of all sizes, with holes and without. Where it is known
// what a search gives, each of the two is held beside that as well; on larger
// grids with holes only beside one more search of the library.

use crate::answers::{Pads, Run};
use crate::cases::{Again, Case, Search};
use crate::chosen::{any_fill, any_search, declined_search, size_of};
use crate::common::{common_pads, run_within, whole_within, FEW_BOARDS, WIDE_LIMITS};
use crate::drawn::drawn;
use crate::expected::{
    board_pads, expected_run, grid_refusal, lent_bytes, put_bytes, search_answer,
    solved_by_library, Answer, BEHIND,
};
use crate::grids::ROOM;
use crate::holes::{by_library, run_told};
use crate::random::Random;

/// One of the two calls: what stood in its buffer and behind it, and what the
/// call gave.
struct Made {
    before: Vec<u8>,
    answer: Answer,
}

impl Made {
    fn new(search: &Search, before: Vec<u8>, call: impl Fn(&Search, Vec<u8>) -> Answer) -> Self {
        Made {
            answer: call(search, before.clone()),
            before,
        }
    }

    fn room(&self) -> usize {
        self.before.len() - BEHIND
    }

    fn told(&self) -> Option<&[u64]> {
        self.answer.numbers.get(..6)
    }

    /// The result, with the list that it tells of.
    fn run(&self, length: usize) -> Run {
        run_told(&self.answer.numbers, self.answer.bytes.clone(), length)
    }

    /// Whether the list lies in the room, and all behind it is as it was.
    fn keeps_rest(&self, run: &Run) -> bool {
        let end = run.bytes.len();
        end <= self.room() && self.answer.bytes[end..] == self.before[end..]
    }
}

/// Both calls, one after the other, each with what it is lent.
fn both(search: &Search, again: Again, call: impl Fn(&Search, Vec<u8>) -> Answer) -> [Made; 2] {
    let [before, mut second_before] = lent_bytes(again.fill, [search.room, again.room]);
    let first = Made::new(search, before, &call);
    if again.left {
        put_bytes(&mut second_before, &first.answer.bytes[..search.room]);
    }
    let second = Made::new(&search.again(again), second_before, &call);
    [first, second]
}

/// Which of the order's words the two calls break, on a grid whose records have
/// this length; and whether a run that was not spent has another result when the
/// room is the same. Where the slice for the answer was too short, nothing is told.
fn broken_words(length: usize, [first, second]: &[Made; 2]) -> Vec<String> {
    let (Some(told), Some(told_then)) = (first.told(), second.told()) else {
        return Vec::new();
    };
    let (run, then) = (first.run(length), second.run(length));
    let changed = then != run;
    let same_room = first.room() == second.room();
    let words = [
        ("another number or index", told[..2] != told_then[..2]),
        (
            "the first list is no beginning of the second",
            !then.bytes.starts_with(&run.bytes),
        ),
        ("layouts fall", then.layouts < run.layouts),
        ("visited falls", then.visited < run.visited),
        ("fewest rises", then.fewest > run.fewest),
        ("complete, then changed", run.outcome == 0 && changed),
        (
            "not spent, then changed in the same room",
            run.outcome != 1 && same_room && changed,
        ),
        (
            "a byte behind a list changed",
            !first.keeps_rest(&run) || !second.keeps_rest(&then),
        ),
    ];
    let broken = words.into_iter().filter(|(_, broken)| *broken);
    let with_numbers = |(words, _)| format!("{words}: {told:?}, then {told_then:?}");
    broken.map(with_numbers).collect()
}

pub fn pair_by_library(search: &Search, again: Again) -> Answer {
    let made = both(search, again, solved_by_library);
    let length = board_pads(&search.grid).record_length();
    let broken = broken_words(length, &made);
    Answer {
        broken,
        ..answer_of(made)
    }
}

/// The first call's answer, and then the second's.
fn answer_of([first, second]: [Made; 2]) -> Answer {
    Answer {
        then: vec![second.answer],
        ..first.answer
    }
}

/// What the two calls must give, where it is known what a search gives.
fn pair_answer(search: &Search, again: Again, run_of: impl Fn(&Search) -> Run) -> Answer {
    let refusal = grid_refusal(&search.grid);
    answer_of(both(search, again, |search, before| {
        search_answer(refusal, &run_of(search), search.lent, before)
    }))
}

pub fn expected_pair(search: &Search, again: Again) -> Answer {
    pair_answer(search, again, expected_run)
}

/// A limit about the places where a list ends: often any before its end, seldom
/// one past 32 bits.
pub fn any_limit(random: &mut Random, list: &Run) -> u64 {
    match random.below(8) {
        0 => list.visited.saturating_sub(1),
        1 => list.visited,
        2 => list.visited + 1 + random.below(1000) as u64,
        3 => random.choose(&WIDE_LIMITS),
        4 => random.below(2) as u64,
        _ => random.below(list.visited as usize + 1) as u64,
    }
}

/// A room about the places where a list ends, or a record of it does.
pub fn any_room(random: &mut Random, list: &Run, length: usize) -> usize {
    let end = list.bytes.len();
    match random.below(6) {
        0 => end.saturating_sub(1),
        1 => end,
        2 => end + random.below(2 * length),
        3 => random.below(list.layouts + 1) * length,
        4 => random.choose(&[0, length - 1, length]),
        _ => random.below(end + length),
    }
}

/// Two numbers, the second at least the first; one time in three the same twice.
fn ascending<T: Ord + Copy>(random: &mut Random, any: impl Fn(&mut Random) -> T) -> (T, T) {
    let (one, other) = (any(random), any(random));
    match random.below(3) {
        0 => (one, one),
        _ => (one.min(other), one.max(other)),
    }
}

/// A second search; every second time in the buffer that the first left.
fn any_again(random: &mut Random, limit: u64, room: usize) -> Again {
    Again {
        limit,
        room,
        fill: any_fill(random),
        left: random.chance(50),
    }
}

/// The highest limit for a room. Where the list is not the whole one, a run is
/// sure to end only by its limit, or in a room that the list fills.
pub fn highest_limit(list: &Run, room: usize) -> u64 {
    match list.outcome != 0 && room >= list.bytes.len() {
        true => 2 * list.visited,
        false => u64::MAX,
    }
}

/// Limits and rooms about the places where a list ends.
fn any_pair(random: &mut Random, pads: &Pads, list: &Run) -> (Search, Again) {
    let length = pads.record_length();
    let (room, more_room) = ascending(random, |random| any_room(random, list, length));
    let most = highest_limit(list, more_room);
    let (limit, more) = ascending(random, |random| any_limit(random, list).min(most));
    let search = any_search(random, pads, limit, room);
    (search, any_again(random, more, more_room))
}

/// Three pairs on one grid, with what each must give.
fn pairs_on(random: &mut Random, pads: &Pads, boards: u64) -> Vec<(Case, Answer)> {
    let whole = whole_within(pads, boards);
    let beginning = || by_library(pads, boards, ROOM);
    let list = whole.clone().unwrap_or_else(beginning);
    let run_of = |search: &Search| match &whole {
        Some(all) => run_within(pads, all, search),
        None => expected_run(search),
    };
    let pair = |_| {
        let (search, again) = any_pair(random, pads, &list);
        let answer = pair_answer(&search, again, run_of);
        (Case::Pair(search, again), answer)
    };
    (0..3).map(pair).collect()
}

/// Two searches of a grid that is mostly declined; where it is, the second may
/// have any limit.
fn declined_pair(random: &mut Random) -> (Search, Again) {
    let search = declined_search(random);
    let most = match grid_refusal(&search.grid) {
        (0, 0) => 2000,
        _ => u64::MAX,
    };
    let limit = random.choose(&[0, 1001, 1 << 32, u64::MAX]).min(most);
    let room = search.room + random.choose(&[0, 0, 1, 1000]);
    let again = any_again(random, limit.max(search.limit), room);
    (search, again)
}

/// The pairs of one turn, with what each must give: on the grids that are chosen
/// for common copper, on one more of any size, about three of five with holes,
/// and on one that is mostly declined.
pub fn pairs_of_turn(random: &mut Random, turn: usize) -> Vec<(Case, Answer)> {
    let mut grids = common_pads(random, turn);
    grids.push((drawn(random, size_of(turn)).0, FEW_BOARDS));
    let mut pairs = Vec::new();
    for (pads, boards) in grids {
        pairs.extend(pairs_on(random, &pads, boards));
    }
    let (search, again) = declined_pair(random);
    let answer = expected_pair(&search, again);
    pairs.push((Case::Pair(search, again), answer));
    pairs
}
