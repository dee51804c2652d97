// The fixed sequences of board calls of base 5: a stream of calls chosen by
// a seed, and for each sequence a line with the reference's checksum over
// edges, ends, flag and answer after every call.

use crate::answers::{make_call, read_state, Board, Call, Pads, State};
use crate::calls::grids_and_calls;
use crate::random::{any_pads, any_plan, wired_pads, Chooser, Random};
use crate::stream::{put_call, put_number, put_pads, Checksum, Reader};

#[derive(Default)]
struct Counts {
    sequences: usize,
    calls: usize,
    went_on: usize,
    on_flagged: usize,
    below_first: usize,
    full_of_checkpoints: usize,
}

/// What a sequence shows, counted while it is replayed.
fn count(counts: &mut Counts, pads: &Pads, calls: &[Call]) {
    let mut board = Board::new(pads);
    let (mut standing, mut most, mut below, mut on_flagged) = (0, 0, false, 0);
    for call in calls {
        on_flagged += (matches!(call, Call::Decide(..)) && board.inconsistent()) as usize;
        match call {
            Call::Checkpoint => standing += 1,
            Call::Undo if standing == 0 => below = true,
            Call::Undo => standing -= 1,
            _ => {}
        }
        most = most.max(standing);
        make_call(&mut board, *call);
    }
    assert!(most <= 256, "more than 256 checkpoints");
    counts.sequences += 1;
    counts.calls += calls.len();
    counts.on_flagged += on_flagged;
    counts.went_on += (on_flagged >= 3) as usize;
    counts.below_first += below as usize;
    counts.full_of_checkpoints += (most == 256) as usize;
}

/// Every second sequence goes on after the flag is set.
fn usual_calls(random: &mut Random, pads: &Pads, number: usize) -> Vec<Call> {
    let plan = any_plan(random, if number % 2 == 0 { 0 } else { 4 });
    let mut chooser = Chooser::new(random, pads);
    if number % 5 == 0 {
        chooser.follow_layout(pads, plan.calls / 2);
    }
    chooser.follow(plan);
    chooser.calls
}

/// 256 checkpoints with decisions between them, then every one undone, and
/// two undos more.
pub fn checkpoint_calls(random: &mut Random, pads: &Pads) -> Vec<Call> {
    let careful = if random.chance(50) { 99 } else { 0 };
    let mut chooser = Chooser::new(random, pads);
    chooser.decide(careful, 50);
    while chooser.standing < 256 {
        chooser.make(Call::Checkpoint);
        if chooser.calls.len() % 3 == 0 {
            chooser.decide(careful, 50);
        }
    }
    chooser.decide(careful, 50);
    for _ in 0..258 {
        chooser.make(Call::Undo);
    }
    chooser.decide(careful, 50);
    chooser.calls
}

fn put_sequence(stream: &mut Vec<u8>, pads: &Pads, calls: &[Call]) {
    put_pads(stream, pads);
    put_number(stream, calls.len() as u64, 2);
    for call in calls {
        put_call(stream, *call);
    }
}

/// The sequences of the two texts; then every size ten times; then ten
/// sequences with 256 checkpoints.
fn choose_sequences(random: &mut Random) -> Vec<(Pads, Vec<Call>)> {
    let mut sequences = grids_and_calls(include_str!("../dozen.txt"));
    sequences.extend(grids_and_calls(include_str!("../rare.txt")));
    for number in 0..2250 {
        let (height, width) = (2 + number / 10 / 15, 2 + number / 10 % 15);
        let pads = if number % 5 == 0 {
            wired_pads(random, height, width)
        } else {
            any_pads(random, height, width)
        };
        let calls = usual_calls(random, &pads, number);
        sequences.push((pads, calls));
    }
    for number in 0..10 {
        let (height, width) = [(2, 16), (3, 3), (4, 14), (16, 2), (16, 16)][number % 5];
        let pads = any_pads(random, height, width);
        let calls = checkpoint_calls(random, &pads);
        sequences.push((pads, calls));
    }
    sequences
}

pub fn stream(seed: u64) -> Vec<u8> {
    let mut bytes = Vec::new();
    let mut counts = Counts::default();
    for (pads, calls) in choose_sequences(&mut Random::new(seed)) {
        count(&mut counts, &pads, &calls);
        put_sequence(&mut bytes, &pads, &calls);
    }
    eprintln!(
        "{} sequences, {} calls, {} decisions on flagged boards; {} sequences go on after the flag is set, {} undo below the first checkpoint, {} reach 256 checkpoints; {} bytes",
        counts.sequences, counts.calls, counts.on_flagged, counts.went_on, counts.below_first, counts.full_of_checkpoints, bytes.len()
    );
    bytes
}

/// A line for each sequence: its number from 1, its calls, its checksum.
pub fn answers(stream: &[u8]) -> String {
    let mut reader = Reader {
        bytes: stream,
        at: 0,
    };
    let mut text = String::new();
    let mut number = 0;
    while !reader.at_end() {
        number += 1;
        let pads = reader.pads();
        let calls = reader.number(2);
        let mut board = Board::new(&pads);
        let mut checksum = Checksum::new();
        let mut state = State::default();
        for _ in 0..calls {
            let answer = make_call(&mut board, reader.call());
            read_state(&board, &mut state);
            checksum.take_call(answer, &state);
        }
        text += &format!("{number},{calls},{}\n", checksum.sum);
    }
    text
}

/// One sequence of a stream, call by call, to find where a replay departs.
pub fn print_steps(stream: &[u8], wanted: usize) {
    let mut reader = Reader {
        bytes: stream,
        at: 0,
    };
    for number in 1.. {
        let pads = reader.pads();
        let calls: Vec<Call> = (0..reader.number(2)).map(|_| reader.call()).collect();
        if number < wanted {
            continue;
        }
        println!("{pads:?}");
        let mut board = Board::new(&pads);
        let mut checksum = Checksum::new();
        let mut state = State::default();
        for call in calls {
            let answer = make_call(&mut board, call);
            read_state(&board, &mut state);
            checksum.take_call(answer, &state);
            println!(
                "{call:?} answer {answer} flag {} checksum {}",
                state.flag, checksum.sum
            );
            println!(" edges {:?}\n ends {:?}", state.edges, state.ends);
        }
        return;
    }
}
