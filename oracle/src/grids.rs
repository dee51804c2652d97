// The fixed grids of base 6: a stream of grids with limits and rooms, and
// for each run a line with what the reference gives. Where the reference's
// own `solve` ends in reasonable time, every run is checked against it.

use crate::answers::{limited, whole, Pads, Run};
use crate::calls::read_pads;
use crate::random::{any_pads, wired_pads, Random};
use crate::stream::{put_number, put_pads, Checksum, Reader};

/// What the program `routes` takes.
pub const LIMIT: u64 = 1000000;
pub const ROOM: usize = 61504;

/// A search that visits more boards than this is not run to its end.
const REASONABLE: u64 = 30000;

/// The byte that fills the buffer before a run.
const FILL: u8 = 7;

const KNOWN: [&str; 8] = [
    "2,2 ,/,",
    "2,2 5,5/,",
    "2,2 5,/,5",
    "2,2 ,5/5,",
    "2,2 5,5/5,5",
    "2,2 5,/,6",
    "2,2 5,/,",
    "3,3 ,5,/5,6,/,,6",
];

/// A grid, and the limit and room of each run on it.
pub struct Task {
    pub pads: Pads,
    pub runs: Vec<(u64, usize)>,
}

/// The whole list of a grid by `solve`, where it visits at most so many boards.
pub fn ended(pads: &Pads, boards: u64) -> Option<Run> {
    let run = limited(pads, boards, usize::MAX);
    if run.outcome != 0 {
        return None;
    }
    let all = whole(pads);
    assert!(
        run == all,
        "backtrack written again differs from solve: {pads:?}"
    );
    Some(all)
}

/// A run must be a beginning of the whole list.
pub fn check_beginning(all: &Run, run: &Run, limit: u64, room: usize, length: usize) {
    assert!(run.bytes == all.bytes[..run.bytes.len()] && run.visited <= all.visited);
    assert!(run.layouts * length == run.bytes.len());
    match run.outcome {
        0 => assert!(run == all),
        1 => assert!(run.visited == limit && limit < all.visited),
        _ => assert!(run.layouts < all.layouts && room - run.bytes.len() < length),
    }
}

/// Limits and rooms about the places where a run ends; a run that visits no
/// board ends at once.
pub fn runs_of(random: &mut Random, all: &Run, length: usize, kind: usize) -> Vec<(u64, usize)> {
    let fitting = all.layouts.min(ROOM / length) * length;
    let mut runs = vec![(LIMIT, ROOM)];
    match kind % 4 {
        0 => runs.extend([(all.visited.saturating_sub(1), ROOM), (all.visited, ROOM)]),
        1 => runs.extend([(LIMIT, fitting), (LIMIT, fitting.saturating_sub(1))]),
        2 => {
            runs.push((random.below(all.visited.max(1) as usize) as u64, ROOM));
            runs.push((random.below(2) as u64, ROOM));
        }
        _ => {
            let limit = random.below(all.visited as usize + 2) as u64;
            runs.push((limit, random.below(fitting + length)));
            runs.push((LIMIT, length - 1));
        }
    }
    runs
}

/// A grid whose search ends; `solvable` asks for one with a layout.
fn choose_ended(random: &mut Random, height: usize, width: usize, solvable: bool) -> (Pads, Run) {
    loop {
        let pads = if solvable {
            wired_pads(random, height, width)
        } else {
            any_pads(random, height, width)
        };
        if let Some(all) = ended(&pads, REASONABLE) {
            let searched = all.visited > 1 || random.chance(10);
            if searched && (!solvable || all.layouts > 0) {
                return (pads, all);
            }
        }
    }
}

fn choose_spent(random: &mut Random, size: usize) -> Task {
    loop {
        let pads = any_pads(random, size, size);
        if limited(&pads, REASONABLE, ROOM).outcome == 1 {
            let limit = 1000 + random.below(REASONABLE as usize - 1000) as u64;
            return Task {
                pads,
                runs: vec![(limit, ROOM)],
            };
        }
    }
}

/// K1 to K8; every size twice; small sizes more; and searches that are spent.
fn choose_tasks(random: &mut Random) -> Vec<Task> {
    let mut tasks = Vec::new();
    let mut add = |random: &mut Random, pads: Pads, all: Run| {
        let runs = runs_of(random, &all, pads.record_length(), tasks.len());
        tasks.push(Task { pads, runs });
    };
    for text in KNOWN {
        let pads = read_pads(text);
        let all = whole(&pads);
        add(random, pads, all);
    }
    for number in 0..450 {
        let (height, width) = (2 + number / 2 / 15, 2 + number / 2 % 15);
        let (pads, all) = choose_ended(random, height, width, number % 2 == 0);
        add(random, pads, all);
    }
    for number in 0..120 {
        let (height, width) = (2 + random.below(5), 2 + random.below(5));
        let (pads, all) = choose_ended(random, height, width, number % 3 == 0);
        add(random, pads, all);
    }
    for number in 0..12 {
        tasks.push(choose_spent(random, 10 + number % 7));
    }
    tasks
}

pub fn stream(seed: u64) -> Vec<u8> {
    let mut bytes = Vec::new();
    for task in choose_tasks(&mut Random::new(seed)) {
        put_pads(&mut bytes, &task.pads);
        put_number(&mut bytes, task.runs.len() as u64, 1);
        for (limit, room) in task.runs {
            put_number(&mut bytes, limit, 8);
            put_number(&mut bytes, room as u64, 4);
        }
    }
    bytes
}

fn read_task(reader: &mut Reader) -> Task {
    let pads = reader.pads();
    let runs = (0..reader.number(1))
        .map(|_| (reader.number(8), reader.number(4) as usize))
        .collect();
    Task { pads, runs }
}

/// The checksum of the whole room after a run.
fn room_checksum(run: &Run, room: usize) -> u64 {
    let mut checksum = Checksum::new();
    checksum.take_bytes(&run.bytes);
    for _ in run.bytes.len()..room {
        checksum.take(FILL as u64);
    }
    checksum.sum
}

/// A line for each run: the grid's number from 1, outcome, layouts, visited,
/// fewest, checksum.
pub fn answers(stream: &[u8]) -> String {
    let mut reader = Reader {
        bytes: stream,
        at: 0,
    };
    let mut text = String::new();
    let (mut grid, mut runs, mut visited, mut layouts) = (0, 0, 0, 0);
    let (mut outcomes, mut with_layouts) = ([0; 3], 0);
    while !reader.at_end() {
        let task = read_task(&mut reader);
        let all = ended(&task.pads, REASONABLE);
        grid += 1;
        with_layouts += all.as_ref().is_some_and(|all| all.layouts > 0) as usize;
        for (limit, room) in task.runs {
            let run = limited(&task.pads, limit, room);
            if let Some(all) = &all {
                check_beginning(all, &run, limit, room, task.pads.record_length());
            }
            let sum = room_checksum(&run, room);
            text += &format!(
                "{grid},{},{},{},{},{sum}\n",
                run.outcome, run.layouts, run.visited, run.fewest
            );
            runs += 1;
            visited += run.visited;
            layouts += run.layouts;
            outcomes[run.outcome as usize] += 1;
        }
    }
    eprintln!("{grid} grids ({with_layouts} with layouts), {runs} runs, {visited} visited boards, {layouts} layouts; outcomes {outcomes:?}; {} bytes", stream.len());
    text
}
