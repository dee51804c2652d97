// Takes answers from the Rust reference; README.md beside this folder says
// what each command does and how to run it.

use std::io::Read;

mod answers;
mod calls;
mod grids;
mod random;
mod routes;
mod sequences;
mod stream;
mod time;

#[cfg(library)]
mod bench;
#[cfg(library)]
mod cases;
#[cfg(library)]
mod chosen;
#[cfg(library)]
mod common;
#[cfg(library)]
mod compare;
#[cfg(library)]
mod drawn;
#[cfg(library)]
mod expected;
#[cfg(library)]
mod holes;
#[cfg(library)]
mod judged;
#[cfg(library)]
mod library;
#[cfg(library)]
mod packed;
#[cfg(library)]
mod pairs;
#[cfg(library)]
mod shown;
#[cfg(library)]
mod smallest;
#[cfg(library)]
mod walks;

const USAGE: &str = "usage:
  oracle calls FILE                     the answers to the calls of a text, as JSON
  oracle sequences SEED STREAM ANSWERS  write a stream of board calls and its answers
  oracle grids SEED STREAM ANSWERS      write a stream of grids and the answers of their searches
  oracle steps STREAM NUMBER            one sequence of a stream, call by call
  oracle routes < GRID-FILE             what the program `routes` prints
  oracle routes LIMIT ROOM < GRID-FILE  the same with another limit and room
  oracle time GRID-FILE..               how long the reference takes
and, where it is built with the library:
  oracle compare seconds S [SEED]       compare the library with the reference for so long
  oracle compare counts CALLS SEARCHES FILES [SEED]
  oracle case 'TEXT'                    one case, as the comparison printed it
  oracle bench GRID-FILE..              the table of times of the library and the reference
  oracle judge-time GRID-FILE..         how long the library takes to judge a drawing";

/// The exit status where the grid has holes, which the reference does not know.
const NOT_KNOWN: i32 = 3;

fn end_not_known() -> ! {
    eprintln!("the grid has holes, which the reference does not know: no answer");
    std::process::exit(NOT_KNOWN);
}

/// The commands that need the library; false for any other.
#[cfg(library)]
fn with_library(words: &[&str]) -> bool {
    let number = |text: &str| text.parse::<u64>().expect("a number");
    let seed = |given: &[&str]| given.first().map_or_else(seed_of_now, |text| number(text));
    match words {
        ["compare", "seconds", seconds, given @ ..] => {
            compare::compare_for(number(seconds), seed(given));
        }
        ["compare", "counts", calls, searches, files, given @ ..] => {
            let wanted = compare::Counts {
                calls: number(calls) as usize,
                searches: number(searches) as usize,
                files: number(files) as usize,
            };
            compare::compare_counts(wanted, seed(given));
        }
        ["case", text] => match compare::replay_case(text) {
            Some(true) => {}
            Some(false) => std::process::exit(1),
            None => end_not_known(),
        },
        ["bench", files @ ..] => bench::print_table(&named(files)),
        ["judge-time", files @ ..] => bench::print_judge_times(&named(files)),
        _ => return false,
    }
    true
}

#[cfg(library)]
fn seed_of_now() -> u64 {
    let now = std::time::SystemTime::now().duration_since(std::time::UNIX_EPOCH);
    now.expect("a clock").as_secs()
}

#[cfg(not(library))]
fn with_library(_: &[&str]) -> bool {
    false
}

fn named<'a>(files: &[&'a str]) -> Vec<(&'a str, Vec<u8>)> {
    files.iter().map(|file| (*file, read(file))).collect()
}

fn read(file: &str) -> Vec<u8> {
    std::fs::read(file).unwrap_or_else(|error| panic!("{file}: {error}"))
}

fn write(file: &str, bytes: &[u8]) {
    std::fs::write(file, bytes).unwrap_or_else(|error| panic!("{file}: {error}"));
}

/// What is printed for the file on standard input.
fn print_routes(limit: u64, room: usize) {
    let mut file = Vec::new();
    std::io::stdin()
        .read_to_end(&mut file)
        .expect("standard input");
    match routes::printed(&file, limit, room) {
        Some(text) => print!("{text}"),
        None => end_not_known(),
    }
}

fn main() {
    let arguments: Vec<String> = std::env::args().skip(1).collect();
    let words: Vec<&str> = arguments.iter().map(String::as_str).collect();
    match words.as_slice() {
        ["calls", file] => calls::print_answers(&String::from_utf8(read(file)).expect("text")),
        ["sequences", seed, stream, answers] => {
            let bytes = sequences::stream(seed.parse().expect("a seed"));
            write(stream, &bytes);
            write(answers, sequences::answers(&bytes).as_bytes());
        }
        ["grids", seed, stream, answers] => {
            let bytes = grids::stream(seed.parse().expect("a seed"));
            write(stream, &bytes);
            write(answers, grids::answers(&bytes).as_bytes());
        }
        ["steps", stream, number] => {
            sequences::print_steps(&read(stream), number.parse().expect("a number"));
        }
        ["time", files @ ..] => time::print_times(&named(files)),
        ["routes"] => print_routes(grids::LIMIT, grids::ROOM),
        ["routes", limit, room] => print_routes(
            limit.parse().expect("a limit"),
            room.parse().expect("a room"),
        ),
        words => {
            if !with_library(words) {
                eprintln!("{USAGE}");
                std::process::exit(2);
            }
        }
    }
}
