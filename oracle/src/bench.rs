// The library and the reference side by side: processor time of one search
// with the limit and room of `routes`, best of five, the two taken in turn, a
// short search repeated until it takes 0.2 seconds; as a table in Markdown. And
// how long the library takes to judge a drawing.

use crate::answers::{limited, Pads, LINE};
use crate::drawn::listed;
use crate::grids::{LIMIT, ROOM};
use crate::library;
use crate::routes::read;
use crate::time::{best_of_five, seconds_each};
use std::hint::black_box;

struct Row {
    name: String,
    visited: u64,
    reference: f64,
    library: f64,
}

/// One search by the library; the visited boards.
fn by_library(pads: &Pads, buffer: &mut [u8]) -> u64 {
    let mut answer = [0; 6];
    library::solve(
        (pads.height, pads.width),
        &pads.cells,
        LIMIT,
        buffer,
        &mut answer,
    );
    answer[4]
}

fn measure(name: &str, pads: &Pads) -> Row {
    let mut buffer = vec![0; ROOM];
    let visited = limited(pads, LIMIT, ROOM).visited;
    assert_eq!(
        visited,
        by_library(pads, &mut buffer),
        "visited boards of {name}"
    );
    let mut row = Row {
        name: name.to_string(),
        visited,
        reference: f64::INFINITY,
        library: f64::INFINITY,
    };
    for _ in 0..5 {
        let reference = seconds_each(|| {
            black_box(limited(black_box(pads), LIMIT, ROOM));
        });
        let library = seconds_each(|| {
            black_box(by_library(black_box(pads), &mut buffer));
        });
        row.reference = row.reference.min(reference);
        row.library = row.library.min(library);
    }
    row
}

fn print_row(row: &Row) {
    let each = |seconds: f64| seconds * 1e9 / row.visited as f64;
    println!(
        "| {} | {} | {:.0} | {:.0} | {:.2} |",
        row.name,
        row.visited,
        each(row.reference),
        each(row.library),
        row.library / row.reference
    );
}

/// A row for each file, and one for the sum of the times.
pub fn print_table(files: &[(&str, Vec<u8>)]) {
    println!("| grid | visited boards | Rust, ns for each | ours, ns for each | ratio |");
    println!("|---|---|---|---|---|");
    let mut total = Row {
        name: "all".to_string(),
        visited: 0,
        reference: 0.0,
        library: 0.0,
    };
    for (file, bytes) in files {
        let name = file.rsplit('/').next().unwrap_or(file);
        let name = name.strip_suffix(".csv").unwrap_or(name);
        let Ok(pads) = read(bytes) else {
            panic!("{file} is refused");
        };
        assert!(!pads.has_hole(), "{file} has holes");
        let row = measure(name, &pads);
        print_row(&row);
        total.visited += row.visited;
        total.reference += row.reference;
        total.library += row.library;
    }
    print_row(&total);
}

/// Microseconds to judge one of the records, on the average, best of five; each
/// must have the verdict.
fn judge_time(pads: &Pads, records: &[Vec<u8>], verdict: u64) -> f64 {
    let (size, mut answer) = ((pads.height, pads.width), [0; 4]);
    let seconds = best_of_five(|| {
        for record in records {
            library::judge(size, &pads.cells, black_box(record), &mut answer);
            assert_eq!(answer[2], verdict);
        }
    });
    seconds * 1e6 / records.len() as f64
}

/// The layouts of each file, and the same with a wrong byte at the last place.
pub fn print_judge_times(files: &[(&str, Vec<u8>)]) {
    for (file, bytes) in files {
        let Ok(pads) = read(bytes) else {
            panic!("{file} is refused");
        };
        let (layouts, _) = listed(&pads, LIMIT, ROOM);
        assert!(!layouts.is_empty(), "{file} has no layouts");
        let mut spoilt = layouts.clone();
        for record in spoilt.iter_mut() {
            *record.last_mut().expect("a place") = LINE;
        }
        println!(
            "{file}: {} layouts, {:.2} us for each; {:.2} us with the last byte wrong",
            layouts.len(),
            judge_time(&pads, &layouts, 2),
            judge_time(&pads, &spoilt, 0)
        );
    }
}
