// How long the reference takes: processor time of this program for a search
// of each grid file with the limit and room of `routes`, best of five, a
// short search repeated until it takes 0.2 seconds.

use crate::answers::{limited, whole, Pads};
use crate::grids::{LIMIT, ROOM};
use crate::routes::read;

#[repr(C)]
struct Seconds {
    whole: i64,
    billionths: i64,
}

extern "C" {
    fn clock_gettime(clock: i32, time: *mut Seconds) -> i32;
}

const PROCESSOR_TIME_OF_PROCESS: i32 = 2;

fn processor_time() -> f64 {
    let mut time = Seconds {
        whole: 0,
        billionths: 0,
    };
    unsafe { clock_gettime(PROCESSOR_TIME_OF_PROCESS, &mut time) };
    time.whole as f64 + time.billionths as f64 * 1e-9
}

/// Seconds for one turn of the work, which is repeated until it takes 0.2.
pub fn seconds_each(mut work: impl FnMut()) -> f64 {
    let start = processor_time();
    let mut turns = 0;
    while turns == 0 || processor_time() - start < 0.2 {
        work();
        turns += 1;
    }
    (processor_time() - start) / turns as f64
}

pub fn best_of_five(mut work: impl FnMut()) -> f64 {
    (0..5)
        .map(|_| seconds_each(&mut work))
        .fold(f64::INFINITY, f64::min)
}

fn line(name: &str, pads: &Pads) -> f64 {
    let run = limited(pads, LIMIT, ROOM);
    let seconds = best_of_five(|| {
        std::hint::black_box(limited(std::hint::black_box(pads), LIMIT, ROOM));
    });
    let by_solve = if run.outcome == 0 {
        let time = best_of_five(|| {
            std::hint::black_box(whole(std::hint::black_box(pads)));
        });
        format!("{time:.4}")
    } else {
        "-".to_string()
    };
    let each = seconds * 1e9 / run.visited as f64;
    println!("{name} {} {seconds:.4} {each:.0} {by_solve}", run.visited);
    seconds
}

/// A line for each file: name, visited boards, seconds with limit and room,
/// billionths of a second for each board, seconds of the reference's own
/// `solve` where the search ends; then the sum of the seconds. A file that is
/// refused or has holes only says so.
pub fn print_times(files: &[(&str, Vec<u8>)]) {
    let mut sum = 0.0;
    for (name, file) in files {
        match read(file) {
            Ok(pads) if pads.has_hole() => println!("{name} has holes"),
            Ok(pads) => sum += line(name, &pads),
            Err(refusal) => println!("{name} refused {refusal:?}"),
        }
    }
    println!("sum {sum:.4}");
}
