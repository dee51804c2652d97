// The proved library, called through its C interface. The header hunekowha.h
// in the library's crate says what each argument and each number means. A slice
// is lent as a pointer and a length.

extern "C" {
    fn hunekowha_record(
        height: usize,
        width: usize,
        count: usize,
        k: usize,
        buffer: *const u8,
        buffer_length: usize,
        answer: *mut u64,
        answer_length: usize,
    ) -> usize;
}

pub fn record(
    (height, width): (usize, usize),
    (count, k): (usize, usize),
    buffer: &[u8],
    answer: &mut [u64],
) -> usize {
    unsafe {
        hunekowha_record(
            height,
            width,
            count,
            k,
            buffer.as_ptr(),
            buffer.len(),
            answer.as_mut_ptr(),
            answer.len(),
        )
    }
}

/// A function that is given maybe a grid, maybe a limit, slices that it reads and
/// slices that it writes, in this order.
macro_rules! function {
    ($name:ident = $symbol:ident(
        $(grid $cells:ident;)?
        $(number $limit:ident;)?
        $(reads $read:ident: $of:ty;)*
        $(writes $written:ident: $to:ty;)*
    )) => {
        pub fn $name(
            $((height, width): (usize, usize), $cells: &[i64],)?
            $($limit: u64,)?
            $($read: &[$of],)*
            $($written: &mut [$to],)*
        ) -> usize {
            extern "C" {
                fn $symbol(
                    $(height: usize, width: usize, $cells: *const i64, _: usize,)?
                    $($limit: u64,)?
                    $($read: *const $of, _: usize,)*
                    $($written: *mut $to, _: usize,)*
                ) -> usize;
            }
            unsafe {
                $symbol(
                    $(height, width, $cells.as_ptr(), $cells.len(),)?
                    $($limit,)?
                    $($read.as_ptr(), $read.len(),)*
                    $($written.as_mut_ptr(), $written.len(),)*
                )
            }
        }
    };
}

function!(read = hunekowha_read(reads file: u8; writes answer: u64; writes cells: i64;));
function!(read_packed = hunekowha_read_packed(
    reads bytes: u8; writes answer: u64; writes cells: i64;
));
function!(write = hunekowha_write(grid cells; writes text: u8; writes answer: u64;));
function!(solve = hunekowha_solve(
    grid cells; number limit; writes buffer: u8; writes answer: u64;
));
function!(walk = hunekowha_walk(
    grid cells; number limit; writes buffer: u8; writes answer: u64;
));
function!(common = hunekowha_common(
    grid cells; number limit; writes buffer: u8; writes table: u8; writes answer: u64;
));
function!(judge = hunekowha_judge(grid cells; reads record: u8; writes answer: u64;));
function!(replay = hunekowha_replay(grid cells; reads calls: u64; writes answer: i64;));
