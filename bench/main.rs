//! The library against plain Rust: both sides make the same calls on the same inputs, are compared bit for bit, and are measured in turn.
//!
//!     main compare                   makes many calls on both sides, on good and damaged inputs
//!     main measure                   prints for each measured thing: size, name, nanoseconds of the library, and of plain Rust
//!     main count CALL SIZE SIDE      makes one call once, for a count of its instructions
//!     main table                     prints such lines as a table

mod calls;
mod compare;
mod drums;
mod library;
mod plain;
mod table;

use calls::{Call, Case, Room, counted};
use compare::Refusals;
use drums::Drum;
use library::{Library, Plain};
use std::hint::black_box;
use table::median;

// Shifts the code of both sides by so many bytes against the lines of the processor's cache, since short loops depend on where they lie.
std::arch::global_asm!(
    ".pushsection .text.hot.shift, \"axR\", @progbits",
    ".balign 64",
    concat!(".skip ", env!("BENCH_SHIFT")),
    ".popsection",
);

const SIZES: [usize; 4] = [2, 8, 16, 32];
const SAMPLES: usize = 61;

/// Each sample lasts so long at least.
const SAMPLE_NANOSECONDS: f64 = 200_000.0;

/// A drum's calls; its file is measured on its own.
const DRUM_CALLS: [Call; 7] = [
    Call::Open,
    Call::Round,
    Call::Settle,
    Call::Settled,
    Call::AtRest,
    Call::Ends,
    Call::Possible,
];

/// Nanoseconds of a call in each sample, on both sides.
#[derive(Default)]
struct Times {
    library: Vec<f64>,
    plain: Vec<f64>,
}

impl Times {
    /// One sample of each side, one after the other.
    fn sample(&mut self, call: Call, case: &Case, room: &mut Room, times: u32, is_swapped: bool) {
        if is_swapped {
            self.plain.push(room.time::<Plain>(call, case, times));
            self.library.push(room.time::<Library>(call, case, times));
        } else {
            self.library.push(room.time::<Library>(call, case, times));
            self.plain.push(room.time::<Plain>(call, case, times));
        }
    }

    /// What each sample costs over one of another call, for each of so many parts that lie between.
    fn over(&self, other: &Times, parts: usize) -> Times {
        let each = |more: &[f64], less: &[f64]| {
            let differences = more.iter().zip(less).map(|(m, l)| m - l);
            differences.map(|t| t / parts as f64).collect()
        };
        Times {
            library: each(&self.library, &other.library),
            plain: each(&self.plain, &other.plain),
        }
    }

    fn print(&self, size: usize, what: &str) {
        let (library, plain) = (median(&self.library), median(&self.plain));
        println!("{size}|{what}|{library:.1}|{plain:.1}");
    }
}

/// Samples of several calls on one case: each call in turn, and both sides of each, so that they meet the same disturbances.
fn take<const N: usize>(calls: [Call; N], case: &Case) -> [Times; N] {
    let mut room = Room::new(case);
    let repeats = calls.map(|call| {
        let once = room.time::<Plain>(call, case, 10).max(1.0);
        (SAMPLE_NANOSECONDS / once).ceil() as u32
    });
    let mut taken = calls.map(|_| Times::default());
    for sample in 0..SAMPLES {
        for ((call, times), repeats) in calls.iter().zip(&mut taken).zip(repeats) {
            times.sample(*call, case, &mut room, repeats, sample % 2 == 1);
        }
    }
    taken
}

fn measure_drum(size: usize) {
    let case = Case::new(Drum::new(size), 0);
    compare::measured(&case, &DRUM_CALLS);
    let [open, round, settle, settled, at_rest, ends, possible] = take(DRUM_CALLS, &case);
    open.print(size, "opening");
    settle
        .over(&settled, case.rounds - 1)
        .print(size, "a round alone");
    at_rest.over(&ends, 1).print(size, "at rest alone");
    settle.print(size, &format!("settling ({} rounds)", case.rounds));
    round.print(size, "a round as a call");
    at_rest.print(size, "at rest as a call");
    ends.print(size, "ends as a call");
    possible.print(size, "a point");
}

fn files() -> [(&'static str, Case); 2] {
    let long = Drum::longest_numbers();
    let remarks = 60_000 - long.file(0).len();
    [
        ("file", Case::new(Drum::new(32), 0)),
        ("file of longest numbers", Case::of_file(long.file(remarks))),
    ]
}

fn measure_files() {
    for (name, case) in files() {
        compare::measured(&case, &[Call::ReadFile]);
        let [read] = take([Call::ReadFile], &case);
        read.print(32, &format!("{name}, {} bytes", case.file.len()));
    }
}

fn print_refusals(what: &str, refusals: &Refusals) {
    let counts: Vec<String> = refusals
        .iter()
        .map(|(n, count)| format!("{n}: {count}"))
        .collect();
    println!(
        "{what} agree; calls by refusal (0: accepted): {}",
        counts.join(", ")
    );
}

fn compare() {
    print_refusals("4000 drums with calls in a row", &compare::drums(4_000));
    print_refusals("20000 files", &compare::files(20_000));
}

fn measure() {
    for size in SIZES {
        measure_drum(size);
    }
    measure_files();
}

/// Makes one call once. Size 0 is the file of longest numbers.
fn count(call: &str, size: usize, side: &str) {
    let call = Call::ALL
        .into_iter()
        .find(|it| it.name() == call)
        .expect("a call");
    let case = match size {
        0 => files().into_iter().next_back().expect("a file").1,
        _ => Case::new(Drum::new(size), 0),
    };
    let mut room = Room::new(&case);
    println!("rounds {}", case.rounds);
    black_box(match side {
        "library" => counted::<Library>(call, &case, &mut room),
        _ => counted::<Plain>(call, &case, &mut room),
    });
}

fn main() {
    let words: Vec<String> = std::env::args().skip(1).collect();
    match words.iter().map(String::as_str).collect::<Vec<_>>()[..] {
        ["compare"] => compare(),
        ["measure"] => measure(),
        ["table"] => table::print(),
        ["count", call, size, side] => count(call, size.parse().expect("a size"), side),
        _ => panic!("main compare, measure, table, or count CALL SIZE SIDE"),
    }
}
