//! What is measured: calls on drums and files.

use crate::drums::Drum;
use crate::library::{Plain, Reply, Side};
use crate::plain::{CELLS, Given, NODES, Range};
use std::hint::black_box;

/// A call of the interface on one input.
#[derive(Clone, Copy, PartialEq, Eq, Debug)]
pub enum Call {
    Open,
    Round,
    Settle,
    Settled,
    AtRest,
    Ends,
    Possible,
    ReadFile,
}

impl Call {
    pub const ALL: [Call; 8] = [
        Call::Open,
        Call::Round,
        Call::Settle,
        Call::Settled,
        Call::AtRest,
        Call::Ends,
        Call::Possible,
        Call::ReadFile,
    ];

    pub fn name(self) -> &'static str {
        match self {
            Call::Open => "open",
            Call::Round => "round",
            Call::Settle => "settle",
            Call::Settled => "settled",
            Call::AtRest => "at-rest",
            Call::Ends => "ends",
            Call::Possible => "possible",
            Call::ReadFile => "read-file",
        }
    }
}

/// A drum with its first box, its box at rest and the rounds between, and a heat file.
pub struct Case {
    pub drum: Drum,
    pub file: Vec<u8>,
    first: Vec<Range>,
    rest: Vec<Range>,
    pub rounds: usize,
}

fn given(drum: &Drum) -> Given<'_> {
    Given {
        size: drum.size,
        cells: &drum.cells,
        certificate: &drum.certificate,
    }
}

impl Case {
    /// A drum that opens; its boxes are found by plain Rust, and the comparison shows that the library finds the same.
    pub fn new(drum: Drum, remark_bytes: usize) -> Case {
        let file = drum.file(remark_bytes);
        let mut first = vec![Range::ZERO; drum.size];
        accepted(Plain::open(given(&drum), &mut first));
        let mut rest = first.clone();
        let mut rounds = 1;
        while accepted(Plain::round(given(&drum), &mut rest)) > 0 {
            rounds += 1;
        }
        Case {
            drum,
            file,
            first,
            rest,
            rounds,
        }
    }

    /// A file that is only read.
    pub fn of_file(file: Vec<u8>) -> Case {
        Case {
            drum: Drum::new(1),
            file,
            first: Vec::new(),
            rest: Vec::new(),
            rounds: 0,
        }
    }
}

fn accepted(reply: Reply) -> usize {
    assert_eq!(
        reply.refusal, 0,
        "an input of the benchmark is refused: {reply:?}"
    );
    reply.value
}

#[repr(C)]
struct Timespec {
    seconds: i64,
    nanoseconds: i64,
}

unsafe extern "C" {
    fn clock_gettime(clock: i32, time: *mut Timespec) -> i32;
}

/// The processor time of this thread (`CLOCK_THREAD_CPUTIME_ID`): what other programs take of the machine is not in it.
fn nanoseconds() -> i64 {
    let mut time = Timespec {
        seconds: 0,
        nanoseconds: 0,
    };
    let status = unsafe { clock_gettime(3, &mut time) };
    assert_eq!(status, 0, "no clock");
    time.seconds * 1_000_000_000 + time.nanoseconds
}

/// What calls write into.
pub struct Room {
    ranges: Vec<Range>,
    ends: Range,
    cells: Vec<Range>,
    certificate: Vec<i64>,
}

/// All that a call answers and writes.
#[derive(PartialEq, Eq, Debug)]
pub struct Outcome {
    reply: Reply,
    ranges: Vec<Range>,
    ends: Range,
    cells: Vec<Range>,
    certificate: Vec<i64>,
}

impl Room {
    pub fn new(case: &Case) -> Room {
        Room {
            ranges: case.first.clone(),
            ends: Range::ZERO,
            cells: vec![Range::ZERO; CELLS],
            certificate: vec![0; NODES],
        }
    }

    /// Makes a call once. A round and settling begin at the first box; the box at rest is settled again and asked for its rest and for ends.
    #[inline(always)]
    fn make<S: Side>(&mut self, call: Call, case: &Case) -> Reply {
        let drum = black_box(&case.drum);
        match call {
            Call::Open => S::open(given(drum), &mut self.ranges),
            Call::Round => {
                self.ranges.copy_from_slice(&case.first);
                S::round(given(drum), &mut self.ranges)
            }
            Call::Settle => {
                self.ranges.copy_from_slice(&case.first);
                S::settle(given(drum), &mut self.ranges)
            }
            Call::Settled => {
                self.ranges.copy_from_slice(&case.rest);
                S::settle(given(drum), &mut self.ranges)
            }
            Call::AtRest => S::at_rest(given(drum), &case.rest),
            Call::Ends => S::ends(given(drum), &case.rest, drum.size, &mut self.ends),
            Call::Possible => {
                S::possible(drum.size, &drum.cells, &drum.numerators, drum.denominator)
            }
            Call::ReadFile => S::read_file(
                black_box(&case.file),
                &mut self.cells,
                &mut self.certificate,
            ),
        }
    }

    #[inline(always)]
    fn repeat<S: Side>(&mut self, call: Call, case: &Case, times: u32) -> f64 {
        let start = nanoseconds();
        for _ in 0..times {
            black_box(self.make::<S>(call, case));
        }
        (nanoseconds() - start) as f64 / f64::from(times)
    }

    /// The nanoseconds of a call, made so many times.
    pub fn time<S: Side>(&mut self, call: Call, case: &Case, times: u32) -> f64 {
        match call {
            Call::Open => self.repeat::<S>(Call::Open, case, times),
            Call::Round => self.repeat::<S>(Call::Round, case, times),
            Call::Settle => self.repeat::<S>(Call::Settle, case, times),
            Call::Settled => self.repeat::<S>(Call::Settled, case, times),
            Call::AtRest => self.repeat::<S>(Call::AtRest, case, times),
            Call::Ends => self.repeat::<S>(Call::Ends, case, times),
            Call::Possible => self.repeat::<S>(Call::Possible, case, times),
            Call::ReadFile => self.repeat::<S>(Call::ReadFile, case, times),
        }
    }
}

/// Makes a call once, and tells all that it answered and wrote. (Its own name lets a count of instructions begin and end here.)
#[inline(never)]
pub fn counted<S: Side>(call: Call, case: &Case, room: &mut Room) -> Reply {
    room.make::<S>(call, case)
}

pub fn outcome<S: Side>(call: Call, case: &Case) -> Outcome {
    let mut room = Room::new(case);
    let reply = counted::<S>(call, case, &mut room);
    Outcome {
        reply,
        ranges: room.ranges,
        ends: room.ends,
        cells: room.cells,
        certificate: room.certificate,
    }
}
