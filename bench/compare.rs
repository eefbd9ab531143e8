//! Both sides on the same inputs, good and damaged, compared bit for bit.

use crate::calls::{Call, Case, outcome};
use crate::drums::{Drum, Random};
use crate::library::{Library, Plain, Reply, Side};
use crate::plain::{CELLS, Given, NODES, Range};
use std::collections::BTreeMap;
use std::fmt::Debug;

fn same<T: PartialEq + Debug>(what: &str, library: T, plain: T) {
    if library != plain {
        eprintln!("{what} differ\nlibrary: {library:.400?}\nplain:   {plain:.400?}");
        std::process::exit(1);
    }
}

/// The measured calls on a measured input.
pub fn measured(case: &Case, calls: &[Call]) {
    for call in calls {
        same(
            call.name(),
            outcome::<Library>(*call, case),
            outcome::<Plain>(*call, case),
        );
    }
}

/// How often each number of refusal came, 0 for accepted calls.
pub type Refusals = BTreeMap<u8, usize>;

/// Calls in a row on one box of a drum, as one side makes them.
fn chain<S: Side>(drum: &Drum, seed: u64) -> (Vec<Reply>, Vec<Vec<Range>>) {
    let mut random = Random::new(seed);
    let given = Given {
        size: drum.size,
        cells: &drum.cells,
        certificate: &drum.certificate,
    };
    let mut ranges = vec![Range { lower: 7, upper: 7 }; drum.size];
    let mut ends = Range::ZERO;
    let mut replies = vec![S::open(given, &mut ranges)];
    let mut boxes = vec![ranges.clone()];
    for _ in 0..6 {
        let node = random.below(drum.size as u64 + 2) as usize;
        let middle = random.from_to(-200_000, 400_000);
        let reading = Range {
            lower: middle - random.from_to(-10, 300_000),
            upper: middle + random.from_to(-10, 300_000),
        };
        replies.push(match random.below(6) {
            0 => S::round(given, &mut ranges),
            1 => S::settle(given, &mut ranges),
            2 => S::reading(given, &mut ranges, node, reading),
            3 => S::at_rest(given, &ranges),
            4 => S::ends(given, &ranges, node, &mut ends),
            _ => S::row_step(given, &mut ranges, node),
        });
        boxes.push(ranges.clone());
        boxes.push(vec![ends]);
    }
    let n = given.size;
    replies.push(S::possible(
        n,
        given.cells,
        &drum.numerators,
        drum.denominator,
    ));
    (replies, boxes)
}

fn beyond(random: &mut Random) -> i64 {
    let sign = 1 - 2 * random.below(2) as i64;
    let limits = [
        i64::MAX,
        (1 << 42) + 1,
        1 << 42,
        (1 << 37) + 1,
        1 << 30,
        (1 << 20) + 1,
        1 << 20,
        1,
        0,
    ];
    sign * limits[random.below(limits.len() as u64) as usize]
}

/// A drum with one thing wrong with it, or none.
fn damaged(mut drum: Drum, random: &mut Random) -> Drum {
    let place = random.below(drum.cells.len() as u64) as usize;
    let node = random.below(drum.size as u64) as usize;
    match random.below(12) {
        0 => drum.cells[place].lower = beyond(random),
        1 => drum.cells[place].upper = beyond(random),
        2 => drum.certificate[node] = beyond(random),
        3 => drum.numerators[node] = beyond(random),
        4 => drum.denominator = beyond(random),
        5 => drum.cells[node * (drum.size + 2)].upper = beyond(random),
        6 => drum.size += 1,
        7 => drop(drum.certificate.pop()),
        8 => drum.numerators[node] += random.from_to(-40_000_000, 40_000_000),
        9 => {
            for cell in drum
                .cells
                .chunks_mut(drum.size + 1)
                .flat_map(|row| row.last_mut())
            {
                *cell = Range {
                    lower: cell.lower.saturating_mul(9_000),
                    upper: cell.upper.saturating_mul(9_000),
                };
            }
        }
        10 => {
            for cell in &mut drum.cells[node * (drum.size + 1)..][..drum.size + 1] {
                *cell = Range {
                    lower: -cell.upper,
                    upper: -cell.lower,
                };
            }
        }
        _ => {}
    }
    drum
}

/// Random drums, most of them damaged, with calls in a row.
pub fn drums(count: u64) -> Refusals {
    let mut refusals = Refusals::new();
    for seed in 1..=count {
        let mut random = Random::new(seed);
        let size = 1 + random.below(10) as usize;
        let drum = damaged(Drum::new(size), &mut random);
        let library = chain::<Library>(&drum, seed);
        for reply in &library.0 {
            *refusals.entry(reply.refusal).or_default() += 1;
        }
        same("calls in a row", library, chain::<Plain>(&drum, seed));
    }
    refusals
}

fn read<S: Side>(file: &[u8], room: (usize, usize)) -> (Reply, Vec<Range>, Vec<i64>) {
    let mut cells = vec![Range { lower: 7, upper: 7 }; room.0];
    let mut certificate = vec![7; room.1];
    let reply = S::read_file(file, &mut cells, &mut certificate);
    (reply, cells, certificate)
}

/// Heat files of random drums, most of them with a byte or a line changed.
pub fn files(count: u64) -> Refusals {
    let mut refusals = Refusals::new();
    for seed in 1..=count {
        let mut random = Random::new(seed);
        let drum = damaged(Drum::new(1 + random.below(6) as usize), &mut random);
        let size = drum.certificate.len().max(1);
        let mut file = Drum { size, ..drum }.file(random.below(60) as usize);
        let place = random.below(file.len() as u64) as usize;
        let bytes = b"0123456789-  abu\nsize";
        let byte = bytes[random.below(bytes.len() as u64) as usize];
        match random.below(6) {
            0 | 1 => file[place] = byte,
            2 => file.insert(place, byte),
            3 => drop(file.remove(place)),
            4 => {
                let mut lines: Vec<&[u8]> = file.split_inclusive(|byte| *byte == b'\n').collect();
                let (i, j) = (
                    random.below(lines.len() as u64),
                    random.below(lines.len() as u64),
                );
                lines.swap(i as usize, j as usize);
                file = lines.concat();
            }
            _ => {}
        }
        let room = match random.below(8) {
            0 => (
                random.below(CELLS as u64) as usize,
                random.below(NODES as u64) as usize,
            ),
            _ => (CELLS, NODES),
        };
        let library = read::<Library>(&file, room);
        *refusals.entry(library.0.refusal).or_default() += 1;
        same("files", library, read::<Plain>(&file, room));
    }
    refusals
}
