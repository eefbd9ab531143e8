//! The inputs: drums of any size, the same in every run, and heat files of them.

use crate::plain::Range;

/// A drum with a certificate, and a point that is possible for it.
#[derive(Clone)]
pub struct Drum {
    pub size: usize,
    pub cells: Vec<Range>,
    pub certificate: Vec<i64>,
    pub numerators: Vec<i64>,
    pub denominator: i64,
}

/// Numbers that look random (xorshift).
pub struct Random(u64);

impl Random {
    pub fn new(seed: u64) -> Random {
        Random(seed.wrapping_mul(0x9e37_79b9_7f4a_7c15) | 1)
    }

    pub fn below(&mut self, limit: u64) -> u64 {
        self.0 ^= self.0 << 13;
        self.0 ^= self.0 >> 7;
        self.0 ^= self.0 << 17;
        (self.0 >> 11) % limit
    }

    /// A number from one to another, both included.
    pub fn from_to(&mut self, lower: i64, upper: i64) -> i64 {
        lower + self.below((upper - lower + 1) as u64) as i64
    }
}

impl Drum {
    /// Each node exchanges heat with each other and with the room. Temperatures lie at 20 to 200 °C; the right sides are those of one
    /// choice of temperatures, some watts to either side, so that these temperatures are possible.
    pub fn new(size: usize) -> Drum {
        let mut random = Random::new(size as u64);
        let certificate: Vec<i64> = (0..size).map(|_| random.from_to(990, 1_010)).collect();
        let temperatures: Vec<i64> = (0..size).map(|_| random.from_to(20_000, 200_000)).collect();
        let mut cells = Vec::new();
        for i in 0..size {
            cells.extend(row(&mut random, i, &temperatures));
        }
        Drum {
            size,
            cells,
            certificate,
            numerators: temperatures.iter().map(|t| t * 1_000).collect(),
            denominator: 1_000,
        }
    }

    /// The heat file of the drum, behind so many bytes of remarks.
    pub fn file(&self, remark_bytes: usize) -> Vec<u8> {
        let mut lines = vec![format!("size {}", self.size)];
        for (i, row) in (1..).zip(self.cells.chunks(self.size + 1)) {
            for (j, cell) in (1..).zip(&row[..self.size]) {
                lines.push(format!("a {i} {j} {} {}", cell.lower, cell.upper));
            }
        }
        for (i, row) in (1..).zip(self.cells.chunks(self.size + 1)) {
            let side = row[self.size];
            lines.push(format!("b {i} {} {}", side.lower, side.upper));
        }
        for (i, number) in (1..).zip(&self.certificate) {
            lines.push(format!("u {i} {number}"));
        }
        let mut file = remarks(remark_bytes);
        let trailer = format!("end {} {}", file.len(), lines.len());
        for line in lines.iter().chain([&trailer]) {
            file.extend(line.bytes());
            file.push(b'\n');
        }
        file
    }

    /// A drum of 32 nodes whose numbers are as long as a file may write them. (Such a drum cannot be opened; it is read.)
    pub fn longest_numbers() -> Drum {
        let mut random = Random::new(13);
        let mut long = || random.from_to(1_000_000_000_000, 9_999_999_999_998);
        let size = 32;
        let cells = (0..size * (size + 1)).map(|_| {
            let lower = -long();
            Range {
                lower,
                upper: lower + 1,
            }
        });
        Drum {
            size,
            cells: cells.collect(),
            certificate: (0..size).map(|_| long()).collect(),
            numerators: Vec::new(),
            denominator: 1,
        }
    }
}

/// A row of a drum: its coefficients, and the right side last.
fn row(random: &mut Random, node: usize, temperatures: &[i64]) -> Vec<Range> {
    let mut row: Vec<Range> = (0..temperatures.len())
        .map(|_| {
            let conductance = random.from_to(2_000, 20_000);
            Range {
                lower: -conductance - random.from_to(0, conductance / 200),
                upper: -conductance,
            }
        })
        .collect();
    row[node] = Range::ZERO;
    let others: i64 = row.iter().map(|a| -a.lower).sum();
    let room = random.from_to(others / 3 + 3_000, others / 2 + 6_000);
    row[node] = Range {
        lower: others + room,
        upper: others + room + room / 100,
    };
    let middle = row
        .iter()
        .zip(temperatures)
        .map(|(a, t)| (a.lower + a.upper) / 2 * t);
    let side: i64 = middle.sum();
    let watts = random.from_to(1_000_000, 20_000_000);
    row.push(Range {
        lower: side - watts,
        upper: side + watts,
    });
    row
}

/// Lines of a log book.
fn remarks(bytes: usize) -> Vec<u8> {
    let line = b"the drum was swept, the probe was set back by a hand's breadth, and the tip was replaced\n";
    let mut text: Vec<u8> = line.iter().copied().cycle().take(bytes).collect();
    if let Some(last) = text.last_mut() {
        *last = b'\n';
    }
    text
}
