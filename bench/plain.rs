//! The library's work in plain Rust, against the same rules (`docs/MODEL.md`, `docs/HEAT_FILE.md`): what it is measured against.
//! A drum is checked once, as it is opened; from then on its numbers are known to be small, and sums and products are plain.
//! It takes the library's three shortcuts; with `--cfg formulas` it follows the formulas as they read.

use std::ops::{Add, Mul, Neg, Sub};

pub const NODES: usize = 32;
pub const CELLS: usize = NODES * (NODES + 1);
const ROUNDS: usize = 64;

/// Products go by signs, the first box divides only where an end grows, and a point goes through the cells once.
const SHORTCUTS: bool = !cfg!(formulas);

const COEFFICIENT_LIMIT: i64 = 1 << 20;
const RIGHT_SIDE_LIMIT: i64 = 1 << 42;
const CERTIFICATE_LIMIT: i64 = 1 << 20;
const END_LIMIT: u64 = 1 << 30;
const NUMERATOR_LIMIT: i64 = 1 << 37;
const DENOMINATOR_LIMIT: i64 = 1 << 20;

/// Why a call is refused, with the place where one is named.
#[derive(Clone, Copy, PartialEq, Eq, Debug)]
pub enum Refusal {
    File,
    Shape(usize),
    Size(usize),
    Node(usize),
    Order(usize),
    Crossed(usize),
    Limit { row: usize, column: usize },
    Certificate(usize),
    Dominance(usize),
    Wide(usize),
    Conflict(usize),
    Point(usize),
    Room,
}

/// Two ends, both included.
#[repr(C)]
#[derive(Clone, Copy, PartialEq, Eq, Default, Debug)]
pub struct Range {
    pub lower: i64,
    pub upper: i64,
}

impl Range {
    pub const ZERO: Range = Range { lower: 0, upper: 0 };

    pub fn is_in_order(self) -> bool {
        self.lower <= self.upper
    }

    fn contains(self, number: i64) -> bool {
        self.lower <= number && number <= self.upper
    }

    fn is_within(self, limit: i64) -> bool {
        -limit <= self.lower && self.upper <= limit
    }

    fn meets(self, other: Range) -> bool {
        self.lower <= other.upper && other.lower <= self.upper
    }

    /// The common part, if there is one.
    fn shared(self, other: Range) -> Option<Range> {
        let common = Range {
            lower: self.lower.max(other.lower),
            upper: self.upper.min(other.upper),
        };
        common.is_in_order().then_some(common)
    }

    /// What a cell with these ends says: nothing where they are crossed.
    fn told(self) -> Range {
        if self.is_in_order() {
            self
        } else {
            Range::ZERO
        }
    }

    fn magnitude(self) -> u64 {
        self.lower.unsigned_abs().max(self.upper.unsigned_abs())
    }

    fn mignitude(self) -> u64 {
        if self.contains(0) {
            0
        } else {
            self.lower.unsigned_abs().min(self.upper.unsigned_abs())
        }
    }
}

impl Add for Range {
    type Output = Range;

    fn add(self, other: Range) -> Range {
        Range {
            lower: self.lower + other.lower,
            upper: self.upper + other.upper,
        }
    }
}

impl Sub for Range {
    type Output = Range;

    fn sub(self, other: Range) -> Range {
        Range {
            lower: self.lower - other.upper,
            upper: self.upper - other.lower,
        }
    }
}

impl Neg for Range {
    type Output = Range;

    fn neg(self) -> Range {
        Range {
            lower: -self.upper,
            upper: -self.lower,
        }
    }
}

/// A number times one of two, by its sign.
fn scaled(number: i64, above: i64, below: i64) -> i64 {
    number * if 0 <= number { above } else { below }
}

impl Mul for Range {
    type Output = Range;

    fn mul(self, other: Range) -> Range {
        if SHORTCUTS && self.upper <= 0 {
            return Range {
                lower: scaled(other.upper, self.lower, self.upper),
                upper: scaled(other.lower, self.upper, self.lower),
            };
        }
        if SHORTCUTS && 0 <= self.lower {
            return Range {
                lower: scaled(other.lower, self.lower, self.upper),
                upper: scaled(other.upper, self.upper, self.lower),
            };
        }
        let p = self.lower * other.lower;
        let q = self.lower * other.upper;
        let r = self.upper * other.lower;
        let s = self.upper * other.upper;
        Range {
            lower: p.min(q).min(r.min(s)),
            upper: p.max(q).max(r.max(s)),
        }
    }
}

impl Mul<i64> for Range {
    type Output = Range;

    fn mul(self, number: i64) -> Range {
        let p = self.lower * number;
        let q = self.upper * number;
        Range {
            lower: p.min(q),
            upper: p.max(q),
        }
    }
}

/// The quotients of two ranges, rounded outward; the divisor does not hold 0.
fn quotient(numerator: Range, divisor: Range) -> Range {
    let (m, d) = if divisor.lower > 0 {
        (numerator, divisor)
    } else {
        (-numerator, -divisor)
    };
    let lower_by = if m.lower >= 0 { d.upper } else { d.lower };
    let upper_by = if m.upper >= 0 { d.lower } else { d.upper };
    Range {
        lower: m.lower.div_euclid(lower_by),
        upper: -(-m.upper).div_euclid(upper_by),
    }
}

/// The cells of a drum, row after row, with the right side last.
#[derive(Clone, Copy)]
pub struct Drum<'a> {
    size: usize,
    cells: &'a [Range],
}

struct Row<'a> {
    coefficients: &'a [Range],
    side: Range,
}

impl<'a> Row<'a> {
    fn new(cells: &'a [Range]) -> Row<'a> {
        let (side, coefficients) = cells.split_last().expect("a row has a right side");
        Row {
            coefficients,
            side: side.told(),
        }
    }

    fn coefficients(&self) -> impl Iterator<Item = Range> + use<'a> {
        self.coefficients.iter().map(|cell| cell.told())
    }
}

impl<'a> Drum<'a> {
    pub fn new(size: usize, cells: &'a [Range]) -> Result<Drum<'a>, Refusal> {
        if (1..=NODES).contains(&size) && cells.len() == size * (size + 1) {
            Ok(Drum { size, cells })
        } else {
            Err(Refusal::Size(0))
        }
    }

    fn rows(&self) -> impl Iterator<Item = Row<'a>> + use<'a> {
        self.cells.chunks_exact(self.size + 1).map(Row::new)
    }

    fn row(&self, node: usize) -> Row<'a> {
        let width = self.size + 1;
        Row::new(&self.cells[(node - 1) * width..][..width])
    }

    /// Refuses the first cell that is beyond its limits.
    fn check(&self) -> Result<(), Refusal> {
        for (row, cells) in (1..).zip(self.rows()) {
            for (column, coefficient) in (1..).zip(cells.coefficients()) {
                if !coefficient.is_within(COEFFICIENT_LIMIT) {
                    return Err(Refusal::Limit { row, column });
                }
            }
            if !cells.side.is_within(RIGHT_SIDE_LIMIT) {
                let column = self.size + 1;
                return Err(Refusal::Limit { row, column });
            }
        }
        Ok(())
    }

    /// Refuses another count of numerators, a denominator that is not allowed, or the first numerator that is not.
    fn check_point(&self, numerators: &[i64], denominator: i64) -> Result<(), Refusal> {
        if numerators.len() != self.size || !(1..=DENOMINATOR_LIMIT).contains(&denominator) {
            return Err(Refusal::Point(0));
        }
        let is_allowed = |n: &i64| (-NUMERATOR_LIMIT..=NUMERATOR_LIMIT).contains(n);
        match numerators.iter().position(|n| !is_allowed(n)) {
            Some(i) => Err(Refusal::Point(i + 1)),
            None => Ok(()),
        }
    }

    /// Whether every row fits, or the first cell that is beyond its limits.
    fn fits(&self, numerators: &[i64], denominator: i64) -> Result<bool, Refusal> {
        let mut all = true;
        for (row, cells) in (1..).zip(self.rows()) {
            let mut sum = Range::ZERO;
            for ((column, coefficient), n) in (1..).zip(cells.coefficients()).zip(numerators) {
                if !coefficient.is_within(COEFFICIENT_LIMIT) {
                    return Err(Refusal::Limit { row, column });
                }
                sum = sum + coefficient * *n;
            }
            if !cells.side.is_within(RIGHT_SIDE_LIMIT) {
                let column = self.size + 1;
                return Err(Refusal::Limit { row, column });
            }
            all &= sum.meets(cells.side * denominator);
        }
        Ok(all)
    }

    /// Whether some drum within the ranges has the temperatures numerators / denominator.
    pub fn possible(&self, numerators: &[i64], denominator: i64) -> Result<bool, Refusal> {
        let checked = self.check_point(numerators, denominator);
        if SHORTCUTS && checked.is_ok() {
            return self.fits(numerators, denominator);
        }
        self.check()?;
        checked?;
        Ok(self.rows().all(|row| {
            let sum = row
                .coefficients()
                .zip(numerators)
                .fold(Range::ZERO, |sum, (coefficient, n)| sum + coefficient * *n);
            sum.meets(row.side * denominator)
        }))
    }
}

/// The right side of a row, and what its diagonal has over the rest of it.
#[derive(Clone, Copy, Default)]
struct Weight {
    side: u64,
    margin: u64,
}

impl Weight {
    fn new(node: usize, row: &Row, certificate: &[i64]) -> Result<Weight, Refusal> {
        let mut margin = 0;
        for (column, (coefficient, number)) in (1..).zip(row.coefficients().zip(certificate)) {
            if column == node {
                margin += coefficient.mignitude() as i64 * number;
            } else {
                margin -= coefficient.magnitude() as i64 * number;
            }
        }
        if margin < 1 {
            return Err(Refusal::Dominance(node));
        }
        Ok(Weight {
            side: row.side.magnitude(),
            margin: margin as u64,
        })
    }

    fn end(&self, number: u64) -> u64 {
        (number * self.side).div_ceil(self.margin)
    }

    /// The end of this row where it is larger than another, without a division where it is not.
    fn larger(&self, number: u64, end: u64) -> u64 {
        match end.checked_mul(self.margin) {
            Some(most) if most < number * self.side => self.end(number),
            _ => end,
        }
    }
}

/// The largest quotient of a row, rounded up.
fn largest_end(number: u64, weights: &[Weight]) -> u64 {
    if SHORTCUTS {
        return weights.iter().fold(0, |end, w| w.larger(number, end));
    }
    let ends = weights.iter().map(|w| w.end(number));
    ends.max().unwrap_or(0)
}

fn check_certificate(size: usize, certificate: &[i64]) -> Result<(), Refusal> {
    if certificate.len() != size {
        return Err(Refusal::Certificate(0));
    }
    let is_allowed = |number: &i64| (1..=CERTIFICATE_LIMIT).contains(number);
    match certificate.iter().position(|number| !is_allowed(number)) {
        Some(i) => Err(Refusal::Certificate(i + 1)),
        None => Ok(()),
    }
}

/// A drum with the box of its temperatures that are still possible.
pub struct Roast<'a> {
    drum: Drum<'a>,
    ranges: [Range; NODES],
}

impl<'a> Roast<'a> {
    pub fn open(drum: Drum<'a>, certificate: &[i64]) -> Result<Roast<'a>, Refusal> {
        drum.check()?;
        check_certificate(drum.size, certificate)?;
        let mut weights = [Weight::default(); NODES];
        for ((node, row), weight) in (1..).zip(drum.rows()).zip(&mut weights) {
            *weight = Weight::new(node, &row, certificate)?;
        }
        let weights = &weights[..drum.size];
        let mut ranges = [Range::ZERO; NODES];
        for ((i, number), range) in certificate.iter().enumerate().zip(&mut ranges) {
            let number = *number as u64;
            let end = largest_end(number, weights);
            if end > END_LIMIT {
                return Err(Refusal::Wide(i + 1));
            }
            *range = Range {
                lower: -(end as i64),
                upper: end as i64,
            };
        }
        Ok(Roast { drum, ranges })
    }

    pub fn ranges(&self) -> &[Range] {
        &self.ranges[..self.drum.size]
    }

    fn check_node(&self, node: usize) -> Result<(), Refusal> {
        if (1..=self.drum.size).contains(&node) {
            Ok(())
        } else {
            Err(Refusal::Node(node))
        }
    }

    pub fn reading(&mut self, node: usize, reading: Range) -> Result<bool, Refusal> {
        self.check_node(node)?;
        if !reading.is_in_order() {
            return Err(Refusal::Crossed(node));
        }
        let range = &mut self.ranges[node - 1];
        let next = range.shared(reading).ok_or(Refusal::Conflict(node))?;
        let is_changed = *range != next;
        *range = next;
        Ok(is_changed)
    }

    /// What a node's row leaves of its range.
    fn narrowed(&self, node: usize) -> Option<Range> {
        let row = self.drum.row(node);
        let mut sum = Range::ZERO;
        for (column, (coefficient, range)) in (1..).zip(row.coefficients().zip(self.ranges())) {
            if column != node {
                sum = sum + coefficient * *range;
            }
        }
        let diagonal = row.coefficients[node - 1].told();
        if diagonal.contains(0) {
            return None;
        }
        self.ranges[node - 1].shared(quotient(row.side - sum, diagonal))
    }

    fn step(&mut self, node: usize) -> Result<bool, Refusal> {
        let next = self.narrowed(node).ok_or(Refusal::Conflict(node))?;
        let range = &mut self.ranges[node - 1];
        let is_changed = *range != next;
        *range = next;
        Ok(is_changed)
    }

    pub fn row_step(&mut self, node: usize) -> Result<bool, Refusal> {
        self.check_node(node)?;
        self.step(node)
    }

    /// Row steps 1 to n; a conflict undoes them all.
    pub fn round(&mut self) -> Result<usize, Refusal> {
        let before = self.ranges;
        let mut changes = 0;
        for node in 1..=self.drum.size {
            match self.step(node) {
                Ok(is_changed) => changes += usize::from(is_changed),
                Err(refusal) => {
                    self.ranges = before;
                    return Err(refusal);
                }
            }
        }
        Ok(changes)
    }

    /// Makes up to 64 rounds, and stops behind one that changes nothing; whether the box is then at rest.
    pub fn settle(&mut self) -> Result<bool, Refusal> {
        for _ in 0..ROUNDS {
            if self.round()? == 0 {
                return Ok(true);
            }
        }
        Ok(self.at_rest())
    }

    pub fn at_rest(&self) -> bool {
        (1..=self.drum.size).all(|node| self.narrowed(node) == Some(self.ranges[node - 1]))
    }

    pub fn ends(&self, node: usize) -> Result<Range, Refusal> {
        self.check_node(node)?;
        Ok(self.ranges[node - 1])
    }
}

/// What a caller hands over with each call: cells, a certificate, and the box that the last call left.
#[derive(Clone, Copy)]
pub struct Given<'a> {
    pub size: usize,
    pub cells: &'a [Range],
    pub certificate: &'a [i64],
}

impl<'a> Given<'a> {
    fn open(self, count: usize) -> Result<Roast<'a>, Refusal> {
        let drum = Drum::new(self.size, self.cells)?;
        if count != self.size {
            return Err(Refusal::Size(0));
        }
        Roast::open(drum, self.certificate)
    }

    /// Opens the drum, and takes the ranges of the box as readings.
    fn resume(self, ranges: &[Range]) -> Result<Roast<'a>, Refusal> {
        let mut roast = self.open(ranges.len())?;
        for (node, range) in (1..).zip(ranges) {
            roast.reading(node, *range)?;
        }
        Ok(roast)
    }

    /// A call that narrows the box; a refused one leaves it.
    fn narrow<T>(
        self,
        ranges: &mut [Range],
        call: impl FnOnce(&mut Roast) -> Result<T, Refusal>,
    ) -> Result<T, Refusal> {
        let mut roast = self.resume(ranges)?;
        let answer = call(&mut roast)?;
        ranges.copy_from_slice(roast.ranges());
        Ok(answer)
    }
}

/// Writes the first box.
#[inline(never)]
pub fn open(given: Given, ranges: &mut [Range]) -> Result<usize, Refusal> {
    let roast = given.open(ranges.len())?;
    ranges.copy_from_slice(roast.ranges());
    Ok(0)
}

#[inline(never)]
pub fn row_step(given: Given, ranges: &mut [Range], node: usize) -> Result<usize, Refusal> {
    given
        .narrow(ranges, |roast| roast.row_step(node))
        .map(usize::from)
}

#[inline(never)]
pub fn round(given: Given, ranges: &mut [Range]) -> Result<usize, Refusal> {
    given.narrow(ranges, |roast| roast.round())
}

#[inline(never)]
pub fn settle(given: Given, ranges: &mut [Range]) -> Result<usize, Refusal> {
    given
        .narrow(ranges, |roast| roast.settle())
        .map(usize::from)
}

#[inline(never)]
pub fn reading(
    given: Given,
    ranges: &mut [Range],
    node: usize,
    range: Range,
) -> Result<usize, Refusal> {
    given
        .narrow(ranges, |roast| roast.reading(node, range))
        .map(usize::from)
}

#[inline(never)]
pub fn at_rest(given: Given, ranges: &[Range]) -> Result<usize, Refusal> {
    Ok(usize::from(given.resume(ranges)?.at_rest()))
}

/// Writes a node's two ends.
#[inline(never)]
pub fn ends(
    given: Given,
    ranges: &[Range],
    node: usize,
    ends: &mut Range,
) -> Result<usize, Refusal> {
    *ends = given.resume(ranges)?.ends(node)?;
    Ok(0)
}

#[inline(never)]
pub fn possible(
    size: usize,
    cells: &[Range],
    numerators: &[i64],
    denominator: i64,
) -> Result<usize, Refusal> {
    let drum = Drum::new(size, cells)?;
    drum.possible(numerators, denominator).map(usize::from)
}

const LONGEST_FILE: usize = 65_535;

/// What a data line says.
enum Entry {
    Size(i64),
    Coefficient(i64, i64, Range),
    RightSide(i64, Range),
    Weight(i64, i64),
}

/// 1 to 13 digits, perhaps after a minus, with no leading zero and no -0.
fn number(word: &[u8]) -> Option<i64> {
    let (is_negative, digits) = match word {
        [b'-', digits @ ..] => (true, digits),
        digits => (false, digits),
    };
    let is_numeral = match digits {
        [b'0'] => !is_negative,
        [b'1'..=b'9', ..] => digits.len() <= 13,
        _ => false,
    };
    if !is_numeral {
        return None;
    }
    let mut value = 0;
    for digit in digits {
        if !digit.is_ascii_digit() {
            return None;
        }
        value = value * 10 + i64::from(digit - b'0');
    }
    Some(if is_negative { -value } else { value })
}

fn numbers<const N: usize>(text: &[u8]) -> Option<[i64; N]> {
    let mut words = text.split(|byte| *byte == b' ');
    let mut numbers = [0; N];
    for value in &mut numbers {
        *value = number(words.next()?)?;
    }
    words.next().is_none().then_some(numbers)
}

impl Entry {
    fn parse(line: &[u8]) -> Option<Entry> {
        if let Some(rest) = line.strip_prefix(b"a ") {
            let [row, column, lower, upper] = numbers(rest)?;
            Some(Entry::Coefficient(row, column, Range { lower, upper }))
        } else if let Some(rest) = line.strip_prefix(b"b ") {
            let [row, lower, upper] = numbers(rest)?;
            Some(Entry::RightSide(row, Range { lower, upper }))
        } else if let Some(rest) = line.strip_prefix(b"u ") {
            let [node, weight] = numbers(rest)?;
            Some(Entry::Weight(node, weight))
        } else {
            let [size] = numbers(line.strip_prefix(b"size ")?)?;
            Some(Entry::Size(size))
        }
    }

    /// What lines are sorted by.
    fn key(&self) -> (u8, i64, i64) {
        match *self {
            Entry::Size(_) => (1, 0, 0),
            Entry::Coefficient(row, column, _) => (2, row, column),
            Entry::RightSide(row, _) => (3, row, 0),
            Entry::Weight(node, _) => (4, node, 0),
        }
    }
}

/// The place where the data lines begin, and those lines.
fn data_lines(file: &[u8]) -> Option<(usize, &[u8])> {
    if file.len() > LONGEST_FILE {
        return None;
    }
    let text = file.strip_suffix(b"\n")?;
    let from = text
        .iter()
        .rposition(|byte| *byte == b'\n')
        .map_or(0, |i| i + 1);
    let (front, trailer) = text.split_at(from);
    let [place, count] = numbers(trailer.strip_prefix(b"end ")?)?;
    let place = usize::try_from(place).ok()?;
    let count = usize::try_from(count).ok()?;
    let lines = front.get(place..)?;
    let begins_a_line = place == 0 || front[place - 1] == b'\n';
    let is_counted = lines.iter().filter(|byte| **byte == b'\n').count() == count;
    (begins_a_line && is_counted).then_some((place, lines))
}

/// What the lines of a file have said so far.
struct Reader {
    size: usize,
    last: (u8, i64, i64),
    cells: [Range; CELLS],
    certificate: [i64; NODES],
}

impl Reader {
    fn new() -> Reader {
        Reader {
            size: 0,
            last: (0, 0, 0),
            cells: [Range::ZERO; CELLS],
            certificate: [1; NODES],
        }
    }

    /// A node as an index.
    fn index(&self, node: i64, place: usize) -> Result<usize, Refusal> {
        match usize::try_from(node) {
            Ok(node) if (1..=self.size).contains(&node) => Ok(node - 1),
            _ => Err(Refusal::Node(place)),
        }
    }

    fn check_order(&mut self, key: (u8, i64, i64), place: usize) -> Result<(), Refusal> {
        if self.last >= key {
            return Err(Refusal::Order(place));
        }
        self.last = key;
        Ok(())
    }

    fn put(
        &mut self,
        row: usize,
        column: usize,
        range: Range,
        place: usize,
    ) -> Result<(), Refusal> {
        if !range.is_in_order() {
            return Err(Refusal::Crossed(place));
        }
        self.cells[row * (self.size + 1) + column] = range;
        Ok(())
    }

    fn take(&mut self, line: &[u8], place: usize) -> Result<(), Refusal> {
        let entry = Entry::parse(line).ok_or(Refusal::Shape(place))?;
        let key = entry.key();
        match entry {
            Entry::Size(size) => {
                if !(1..=NODES as i64).contains(&size) {
                    return Err(Refusal::Size(place));
                }
                self.check_order(key, place)?;
                self.size = size as usize;
            }
            _ if self.size == 0 => return Err(Refusal::Shape(place)),
            Entry::Coefficient(row, column, range) => {
                let (row, column) = (self.index(row, place)?, self.index(column, place)?);
                self.check_order(key, place)?;
                self.put(row, column, range, place)?;
            }
            Entry::RightSide(row, range) => {
                let row = self.index(row, place)?;
                self.check_order(key, place)?;
                self.put(row, self.size, range, place)?;
            }
            Entry::Weight(node, weight) => {
                let node = self.index(node, place)?;
                self.check_order(key, place)?;
                self.certificate[node] = weight;
            }
        }
        Ok(())
    }
}

/// Fills cells and certificate with what a file says, and answers its size. A file that is refused fills nothing.
#[inline(never)]
pub fn read_file(
    file: &[u8],
    cells: &mut [Range],
    certificate: &mut [i64],
) -> Result<usize, Refusal> {
    let (mut place, lines) = data_lines(file).ok_or(Refusal::File)?;
    let mut reader = Reader::new();
    for line in lines.split_inclusive(|byte| *byte == b'\n') {
        reader.take(&line[..line.len() - 1], place)?;
        place += line.len();
    }
    let size = reader.size;
    if size == 0 {
        return Err(Refusal::Shape(place));
    }
    let count = size * (size + 1);
    if cells.len() < count || certificate.len() < size {
        return Err(Refusal::Room);
    }
    cells[..count].copy_from_slice(&reader.cells[..count]);
    certificate[..size].copy_from_slice(&reader.certificate[..size]);
    Ok(size)
}
