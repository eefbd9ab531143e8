//! The library, by its C functions (`include/heat_balance.h`).

use crate::plain::{Given, Range, Refusal};

/// What a call answers, `heat_reply`.
#[repr(C)]
#[derive(Clone, Copy, PartialEq, Eq, Default, Debug)]
pub struct Reply {
    pub refusal: u8,
    pub place: usize,
    pub part: usize,
    pub row: usize,
    pub column: usize,
    pub value: usize,
}

/// The part that refuses cells of a table.
const TABLE: usize = 1;

impl From<Result<usize, Refusal>> for Reply {
    fn from(result: Result<usize, Refusal>) -> Reply {
        let (refusal, place) = match result {
            Ok(value) => {
                return Reply {
                    value,
                    ..Reply::default()
                };
            }
            Err(Refusal::Limit { row, column }) => {
                return Reply {
                    refusal: 8,
                    part: TABLE,
                    row,
                    column,
                    ..Reply::default()
                };
            }
            Err(Refusal::File) => (1, 0),
            Err(Refusal::Shape(place)) => (2, place),
            Err(Refusal::Size(place)) => (3, place),
            Err(Refusal::Node(place)) => (4, place),
            Err(Refusal::Order(place)) => (5, place),
            Err(Refusal::Crossed(place)) => (6, place),
            Err(Refusal::Certificate(place)) => (9, place),
            Err(Refusal::Dominance(place)) => (10, place),
            Err(Refusal::Wide(place)) => (11, place),
            Err(Refusal::Conflict(place)) => (12, place),
            Err(Refusal::Point(place)) => (13, place),
            Err(Refusal::Room) => (14, 0),
        };
        Reply {
            refusal,
            place,
            ..Reply::default()
        }
    }
}

unsafe extern "C" {
    fn heat_read_file(
        file: *const u8,
        file_length: usize,
        cells: *mut Range,
        cell_count: usize,
        certificate: *mut i64,
        certificate_count: usize,
    ) -> Reply;
    fn heat_open(
        size: usize,
        cells: *const Range,
        cell_count: usize,
        certificate: *const i64,
        certificate_count: usize,
        ranges: *mut Range,
        range_count: usize,
    ) -> Reply;
    fn heat_row_step(
        size: usize,
        cells: *const Range,
        cell_count: usize,
        certificate: *const i64,
        certificate_count: usize,
        ranges: *mut Range,
        range_count: usize,
        node: usize,
    ) -> Reply;
    fn heat_round(
        size: usize,
        cells: *const Range,
        cell_count: usize,
        certificate: *const i64,
        certificate_count: usize,
        ranges: *mut Range,
        range_count: usize,
    ) -> Reply;
    fn heat_settle(
        size: usize,
        cells: *const Range,
        cell_count: usize,
        certificate: *const i64,
        certificate_count: usize,
        ranges: *mut Range,
        range_count: usize,
    ) -> Reply;
    fn heat_reading(
        size: usize,
        cells: *const Range,
        cell_count: usize,
        certificate: *const i64,
        certificate_count: usize,
        ranges: *mut Range,
        range_count: usize,
        node: usize,
        lower: i64,
        upper: i64,
    ) -> Reply;
    fn heat_at_rest(
        size: usize,
        cells: *const Range,
        cell_count: usize,
        certificate: *const i64,
        certificate_count: usize,
        ranges: *const Range,
        range_count: usize,
    ) -> Reply;
    fn heat_ends(
        size: usize,
        cells: *const Range,
        cell_count: usize,
        certificate: *const i64,
        certificate_count: usize,
        ranges: *const Range,
        range_count: usize,
        node: usize,
        ends: *mut Range,
    ) -> Reply;
    fn heat_possible(
        size: usize,
        cells: *const Range,
        cell_count: usize,
        numerators: *const i64,
        numerator_count: usize,
        denominator: i64,
    ) -> Reply;
}

/// The calls, as the library or plain Rust makes them.
pub trait Side {
    fn read_file(file: &[u8], cells: &mut [Range], certificate: &mut [i64]) -> Reply;
    fn open(given: Given, ranges: &mut [Range]) -> Reply;
    fn row_step(given: Given, ranges: &mut [Range], node: usize) -> Reply;
    fn round(given: Given, ranges: &mut [Range]) -> Reply;
    fn settle(given: Given, ranges: &mut [Range]) -> Reply;
    fn reading(given: Given, ranges: &mut [Range], node: usize, range: Range) -> Reply;
    fn at_rest(given: Given, ranges: &[Range]) -> Reply;
    fn ends(given: Given, ranges: &[Range], node: usize, ends: &mut Range) -> Reply;
    fn possible(size: usize, cells: &[Range], numerators: &[i64], denominator: i64) -> Reply;
}

pub struct Library;

/// Calls a C function on a drum and a box. A list crosses as a pointer and its length.
macro_rules! on_box {
    ($call:ident, $given:ident, $ranges:ident, $pointer:ident $(, $more:expr)*) => {
        unsafe {
            $call(
                $given.size,
                $given.cells.as_ptr(),
                $given.cells.len(),
                $given.certificate.as_ptr(),
                $given.certificate.len(),
                $ranges.$pointer(),
                $ranges.len(),
                $($more),*
            )
        }
    };
}

// SAFETY (of each call): pointers and lengths are those of slices that live through the call and do not overlap where they are written.
impl Side for Library {
    fn read_file(file: &[u8], cells: &mut [Range], certificate: &mut [i64]) -> Reply {
        unsafe {
            heat_read_file(
                file.as_ptr(),
                file.len(),
                cells.as_mut_ptr(),
                cells.len(),
                certificate.as_mut_ptr(),
                certificate.len(),
            )
        }
    }

    fn open(given: Given, ranges: &mut [Range]) -> Reply {
        on_box!(heat_open, given, ranges, as_mut_ptr)
    }

    fn row_step(given: Given, ranges: &mut [Range], node: usize) -> Reply {
        on_box!(heat_row_step, given, ranges, as_mut_ptr, node)
    }

    fn round(given: Given, ranges: &mut [Range]) -> Reply {
        on_box!(heat_round, given, ranges, as_mut_ptr)
    }

    fn settle(given: Given, ranges: &mut [Range]) -> Reply {
        on_box!(heat_settle, given, ranges, as_mut_ptr)
    }

    fn reading(given: Given, ranges: &mut [Range], node: usize, range: Range) -> Reply {
        on_box!(heat_reading, given, ranges, as_mut_ptr, node, range.lower, range.upper)
    }

    fn at_rest(given: Given, ranges: &[Range]) -> Reply {
        on_box!(heat_at_rest, given, ranges, as_ptr)
    }

    fn ends(given: Given, ranges: &[Range], node: usize, ends: &mut Range) -> Reply {
        on_box!(heat_ends, given, ranges, as_ptr, node, ends)
    }

    fn possible(size: usize, cells: &[Range], numerators: &[i64], denominator: i64) -> Reply {
        unsafe {
            heat_possible(
                size,
                cells.as_ptr(),
                cells.len(),
                numerators.as_ptr(),
                numerators.len(),
                denominator,
            )
        }
    }
}

pub struct Plain;

impl Side for Plain {
    fn read_file(file: &[u8], cells: &mut [Range], certificate: &mut [i64]) -> Reply {
        crate::plain::read_file(file, cells, certificate).into()
    }

    fn open(given: Given, ranges: &mut [Range]) -> Reply {
        crate::plain::open(given, ranges).into()
    }

    fn row_step(given: Given, ranges: &mut [Range], node: usize) -> Reply {
        crate::plain::row_step(given, ranges, node).into()
    }

    fn round(given: Given, ranges: &mut [Range]) -> Reply {
        crate::plain::round(given, ranges).into()
    }

    fn settle(given: Given, ranges: &mut [Range]) -> Reply {
        crate::plain::settle(given, ranges).into()
    }

    fn reading(given: Given, ranges: &mut [Range], node: usize, range: Range) -> Reply {
        crate::plain::reading(given, ranges, node, range).into()
    }

    fn at_rest(given: Given, ranges: &[Range]) -> Reply {
        crate::plain::at_rest(given, ranges).into()
    }

    fn ends(given: Given, ranges: &[Range], node: usize, ends: &mut Range) -> Reply {
        crate::plain::ends(given, ranges, node, ends).into()
    }

    fn possible(size: usize, cells: &[Range], numerators: &[i64], denominator: i64) -> Reply {
        crate::plain::possible(size, cells, numerators, denominator).into()
    }
}
