//! The library's calls that are timed, on buffers that the caller keeps.

use walugtirim::lent::{self, Record, Summary};
use walugtirim::{Refusal, MOST_ALLOWANCE};

use crate::sheets::{Element, Sheet};

fn accepted<T>(answer: Result<T, Refusal>) -> T {
    answer.expect("the library accepts every timed call")
}

/// Starts an erosion and works all its rows.
pub fn erosion(sheet: &Sheet, element: &Element, levels: &mut [u16]) -> Record {
    let record = accepted(lent::start_erosion(sheet.given(element), levels));
    finished(record, levels)
}

/// Starts a dilation and works all its rows.
pub fn dilation(sheet: &Sheet, element: &Element, cap: usize, levels: &mut [u16]) -> Record {
    let given = sheet.given(element);
    let record = accepted(lent::start_dilation(given, cap as u64, levels));
    finished(record, levels)
}

fn finished(mut record: Record, levels: &mut [u16]) -> Record {
    let continued = accepted(lent::continue_run(&mut record, levels, MOST_ALLOWANCE));
    assert!(continued.done, "all rows are worked in one slice");
    record
}

/// The sheet that a finished run holds at a size.
pub fn threshold(record: &Record, levels: &[u16], size: usize, out: &mut [u8]) {
    accepted(lent::threshold(record, levels, size as u64, out));
}

/// The levels of a finished run.
pub fn collect(record: &Record, levels: &[u16], out: &mut [u16]) {
    accepted(lent::collect(record, levels, out));
}

/// Opens or closes by one size.
pub fn filter(
    closing: bool,
    sheet: &Sheet,
    element: &Element,
    size: usize,
    work: &mut [Vec<u16>; 2],
    out: &mut [u8],
) {
    let call = if closing { lent::close } else { lent::open };
    let [a, b] = work;
    accepted(call(sheet.given(element), size as u64, a, b, out));
}

pub fn opening_levels(sheet: &Sheet, element: &Element, work: &mut [Vec<u16>; 2], out: &mut [u16]) {
    let [a, b] = work;
    accepted(lent::opening_levels(sheet.given(element), a, b, out));
}

/// Counts the points of each opening level.
pub fn spectrum(
    sheet: &Sheet,
    element: &Element,
    work: &mut [Vec<u16>; 2],
    table: &mut [u64],
) -> Summary {
    let [a, b] = work;
    accepted(lent::spectrum(sheet.given(element), a, b, table))
}

/// Dilates each foreground point by the size that the map gives at it.
pub fn dilate_by_map(
    sheet: &Sheet,
    element: &Element,
    cap: usize,
    map: &[u16],
    work: &mut [u16],
    out: &mut [u8],
) {
    let given = sheet.given(element);
    accepted(lent::dilate_by_map(given, cap as u64, map, work, out));
}

pub fn read_pbm(file: &[u8], out: &mut [u8]) {
    accepted(lent::read_pbm(file, out));
}
