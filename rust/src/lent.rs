//! One safe function over each C function, on the caller's own buffers: for callers that keep these between calls.
//!
//! What each slice has to hold is said in `include/walugtirim.h`. Of the refusals listed with a function, in their
//! order, the first that applies is given.
//!
//! A run is its record and its levels together: the record has to be the one last returned, and the levels the run's
//! own, which nothing else has written. The library can't see that: a later record beside earlier levels passes unseen,
//! and its picture need not be one; an earlier record beside later levels passes unseen too.
//!
//! This is the only module with `unsafe`. Every slice goes over as its pointer and its count, so the two always belong
//! together, and Rust's own rules keep a slice that is written from overlapping another. The library accepts any
//! number and any slice, so nothing else has to hold.
#![allow(unsafe_code)]

use crate::{Refusal, RECORD_WORDS};

#[path = "../../include/walugtirim.rs"]
mod c;

/// A run's record, as it crosses the boundary.
pub type Record = [u64; RECORD_WORDS];

/// What the calls on a sheet and an element have in common: the frame, the packed sheet, the element's side and cells.
#[derive(Clone, Copy, Debug)]
pub struct Given<'a> {
    pub width: u64,
    pub height: u64,
    pub sheet: &'a [u8],
    pub side: u64,
    pub cells: &'a [u8],
}

/// Calls a C function and answers its refusal, if any: `&slice` and `&mut slice` go over as pointer and count, `..given`
/// as all that a [`Given`] holds, any other argument as it is. All are taken before the `unsafe` and stay borrowed until
/// the call, so that a slice which is written and lent twice doesn't compile.
macro_rules! call {
    ($function:ident($($arguments:tt)*)) => {
        call!(@ $function [] $($arguments)*)
    };
    (@ $function:ident [$($taken:tt)*]) => {
        Refusal::check(unsafe { c::$function($($taken)*) })
    };
    (@ $function:ident [$($taken:tt)*] ..$given:expr $(, $($rest:tt)*)?) => {{
        let given: Given = $given;
        call!(@ $function [$($taken)*]
            given.width, given.height, &given.sheet, given.side, &given.cells $(, $($rest)*)?)
    }};
    (@ $function:ident [$($taken:tt)*] &mut $slice:expr $(, $($rest:tt)*)?) => {{
        let slice = &mut $slice[..];
        call!(@ $function [$($taken)* slice.as_mut_ptr(), slice.len(),] $($($rest)*)?)
    }};
    (@ $function:ident [$($taken:tt)*] &$slice:expr $(, $($rest:tt)*)?) => {{
        let slice = &$slice[..];
        call!(@ $function [$($taken)* slice.as_ptr(), slice.len(),] $($($rest)*)?)
    }};
    (@ $function:ident [$($taken:tt)*] $value:expr $(, $($rest:tt)*)?) => {{
        let value = $value;
        call!(@ $function [$($taken)* value,] $($($rest)*)?)
    }};
}

/// Starts an erosion and answers its record. The levels are as many as the frame has points.
///
/// # Errors
/// 2 to 7, 10, the first that applies.
pub fn start_erosion(given: Given, levels: &mut [u16]) -> Result<Record, Refusal> {
    let mut record = [0; RECORD_WORDS];
    call!(wt_start_erosion(..given, &mut levels, &mut record))?;
    Ok(record)
}

/// Starts a dilation up to a cap and answers its record. The levels are as many as the canvas has points.
///
/// # Errors
/// 2 to 10, the first that applies.
pub fn start_dilation(given: Given, cap: u64, levels: &mut [u16]) -> Result<Record, Refusal> {
    let mut record = [0; RECORD_WORDS];
    call!(wt_start_dilation(..given, cap, &mut levels, &mut record))?;
    Ok(record)
}

/// Starts the erosion of a cropped sheet, with foreground beyond its frame, up to a cap, and answers its record. The
/// levels are as many as the canvas has points.
///
/// # Errors
/// 2 to 10, the first that applies.
pub fn start_cropped(given: Given, cap: u64, levels: &mut [u16]) -> Result<Record, Refusal> {
    let mut record = [0; RECORD_WORDS];
    call!(wt_start_cropped(..given, cap, &mut levels, &mut record))?;
    Ok(record)
}

/// What a slice of rows answers.
#[derive(Clone, Copy, Debug, PartialEq, Eq)]
pub struct Continued {
    /// Whether all rows are done.
    pub done: bool,
    /// How many points the rows lowered: for each row those whose level after it is smaller than before it. A slice
    /// that crossed blank rows has 0 here.
    pub lowered: u64,
}

/// Works so many rows, or those still due where these are fewer.
///
/// # Errors
/// 1, 10, 12, the first that applies.
pub fn continue_run(
    record: &mut Record,
    levels: &mut [u16],
    allowance: u64,
) -> Result<Continued, Refusal> {
    let mut answer = [0; 2];
    call!(wt_continue(
        &mut record,
        &mut levels,
        allowance,
        &mut answer
    ))?;
    Ok(Continued {
        done: answer[0] == 1,
        lowered: answer[1],
    })
}

/// Gives the levels of the frame, once all rows are done. Of a cropped sheet's erosion,
/// [`MORE_THAN_CAP`](crate::MORE_THAN_CAP) is one above the cap.
///
/// # Errors
/// 1, 10, 11, 13, the first that applies.
pub fn collect(record: &Record, levels: &[u16], out: &mut [u16]) -> Result<(), Refusal> {
    call!(wt_collect(&record, &levels, &mut out))
}

/// Gives the eroded or dilated sheet of one size, once all rows are done.
///
/// # Errors
/// 1, 8, 10, 11, 13, the first that applies.
pub fn threshold(
    record: &Record,
    levels: &[u16],
    size: u64,
    out: &mut [u8],
) -> Result<(), Refusal> {
    call!(wt_threshold(&record, &levels, size, &mut out))
}

/// Whether the sheet of a look is provisional or final.
#[must_use]
#[derive(Clone, Copy, Debug, PartialEq, Eq)]
pub enum State {
    /// Rows are still due: the sheet is no picture.
    Provisional,
    /// All rows are done: the sheet is what [`threshold`] gives.
    Final,
}

/// Looks at the sheet of one size as the levels stand, whatever rows are done.
///
/// # Errors
/// 1, 8, 10, 11, the first that applies.
pub fn provisional(
    record: &Record,
    levels: &[u16],
    size: u64,
    out: &mut [u8],
) -> Result<State, Refusal> {
    let mut state = [0];
    call!(wt_provisional(&record, &levels, size, &mut out, &mut state))?;
    Ok(if state[0] == 1 {
        State::Final
    } else {
        State::Provisional
    })
}

/// Opens a sheet by a size. Each work buffer has as many levels as the frame has points. A chain of openings is one by its
/// largest size, as with [`crate::Sheet::open`].
///
/// # Errors
/// 2 to 8, 10, 11, the first that applies.
pub fn open(
    given: Given,
    size: u64,
    work_a: &mut [u16],
    work_b: &mut [u16],
    out: &mut [u8],
) -> Result<(), Refusal> {
    call!(wt_open(..given, size, &mut work_a, &mut work_b, &mut out))
}

/// Closes a sheet by a size. Each work buffer has as many levels as the canvas whose cap is the size has points. A chain of
/// closings is one by its largest size, as with [`crate::Sheet::close`].
///
/// # Errors
/// 2 to 11, the first that applies.
pub fn close(
    given: Given,
    size: u64,
    work_a: &mut [u16],
    work_b: &mut [u16],
    out: &mut [u8],
) -> Result<(), Refusal> {
    call!(wt_close(..given, size, &mut work_a, &mut work_b, &mut out))
}

/// Gives the opening levels of the frame. Each work buffer has as many levels as the frame has points.
///
/// # Errors
/// 2 to 7, 10, 11, the first that applies.
pub fn opening_levels(
    given: Given,
    work_a: &mut [u16],
    work_b: &mut [u16],
    out: &mut [u16],
) -> Result<(), Refusal> {
    call!(wt_opening_levels(
        ..given,
        &mut work_a,
        &mut work_b,
        &mut out
    ))
}

/// Gives the closing levels of the frame, up to a cap. Each work buffer has as many levels as the canvas has points.
///
/// # Errors
/// 2 to 11, the first that applies.
pub fn closing_levels(
    given: Given,
    cap: u64,
    work_a: &mut [u16],
    work_b: &mut [u16],
    out: &mut [u16],
) -> Result<(), Refusal> {
    call!(wt_closing_levels(
        ..given,
        cap,
        &mut work_a,
        &mut work_b,
        &mut out
    ))
}

/// The two fractions of a spectrum. Each is one division of two whole numbers that a double holds exactly.
#[derive(Clone, Copy, Debug, PartialEq)]
pub struct Summary {
    /// The mean opening level over the foreground: the sum of each level times its number of points, divided by the number
    /// of foreground points.
    pub mean_level: f64,
    /// The share of the foreground at level 1: the number of points of level 1, divided by that of foreground points.
    pub share_at_level_one: f64,
}

/// Counts the frame's points of each opening level, those of level n in entry n of the table, where entry 0 is the
/// background, and answers the two fractions. The table has as many entries as the larger side of the frame, and one
/// more. Each work buffer has as many levels as the frame has points.
///
/// # Errors
/// 2 to 7, 10, 11, 14, the first that applies.
pub fn spectrum(
    given: Given,
    work_a: &mut [u16],
    work_b: &mut [u16],
    table: &mut [u64],
) -> Result<Summary, Refusal> {
    let mut summary = [0.0; 2];
    call!(wt_spectrum(
        ..given,
        &mut work_a,
        &mut work_b,
        &mut table,
        &mut summary
    ))?;
    Ok(Summary {
        mean_level: summary[0],
        share_at_level_one: summary[1],
    })
}

/// Dilates each foreground point by a size of its own, up to a cap. The map has a size for each point of the frame; what
/// stands in it at background points doesn't matter. The work buffer has as many levels as the canvas has points.
///
/// # Errors
/// 2 to 11, the first that applies; after all of these, 8 for a size above the cap at a foreground point.
pub fn dilate_by_map(
    given: Given,
    cap: u64,
    map: &[u16],
    work: &mut [u16],
    out: &mut [u8],
) -> Result<(), Refusal> {
    call!(wt_dilate_by_map(..given, cap, &map, &mut work, &mut out))
}

/// Gives the cells of the element turned about its origin.
///
/// # Errors
/// 4 to 7, 11, the first that applies.
pub fn reflect(side: u64, cells: &[u8], out: &mut [u8]) -> Result<(), Refusal> {
    call!(wt_reflect(side, &cells, &mut out))
}

/// Reads the raster of a raw PBM file into the first bytes of `out`. Answers the width and the height.
///
/// # Errors
/// 21, 22, 2, 23, 24, 11, the first that applies.
pub fn read_pbm(file: &[u8], out: &mut [u8]) -> Result<[u64; 2], Refusal> {
    let mut frame = [0; 2];
    call!(wt_read_pbm(&file, &mut out, &mut frame))?;
    Ok(frame)
}

/// Writes a raw PBM file into the first bytes of `out`. Answers the length of the file.
///
/// # Errors
/// 2, 3, 11, the first that applies.
pub fn write_pbm(width: u64, height: u64, sheet: &[u8], out: &mut [u8]) -> Result<u64, Refusal> {
    let mut length = [0];
    call!(wt_write_pbm(width, height, &sheet, &mut out, &mut length))?;
    Ok(length[0])
}

/// Writes collected levels as a plain PGM file into the first bytes of `out`. Answers the length of the file.
///
/// # Errors
/// 1, 8, 10, 11, 13, the first that applies.
pub fn write_pgm(record: &Record, levels: &[u16], out: &mut [u8]) -> Result<u64, Refusal> {
    let mut length = [0];
    call!(wt_write_pgm(&record, &levels, &mut out, &mut length))?;
    Ok(length[0])
}
