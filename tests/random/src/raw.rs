//! `perform`, which makes one call of the library's C functions. The only module with `unsafe`.
//!
//! They are called as `include/walugtirim.rs` declares them and not through the crate `walugtirim`: the tests judge the
//! archive and not the crate. Slices that the library only reads are lent with guard zones too, and compared afterwards.
#![allow(unsafe_code)]

use crate::call::{Call, Name};
use crate::guarded::{Guarded, Pattern};

#[path = "../../../include/walugtirim.rs"]
mod c;

/// Lends copies of all slices of the call, makes it, and answers the number with the call as the slices then stand; or
/// a sentence, where a guard zone was written.
pub fn perform(call: &Call) -> Result<(u32, Call), String> {
    let mut sheet = Guarded::new(&call.sheet);
    let mut cells = Guarded::new(&call.cells);
    let mut file = Guarded::new(&call.file);
    let mut record = Guarded::new(&call.record);
    let mut levels = Guarded::new(&call.levels);
    let mut map = Guarded::new(&call.map);
    let mut work_a = Guarded::new(&call.work_a);
    let mut work_b = Guarded::new(&call.work_b);
    let mut bytes_out = Guarded::new(&call.bytes_out);
    let mut levels_out = Guarded::new(&call.levels_out);
    let mut words_out = Guarded::new(&call.words_out);
    let mut table = Guarded::new(&call.table);
    let mut summary = Guarded::new(&call.summary);

    let (width, height, side, number) = (call.width, call.height, call.side, call.number);
    let (sheet_at, sheet_len) = sheet.lend();
    let (cells_at, cells_len) = cells.lend();
    let (file_at, file_len) = file.lend();
    let (record_at, record_len) = record.lend();
    let (levels_at, levels_len) = levels.lend();
    let (map_at, map_len) = map.lend();
    let (a_at, a_len) = work_a.lend();
    let (b_at, b_len) = work_b.lend();
    let (bytes_at, bytes_len) = bytes_out.lend();
    let (out_at, out_len) = levels_out.lend();
    let (words_at, words_len) = words_out.lend();
    let (table_at, table_len) = table.lend();
    let (summary_at, summary_len) = summary.lend();

    // Every pointer goes over with the count that belongs to it, and no two slices share a place. A `Double` lies in memory
    // as the double with its bits does.
    #[rustfmt::skip]
    let answer = unsafe {
        match call.name {
            Name::StartErosion => c::wt_start_erosion(width, height, sheet_at, sheet_len, side, cells_at, cells_len,
                levels_at, levels_len, words_at, words_len),
            Name::StartDilation => c::wt_start_dilation(width, height, sheet_at, sheet_len, side, cells_at, cells_len,
                number, levels_at, levels_len, words_at, words_len),
            Name::StartCropped => c::wt_start_cropped(width, height, sheet_at, sheet_len, side, cells_at, cells_len,
                number, levels_at, levels_len, words_at, words_len),
            Name::Continue => c::wt_continue(record_at, record_len, levels_at, levels_len, number, words_at, words_len),
            Name::Collect => c::wt_collect(record_at, record_len, levels_at, levels_len, out_at, out_len),
            Name::Threshold => c::wt_threshold(record_at, record_len, levels_at, levels_len, number,
                bytes_at, bytes_len),
            Name::Provisional => c::wt_provisional(record_at, record_len, levels_at, levels_len, number,
                bytes_at, bytes_len, words_at, words_len),
            Name::Open => c::wt_open(width, height, sheet_at, sheet_len, side, cells_at, cells_len, number,
                a_at, a_len, b_at, b_len, bytes_at, bytes_len),
            Name::Close => c::wt_close(width, height, sheet_at, sheet_len, side, cells_at, cells_len, number,
                a_at, a_len, b_at, b_len, bytes_at, bytes_len),
            Name::OpeningLevels => c::wt_opening_levels(width, height, sheet_at, sheet_len, side, cells_at, cells_len,
                a_at, a_len, b_at, b_len, out_at, out_len),
            Name::ClosingLevels => c::wt_closing_levels(width, height, sheet_at, sheet_len, side, cells_at, cells_len,
                number, a_at, a_len, b_at, b_len, out_at, out_len),
            Name::Spectrum => c::wt_spectrum(width, height, sheet_at, sheet_len, side, cells_at, cells_len,
                a_at, a_len, b_at, b_len, table_at, table_len, summary_at.cast(), summary_len),
            Name::DilateByMap => c::wt_dilate_by_map(width, height, sheet_at, sheet_len, side, cells_at, cells_len, number,
                map_at, map_len, a_at, a_len, bytes_at, bytes_len),
            Name::Reflect => c::wt_reflect(side, cells_at, cells_len, bytes_at, bytes_len),
            Name::ReadPbm => c::wt_read_pbm(file_at, file_len, bytes_at, bytes_len, words_at, words_len),
            Name::WritePbm => c::wt_write_pbm(width, height, sheet_at, sheet_len, bytes_at, bytes_len,
                words_at, words_len),
            Name::WritePgm => c::wt_write_pgm(record_at, record_len, levels_at, levels_len, bytes_at, bytes_len,
                words_at, words_len),
        }
    };

    let after = Call {
        sheet: taken(sheet, "the sheet")?,
        cells: taken(cells, "the element")?,
        file: taken(file, "the file")?,
        record: taken(record, "the record")?,
        levels: taken(levels, "the levels")?,
        map: taken(map, "the map")?,
        work_a: taken(work_a, "the first work buffer")?,
        work_b: taken(work_b, "the second work buffer")?,
        bytes_out: taken(bytes_out, "the answer's bytes")?,
        levels_out: taken(levels_out, "the answer's levels")?,
        words_out: taken(words_out, "the answer's words")?,
        table: taken(table, "the table")?,
        summary: taken(summary, "the summary")?,
        ..*call
    };
    Ok((answer, after))
}

fn taken<T: Pattern>(slice: Guarded<T>, what: &str) -> Result<Vec<T>, String> {
    slice
        .take()
        .ok_or_else(|| format!("    memory beside {what} was written\n"))
}
