//! The declarations of `walugtirim.h` for Rust: what each function takes, answers and refuses is said there.

#[rustfmt::skip]
extern "C" {
    pub fn wt_start_erosion(width: u64, height: u64, sheet: *const u8, sheet_len: usize, side: u64, cells: *const u8,
        cells_len: usize, levels: *mut u16, levels_len: usize, record: *mut u64, record_len: usize) -> u32;
    pub fn wt_start_dilation(width: u64, height: u64, sheet: *const u8, sheet_len: usize, side: u64, cells: *const u8,
        cells_len: usize, cap: u64, levels: *mut u16, levels_len: usize, record: *mut u64, record_len: usize) -> u32;
    pub fn wt_start_cropped(width: u64, height: u64, sheet: *const u8, sheet_len: usize, side: u64, cells: *const u8,
        cells_len: usize, cap: u64, levels: *mut u16, levels_len: usize, record: *mut u64, record_len: usize) -> u32;
    pub fn wt_continue(record: *mut u64, record_len: usize, levels: *mut u16, levels_len: usize, allowance: u64,
        answer: *mut u64, answer_len: usize) -> u32;
    pub fn wt_collect(record: *const u64, record_len: usize, levels: *const u16, levels_len: usize, out: *mut u16,
        out_len: usize) -> u32;
    pub fn wt_threshold(record: *const u64, record_len: usize, levels: *const u16, levels_len: usize, size: u64,
        out: *mut u8, out_len: usize) -> u32;
    pub fn wt_provisional(record: *const u64, record_len: usize, levels: *const u16, levels_len: usize, size: u64,
        out: *mut u8, out_len: usize, state: *mut u64, state_len: usize) -> u32;
    pub fn wt_open(width: u64, height: u64, sheet: *const u8, sheet_len: usize, side: u64, cells: *const u8,
        cells_len: usize, size: u64, work_a: *mut u16, work_a_len: usize, work_b: *mut u16, work_b_len: usize,
        out: *mut u8, out_len: usize) -> u32;
    pub fn wt_close(width: u64, height: u64, sheet: *const u8, sheet_len: usize, side: u64, cells: *const u8,
        cells_len: usize, size: u64, work_a: *mut u16, work_a_len: usize, work_b: *mut u16, work_b_len: usize,
        out: *mut u8, out_len: usize) -> u32;
    pub fn wt_opening_levels(width: u64, height: u64, sheet: *const u8, sheet_len: usize, side: u64, cells: *const u8,
        cells_len: usize, work_a: *mut u16, work_a_len: usize, work_b: *mut u16, work_b_len: usize,
        out: *mut u16, out_len: usize) -> u32;
    pub fn wt_closing_levels(width: u64, height: u64, sheet: *const u8, sheet_len: usize, side: u64, cells: *const u8,
        cells_len: usize, cap: u64, work_a: *mut u16, work_a_len: usize, work_b: *mut u16, work_b_len: usize,
        out: *mut u16, out_len: usize) -> u32;
    pub fn wt_spectrum(width: u64, height: u64, sheet: *const u8, sheet_len: usize, side: u64, cells: *const u8,
        cells_len: usize, work_a: *mut u16, work_a_len: usize, work_b: *mut u16, work_b_len: usize,
        table: *mut u64, table_len: usize, summary: *mut f64, summary_len: usize) -> u32;
    pub fn wt_dilate_by_map(width: u64, height: u64, sheet: *const u8, sheet_len: usize, side: u64, cells: *const u8,
        cells_len: usize, cap: u64, map: *const u16, map_len: usize, work: *mut u16, work_len: usize,
        out: *mut u8, out_len: usize) -> u32;
    pub fn wt_reflect(side: u64, cells: *const u8, cells_len: usize, out: *mut u8, out_len: usize) -> u32;
    pub fn wt_read_pbm(file: *const u8, file_len: usize, out: *mut u8, out_len: usize, frame: *mut u64,
        frame_len: usize) -> u32;
    pub fn wt_write_pbm(width: u64, height: u64, sheet: *const u8, sheet_len: usize, out: *mut u8, out_len: usize,
        length: *mut u64, length_len: usize) -> u32;
    pub fn wt_write_pgm(record: *const u64, record_len: usize, levels: *const u16, levels_len: usize, out: *mut u8,
        out_len: usize, length: *mut u64, length_len: usize) -> u32;
}
