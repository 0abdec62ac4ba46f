//! The C functions of `bench/c`, with a safe function over each. The only module with `unsafe`.
#![allow(unsafe_code)]

use std::ffi::{c_int, c_void};

use crate::sheets::{Element, Frame, Sheet};

#[rustfmt::skip]
extern "C" {
    fn plain_scan(levels: *mut u16, width: usize, height: usize, cells: *const u8, dilation: c_int);
    fn tuned_scan(levels: *mut u16, width: usize, height: usize, cells: *const u8, dilation: c_int);
    fn plain_pack(levels: *const u16, frame: Frame, low: u16, high: u16, out: *mut u8);
    fn tuned_pack(levels: *const u16, frame: Frame, low: u16, high: u16, out: *mut u8);
    fn plain_collect(levels: *const u16, frame: Frame, limit: u16, out: *mut u16);
    fn opencv_distance(pixels: *const u8, width: usize, height: usize, out: *mut f32, chessboard: c_int) -> c_int;
    fn leptonica_sheet(sheet: *const u8, width: usize, height: usize) -> *mut c_void;
    fn leptonica_distance(from: *mut c_void, neighbours: c_int, levels: *mut u16) -> c_int;
    fn leptonica_free(from: *mut c_void);
    fn processor_seconds() -> f64;
}

/// Seconds of processor time used so far.
pub fn seconds_used() -> f64 {
    unsafe { processor_seconds() }
}

/// The two ways in which the work is done in C: as one would write it first, and in a shape that compilers vectorise.
#[derive(Clone, Copy)]
pub enum Way {
    Plain,
    Tuned,
}

/// Works all rows on levels that are already set up.
pub fn scan(
    which: Way,
    levels: &mut [u16],
    width: usize,
    height: usize,
    element: &Element,
    dilation: bool,
) {
    assert!(
        levels.len() == width * height && width <= 4096,
        "the scans in C check nothing"
    );
    let call = match which {
        Way::Plain => plain_scan,
        Way::Tuned => tuned_scan,
    };
    unsafe {
        call(
            levels.as_mut_ptr(),
            width,
            height,
            element.flat.as_ptr(),
            c_int::from(dilation),
        );
    }
}

/// Packs the points of the frame whose level is above `low` and at most `high`.
pub fn pack(which: Way, levels: &[u16], frame: Frame, low: u16, high: u16, out: &mut [u8]) {
    assert!(
        levels.len() == frame.points() && out.len() == frame.height * frame.width.div_ceil(8),
        "the packers in C check nothing"
    );
    let call = match which {
        Way::Plain => plain_pack,
        Way::Tuned => tuned_pack,
    };
    unsafe { call(levels.as_ptr(), frame, low, high, out.as_mut_ptr()) }
}

/// Copies the levels of the frame, with 0 for each that is above the limit.
pub fn collect(levels: &[u16], frame: Frame, limit: u16, out: &mut [u16]) {
    assert!(levels.len() == frame.points() && out.len() == frame.height * frame.width);
    unsafe { plain_collect(levels.as_ptr(), frame, limit, out.as_mut_ptr()) }
}

/// OpenCV's distances from one byte a pixel; false where it is not installed.
pub fn opencv(
    pixels: &[u8],
    width: usize,
    height: usize,
    out: &mut [f32],
    chessboard: bool,
) -> bool {
    assert!(pixels.len() == width * height && out.len() == width * height);
    let found = unsafe {
        opencv_distance(
            pixels.as_ptr(),
            width,
            height,
            out.as_mut_ptr(),
            c_int::from(chessboard),
        )
    };
    found != 0
}

/// A sheet as leptonica holds it.
pub struct Leptonica {
    pix: *mut c_void,
    points: usize,
}

impl Leptonica {
    /// Nothing where leptonica is not installed.
    pub fn new(sheet: &Sheet) -> Option<Leptonica> {
        assert_eq!(sheet.bytes.len(), sheet.height * sheet.width.div_ceil(8));
        let pix = unsafe { leptonica_sheet(sheet.bytes.as_ptr(), sheet.width, sheet.height) };
        let points = sheet.width * sheet.height;
        (!pix.is_null()).then_some(Leptonica { pix, points })
    }

    /// Works out the distances and forgets them.
    pub fn distance(&self, box_shaped: bool) {
        let neighbours = if box_shaped { 8 } else { 4 };
        let done = unsafe { leptonica_distance(self.pix, neighbours, std::ptr::null_mut()) };
        assert_eq!(done, 1, "leptonica failed");
    }

    /// The distances.
    pub fn levels(&self, box_shaped: bool) -> Vec<u16> {
        let mut levels = vec![0; self.points];
        let neighbours = if box_shaped { 8 } else { 4 };
        let done = unsafe { leptonica_distance(self.pix, neighbours, levels.as_mut_ptr()) };
        assert_eq!(done, 1, "leptonica failed");
        levels
    }
}

impl Drop for Leptonica {
    fn drop(&mut self) {
        unsafe { leptonica_free(self.pix) };
    }
}
