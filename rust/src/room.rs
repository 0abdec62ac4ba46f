//! How much room a call needs.
//!
//! Every function takes any numbers at all. Where they are out of range there is nothing to make room for, so the
//! answer is 0: the call that gets the empty buffer is refused for its numbers before its buffer is looked at.

const MOST_SIDE: u64 = 4096;
const MOST_CAP: u64 = 2047;

fn in_range(side: u64) -> bool {
    (1..=MOST_SIDE).contains(&side)
}

/// A count of the library as Rust's own; it never exceeds what was lent, so it always fits.
pub fn count(number: u64) -> usize {
    usize::try_from(number).unwrap_or(usize::MAX)
}

/// The bytes of a packed sheet.
pub fn sheet_bytes(width: u64, height: u64) -> usize {
    if in_range(width) && in_range(height) {
        count(height * width.div_ceil(8))
    } else {
        0
    }
}

/// The points of a frame.
pub fn frame_points(width: u64, height: u64) -> usize {
    if in_range(width) && in_range(height) {
        count(width * height)
    } else {
        0
    }
}

/// The entries of a spectrum's table: one for each level from 0 to the larger side of the frame.
pub fn table_entries(width: u64, height: u64) -> usize {
    if in_range(width) && in_range(height) {
        count(width.max(height) + 1)
    } else {
        0
    }
}

/// The points of a canvas: the frame with a margin of cap times reach on all sides.
pub fn canvas_points(width: u64, height: u64, side: u64, cap: u64) -> usize {
    if !in_range(width) || !in_range(height) || !matches!(side, 3 | 5 | 7) || cap > MOST_CAP {
        return 0;
    }
    let margin = cap * ((side - 1) / 2);
    // Both sides are at most 4,096 + 2 * 3 * 2,047 here, and `frame_points` gives 0 for a canvas that is too large.
    frame_points(width + 2 * margin, height + 2 * margin)
}

/// Enough bytes for a raw PBM: "P4", two numbers of at most four digits and three white bytes, then the raster.
pub fn pbm_bytes(raster: usize) -> usize {
    raster.saturating_add("P4\n4096 4096\n".len())
}

/// Enough bytes for a plain PGM: its four header lines, then for each level at most five digits and the blank or line
/// end after it. No level above the maximum is written, and the maximum never exceeds 65,535.
pub fn pgm_bytes(points: usize) -> usize {
    points
        .saturating_mul(6)
        .saturating_add("P2\n# rows 8192 of 8192\n4096 4096\n65535\n".len())
}
