//! The small sheets that `docs/RULES.md` works by hand, and the largest sheets accepted, with answers written out here.

use crate::call::{Call, Double, Field, Name};
use crate::raw::perform;
use crate::report::Tally;

/// The origin with its right neighbour.
const T: [u8; 9] = [0, 0, 0, 0, 1, 1, 0, 0, 0];
/// The origin with the point below it.
const UPRIGHT: [u8; 9] = [0, 0, 0, 0, 1, 0, 0, 1, 0];
const CROSS: [u8; 9] = [0, 1, 0, 1, 1, 1, 0, 1, 0];
const BOX: [u8; 9] = [1; 9];
/// The origin, right-down, and left: two steps lead one down, by way of the next column.
const HOOK: [u8; 9] = [0, 0, 0, 1, 1, 0, 0, 0, 1];

/// A sheet with its centre unset.
const RING: [&str; 3] = ["111", "101", "111"];

/// A sheet of rows drawn with `1` and `0`.
struct Drawn {
    width: u64,
    height: u64,
    bytes: Vec<u8>,
}

fn drawn(rows: &[&str]) -> Drawn {
    let bytes = rows
        .iter()
        .flat_map(|row| row.as_bytes().chunks(8))
        .map(|chunk| {
            chunk
                .iter()
                .enumerate()
                .map(|(place, pixel)| (pixel - b'0') << (7 - place))
                .sum()
        })
        .collect();
    Drawn {
        width: rows[0].len() as u64,
        height: rows.len() as u64,
        bytes,
    }
}

fn full(width: u64, height: u64) -> Drawn {
    let count = usize::try_from(width.div_ceil(8) * height).expect("a sheet fits the memory");
    Drawn {
        width,
        height,
        bytes: vec![255; count],
    }
}

fn count(number: u64) -> usize {
    usize::try_from(number).expect("a sheet fits the memory")
}

/// Performs a call with no damage beside its slices, or number 99.
fn number_and_after(call: &Call) -> (u32, Call) {
    perform(call).unwrap_or_else(|_| (99, call.clone()))
}

fn given(name: Name, sheet: &Drawn, cells: &[u8], number: u64) -> Call {
    let mut call = Call::new(name);
    call.width = sheet.width;
    call.height = sheet.height;
    call.sheet = sheet.bytes.clone();
    call.side = 3;
    call.cells = cells.to_vec();
    call.number = number;
    let margin = if name.takes_cap() { number } else { 0 };
    let area = count((sheet.width + 2 * margin) * (sheet.height + 2 * margin));
    let frame = count(sheet.width * sheet.height);
    for (field, length) in [
        (Field::Levels, area),
        (Field::WorkA, area),
        (Field::WorkB, area),
        (Field::BytesOut, sheet.bytes.len()),
        (Field::LevelsOut, frame),
        (Field::WordsOut, 56),
        (Field::Table, count(sheet.width.max(sheet.height)) + 1),
        (Field::Summary, 2),
    ] {
        if name.fields().contains(&field) {
            call.set_length(field, length);
        }
    }
    call
}

fn on_run(name: Name, record: &[u64], levels: &[u16], number: u64, answer: (Field, usize)) -> Call {
    let mut call = Call::new(name);
    call.record = record.to_vec();
    call.levels = levels.to_vec();
    call.number = number;
    call.set_length(answer.0, answer.1);
    call
}

/// A slice of rows: its number, and what it leaves.
fn slice(record: &[u64], levels: &[u16], rows: u64) -> (u32, Call) {
    let answer = (Field::WordsOut, 2);
    number_and_after(&on_run(Name::Continue, record, levels, rows, answer))
}

/// The record and the levels after a start and so many rows.
fn worked(start: &Call, rows: u64) -> (Vec<u64>, Vec<u16>) {
    let (number, started) = number_and_after(start);
    if number != 0 {
        return (Vec::new(), Vec::new());
    }
    let (_, after) = slice(&started.words_out, &started.levels, rows);
    (after.record, after.levels)
}

/// How many points each of some slices says it lowers.
fn lowered(start: &Call, slices: &[u64]) -> Vec<u64> {
    let (_, started) = number_and_after(start);
    let (mut record, mut levels) = (started.words_out, started.levels);
    let mut counts = Vec::new();
    for rows in slices {
        let (_, after) = slice(&record, &levels, *rows);
        counts.push(after.words_out[1]);
        (record, levels) = (after.record, after.levels);
    }
    counts
}

/// The collected levels of a whole run; empty where something was refused.
fn collected(start: &Call) -> Vec<u16> {
    let (record, levels) = worked(start, 8192);
    let frame = count(start.width * start.height);
    let call = on_run(
        Name::Collect,
        &record,
        &levels,
        0,
        (Field::LevelsOut, frame),
    );
    let (number, after) = number_and_after(&call);
    if number == 0 {
        after.levels_out
    } else {
        Vec::new()
    }
}

fn erosion(sheet: &Drawn, cells: &[u8]) -> Vec<u16> {
    collected(&given(Name::StartErosion, sheet, cells, 0))
}

fn dilation(sheet: &Drawn, cells: &[u8], cap: u64) -> Vec<u16> {
    collected(&given(Name::StartDilation, sheet, cells, cap))
}

fn cropped(sheet: &Drawn, cells: &[u8], cap: u64) -> Vec<u16> {
    collected(&given(Name::StartCropped, sheet, cells, cap))
}

/// The number and the sheet of one size, after all rows.
fn thresholded(start: &Call, size: u64) -> (u32, Vec<u8>) {
    let (record, levels) = worked(start, 8192);
    let answer = (Field::BytesOut, start.sheet.len());
    let (number, after) =
        number_and_after(&on_run(Name::Threshold, &record, &levels, size, answer));
    (number, after.bytes_out)
}

fn threshold(sheet: &Drawn, cells: &[u8], size: u64) -> Vec<u8> {
    thresholded(&given(Name::StartErosion, sheet, cells, 0), size).1
}

fn levels_of(name: Name, sheet: &Drawn, cells: &[u8], cap: u64) -> Vec<u16> {
    number_and_after(&given(name, sheet, cells, cap))
        .1
        .levels_out
}

/// Both transforms of an opening and a closing, and both runs, with the cap 1.
fn four_transforms(sheet: &Drawn, cells: &[u8]) -> [Vec<u16>; 4] {
    [
        erosion(sheet, cells),
        dilation(sheet, cells, 1),
        levels_of(Name::OpeningLevels, sheet, cells, 0),
        levels_of(Name::ClosingLevels, sheet, cells, 1),
    ]
}

fn case_1() -> bool {
    let sheet = full(3, 3);
    erosion(&sheet, &CROSS) == [1, 1, 1, 1, 2, 1, 1, 1, 1]
        && threshold(&sheet, &CROSS, 1) == [0, 0x40, 0]
        && threshold(&sheet, &CROSS, 2) == [0, 0, 0]
}

fn case_2() -> bool {
    let start = given(Name::StartErosion, &full(5, 1), &T, 0);
    let after_one = worked(&start, 1).1;
    let after_two = worked(&start, 2).1;
    after_one == [65535; 5] && after_two == [5, 4, 3, 2, 1]
}

fn case_3() -> bool {
    let mut call = Call::new(Name::Reflect);
    (call.side, call.cells) = (3, T.to_vec());
    call.set_length(Field::BytesOut, 9);
    let reflected = number_and_after(&call).1.bytes_out;
    erosion(&full(5, 1), &reflected) == [1, 2, 3, 4, 5]
}

fn case_4() -> bool {
    let sheet = drawn(&["00100"]);
    dilation(&sheet, &T, 2) == [0, 0, 1, 2, 3] && dilation(&sheet, &T, 1) == [0, 0, 1, 2, 0]
}

fn case_5() -> bool {
    let sheet = drawn(&["1", "0"]);
    dilation(&sheet, &HOOK, 2) == [1, 3] && dilation(&sheet, &HOOK, 1) == [1, 0]
}

fn case_6() -> bool {
    let sheet = drawn(&["10111"]);
    let (number, opened) = number_and_after(&given(Name::Open, &sheet, &T, 1));
    erosion(&sheet, &T) == [1, 0, 3, 2, 1]
        && levels_of(Name::OpeningLevels, &sheet, &T, 0) == [1, 0, 3, 3, 3]
        && number == 0
        && opened.bytes_out == drawn(&["00111"]).bytes
}

fn case_7() -> bool {
    let sheet = drawn(&["1001"]);
    levels_of(Name::ClosingLevels, &sheet, &T, 2) == [1, 3, 3, 1]
        && levels_of(Name::ClosingLevels, &sheet, &T, 1) == [1, 0, 0, 1]
}

fn case_8() -> bool {
    let empty = drawn(&["000", "000", "000"]);
    let one = drawn(&["1"]);
    let nothing = vec![0; 9];
    four_transforms(&empty, &CROSS) == [nothing.clone(), nothing.clone(), nothing.clone(), nothing]
        && erosion(&one, &CROSS) == [1]
        && dilation(&one, &CROSS, 1) == [1]
}

fn case_9() -> bool {
    let number = |name, sheet: &Drawn, cap| number_and_after(&given(name, sheet, &CROSS, cap)).0;
    let (number_before, started) =
        number_and_after(&given(Name::StartErosion, &full(3, 3), &CROSS, 0));
    let allowed = |allowance| slice(&started.words_out, &started.levels, allowance).0;
    number(Name::StartErosion, &full(4096, 1), 0) == 0
        && number(Name::StartErosion, &full(1, 4096), 0) == 0
        && number(Name::StartErosion, &full(4097, 1), 0) == 2
        && number(Name::StartErosion, &full(1, 4097), 0) == 2
        && number_before == 0
        && allowed(8192) == 0
        && allowed(8193) == 12
        && number(Name::StartDilation, &full(4094, 1), 1) == 0
        && number(Name::StartDilation, &full(4095, 1), 1) == 9
}

fn case_10() -> bool {
    // Nine columns; the same pixels with the seven padding bits clear and set.
    let clear = drawn(&["101101111", "111111111", "001111011"]);
    let mut set = drawn(&["101101111", "111111111", "001111011"]);
    for row in 0..3 {
        set.bytes[2 * row + 1] |= 0x7F;
    }
    let sheets = |sheet: &Drawn| {
        let opened = number_and_after(&given(Name::Open, sheet, &CROSS, 1))
            .1
            .bytes_out;
        let closed = number_and_after(&given(Name::Close, sheet, &CROSS, 1))
            .1
            .bytes_out;
        (opened, closed, threshold(sheet, &CROSS, 1))
    };
    clear.bytes.len() == 6
        && four_transforms(&clear, &CROSS) == four_transforms(&set, &CROSS)
        && sheets(&clear) == sheets(&set)
}

/// Points lowered, worked out by hand: a full sheet of 3 by 3 in any slices, and slices that cross blank rows.
fn points_lowered() -> bool {
    let full = given(Name::StartErosion, &full(3, 3), &CROSS, 0);
    let blank = drawn(&["000", "000", "000"]);
    let eroded = given(Name::StartErosion, &blank, &CROSS, 0);
    let dilated = given(Name::StartDilation, &blank, &CROSS, 1);
    // The point's canvas is 3 by 3, the point in its middle: row by row its neighbours fall, below right and below first.
    let point = given(Name::StartDilation, &drawn(&["1"]), &CROSS, 1);
    // A cropped run's canvas is 5 by 5, the unset centre in its middle.
    let ring = given(Name::StartCropped, &drawn(&RING), &CROSS, 1);
    let crop = given(Name::StartCropped, &drawn(&["111"; 3]), &CROSS, 1);
    lowered(&full, &[1; 6]) == [3, 3, 3, 2, 1, 0]
        && lowered(&full, &[2, 0, 4]) == [6, 0, 6]
        && lowered(&full, &[8192]) == [12]
        && lowered(&eroded, &[3, 3]) == [0, 0]
        && lowered(&dilated, &[8192]) == [0]
        && lowered(&point, &[1; 6]) == [0, 1, 2, 1, 1, 3]
        && lowered(&ring, &[1; 10]) == [0, 0, 2, 3, 3, 2, 2, 2, 5, 5]
        && lowered(&crop, &[8192]) == [0]
}

/// Foreground beyond the frame: nothing is eaten from the border, and 65,535 is more than the cap.
fn crops() -> bool {
    let ring = drawn(&RING);
    let row = drawn(&["11011"]);
    cropped(&full(3, 3), &CROSS, 2) == [65535; 9]
        && cropped(&ring, &CROSS, 2) == [2, 1, 2, 1, 0, 1, 2, 1, 2]
        && cropped(&ring, &CROSS, 1) == [65535, 1, 65535, 1, 0, 1, 65535, 1, 65535]
        && cropped(&ring, &CROSS, 0) == [65535, 65535, 65535, 65535, 0, 65535, 65535, 65535, 65535]
        && cropped(&drawn(&["000", "000"]), &CROSS, 2) == [0; 6]
        && cropped(&row, &T, 2) == [2, 1, 0, 65535, 65535]
        && cropped(&row, &T, 1) == [65535, 1, 0, 65535, 65535]
}

/// The lower point is met by way of beyond the frame, in two steps.
fn crops_beyond_the_frame() -> bool {
    let sheet = drawn(&["1", "0"]);
    cropped(&sheet, &HOOK, 2) == [2, 0] && cropped(&sheet, &HOOK, 1) == [65535, 0]
}

fn sheets_of_crops() -> bool {
    let start = given(Name::StartCropped, &drawn(&RING), &CROSS, 2);
    thresholded(&start, 0) == (0, drawn(&RING).bytes)
        && thresholded(&start, 1) == (0, drawn(&["101", "000", "101"]).bytes)
        && thresholded(&start, 2) == (0, drawn(&["000", "000", "000"]).bytes)
        && thresholded(&start, 3).0 == 8
}

fn levels_of_crops_printed() -> bool {
    let (record, _) = worked(&given(Name::StartCropped, &drawn(&RING), &CROSS, 1), 8192);
    let text = b"P2\n# rows 10 of 10\n3 3\n65535\n65535 1 65535\n1 0 1\n65535 1 65535\n";
    let levels = [65535, 1, 65535, 1, 0, 1, 65535, 1, 65535];
    let answer = (Field::BytesOut, text.len());
    let mut call = on_run(Name::WritePgm, &record, &levels, 0, answer);
    call.set_length(Field::WordsOut, 1);
    let (number, after) = number_and_after(&call);
    number == 0 && after.bytes_out == text && after.words_out == [text.len() as u64]
}

/// The sheet that a filter answers; empty where it is refused.
fn filtered(name: Name, sheet: &Drawn, cells: &[u8], size: u64) -> Drawn {
    let (number, after) = number_and_after(&given(name, sheet, cells, size));
    Drawn {
        bytes: if number == 0 {
            after.bytes_out
        } else {
            Vec::new()
        },
        ..*sheet
    }
}

/// The sheet of two calls chained, the first by one size and the second by another.
fn chained(name: Name, sheet: &Drawn, cells: &[u8], sizes: [u64; 2]) -> Vec<u8> {
    let passed = filtered(name, sheet, cells, sizes[0]);
    filtered(name, &passed, cells, sizes[1]).bytes
}

/// Chains that fold, of the rows of cases 6 and 7.
fn filters_chained() -> bool {
    let row = drawn(&["10111"]);
    let ends = drawn(&["1001"]);
    let open = |sizes| chained(Name::Open, &row, &T, sizes);
    let close = |sizes| chained(Name::Close, &ends, &T, sizes);
    let [kept, none] = [drawn(&["00111"]).bytes, drawn(&["00000"]).bytes];
    let full = drawn(&["1111"]).bytes;
    open([0, 1]) == kept
        && open([1, 2]) == kept
        && open([2, 1]) == kept
        && open([1, 3]) == none
        && open([3, 1]) == none
        && close([0, 1]) == ends.bytes
        && close([1, 2]) == full
        && close([2, 1]) == full
}

/// Dilations within the frame don't fold: case 5's lower point is reached by way of beyond the frame.
fn dilations_chained() -> bool {
    let sheet = drawn(&["1", "0"]);
    let dilated = |size| thresholded(&given(Name::StartDilation, &sheet, &HOOK, size), size);
    // By 1 the frame shows the sheet itself, so by 1 again it does too.
    dilated(1) == (0, sheet.bytes.clone()) && dilated(2) == (0, drawn(&["1", "1"]).bytes)
}

/// A dilation of a sheet by the sizes of a map, up to the cap.
fn by_map(sheet: &Drawn, cells: &[u8], cap: u64, map: &[u16]) -> Call {
    let mut call = given(Name::DilateByMap, sheet, cells, cap);
    call.map = map.to_vec();
    // What the answer held before must not show, nor in its padding.
    call.bytes_out.fill(255);
    call
}

/// Whether a dilation by a map is accepted, shows this sheet, and leaves its work buffer zero and the rest as it was.
fn shows(call: &Call, rows: &[&str]) -> bool {
    let mut expected = call.clone();
    expected.bytes_out = drawn(rows).bytes;
    expected.work_a.fill(0);
    number_and_after(call) == (0, expected)
}

/// Whether a call is refused with this number and leaves everything as it was.
fn refused(call: &Call, number: u32) -> bool {
    number_and_after(call) == (number, call.clone())
}

/// A row of seven with two points, the first by 0 and the second by 1, or otherwise; what the others' sizes are doesn't
/// matter.
fn sizes_of_points() -> bool {
    let row = drawn(&["0100010"]);
    let dilated = |cap, first, second, other| {
        let map = [other, first, other, other, other, second, other];
        by_map(&row, &T, cap, &map)
    };
    [0, 1, 2, 65535].into_iter().all(|other| {
        shows(&dilated(1, 0, 1, other), &["0100011"])
            && shows(&dilated(4, 0, 1, other), &["0100011"])
            && shows(&dilated(1, 1, 0, other), &["0110010"])
            && shows(&dilated(3, 2, 0, other), &["0111010"])
            && shows(&dilated(4, 4, 4, other), &["0111111"])
            && shows(&dilated(4, 0, 0, other), &["0100010"])
    })
}

/// A large size beside a small one, on either side: neither point hides the other, and each is moved by its own size.
fn sizes_side_by_side() -> bool {
    let pair = drawn(&["1100000"]);
    let of_pair = |sizes: [u16; 2]| by_map(&pair, &T, 5, &[&sizes[..], &[9; 5]].concat());
    // Larger below, as in perspective, and the other way round.
    let column = drawn(&["00100", "00000", "00000", "00100"]);
    let of_column = |above, below| {
        let mut map = [65535; 20];
        (map[2], map[17]) = (above, below);
        by_map(&column, &CROSS, 2, &map)
    };
    shows(&of_pair([3, 0]), &["1111000"])
        && shows(&of_pair([0, 3]), &["1111100"])
        && shows(&of_pair([5, 1]), &["1111110"])
        && shows(&of_column(0, 2), &["00100", "00100", "01110", "11111"])
        && shows(&of_column(2, 0), &["11111", "01110", "00100", "00100"])
        && shows(&of_column(1, 1), &["01110", "00100", "00100", "01110"])
}

/// The lower point is reached by way of beyond the frame, where the upper one's size is 2; and a point between that is
/// background has no size.
fn sizes_beyond_the_frame() -> bool {
    let two = drawn(&["1", "0"]);
    let three = drawn(&["1", "0", "1"]);
    let lowest = drawn(&["0", "0", "1"]);
    shows(&by_map(&two, &HOOK, 2, &[2, 65535]), &["1", "1"])
        && shows(&by_map(&two, &HOOK, 2, &[1, 2]), &["1", "0"])
        && shows(&by_map(&two, &HOOK, 2, &[0, 2]), &["1", "0"])
        && shows(&by_map(&three, &HOOK, 2, &[2, 65535, 0]), &["1", "1", "1"])
        && shows(&by_map(&three, &HOOK, 2, &[1, 65535, 2]), &["1", "0", "1"])
        && shows(&by_map(&lowest, &HOOK, 4, &[4, 4, 4]), &["0", "0", "1"])
}

/// Padding bits are no points, and have no sizes; and with the cap 0 a sheet stays as it is, its padding cleared.
fn sizes_and_padding() -> bool {
    let rows = ["100000010", "000000001"];
    let mut sheet = drawn(&rows);
    for byte in [1, 3] {
        sheet.bytes[byte] |= 0x7F;
    }
    let mut map = [65535; 18];
    let mut of_points = |cap, sizes: [u16; 3]| {
        [map[0], map[7], map[17]] = sizes;
        by_map(&sheet, &CROSS, cap, &map)
    };
    shows(&of_points(0, [0, 0, 0]), &rows)
        && refused(&of_points(0, [0, 0, 1]), 8)
        && shows(&of_points(1, [1, 0, 0]), &["110000010", "100000001"])
        && shows(&of_points(1, [0, 1, 1]), &["100000111", "000000011"])
}

/// One fault that a call can have, and the number that it gives.
type Fault = (u32, fn(&mut Call));

/// The faults of a sheet and an element, from the last to be judged to the first. None mends another that can stand beside
/// it, nor do those of single calls.
const FAULTS: [Fault; 7] = [
    (7, |call| call.cells = vec![0, 0, 0, 0, 1, 0, 0, 0, 0]),
    (6, |call| call.cells[4] = 0),
    (5, |call| call.cells[0] = 2),
    (4, |call| call.cells.push(1)),
    (4, |call| call.side = 2),
    (3, |call| call.sheet.push(0)),
    (2, |call| call.width = 0),
];

/// The faults of a dilation by a map that are judged after those of its sheet and its element.
const FAULTS_OF_MAPS: [Fault; 6] = [
    (8, |call| call.map[1] = 65535),
    (11, |call| call.bytes_out.push(0)),
    (10, |call| call.work_a.push(0)),
    (10, |call| call.map.push(0)),
    (9, |call| call.number = 2047),
    (8, |call| call.number = 2048),
];

/// Each fault alone gives its number, and so it does beside each of those that are judged after it, and beside them all.
fn each_refused(sound: &Call, last_faults: &[Fault]) -> bool {
    let faults = [last_faults, &FAULTS].concat();
    faults.iter().enumerate().all(|(place, (number, fault))| {
        let refused_beside = |others: &[Fault]| {
            let mut call = sound.clone();
            others.iter().for_each(|(_, other)| other(&mut call));
            fault(&mut call);
            refused(&call, *number)
        };
        let later = &faults[..place];
        refused_beside(&[]) && later.chunks(1).all(refused_beside) && refused_beside(later)
    })
}

fn sizes_refused() -> bool {
    let sound = by_map(&drawn(&["010"]), &T, 1, &[65535, 1, 65535]);
    shows(&sound, &["011"]) && each_refused(&sound, &FAULTS_OF_MAPS)
}

/// The ends of the ranges of sizes, caps, frames and lengths.
fn ends_of_sizes() -> bool {
    let ends = drawn(&["101"]);
    let sizes = |map: &[u16]| by_map(&ends, &T, 3, map);
    let number = |width, cap| {
        let call = by_map(&full(width, 1), &CROSS, cap, &vec![0; count(width)]);
        number_and_after(&call).0
    };
    let mut canvas_sized = sizes(&[0; 3]);
    canvas_sized.set_length(Field::Map, canvas_sized.work_a.len());
    let mut frame_sized = sizes(&[0; 3]);
    frame_sized.set_length(Field::WorkA, 3);
    shows(&sizes(&[3, 4, 3]), &["111"])
        && refused(&sizes(&[4, 0, 0]), 8)
        && refused(&sizes(&[0, 0, 4]), 8)
        && refused(&sizes(&[0, 0, 65535]), 8)
        && refused(&sizes(&[0, 0]), 10)
        && refused(&sizes(&[]), 10)
        && refused(&sizes(&[0; 4]), 10)
        && refused(&canvas_sized, 10)
        && refused(&frame_sized, 10)
        && number(4096, 0) == 0
        && number(4097, 0) == 2
        && number(4094, 1) == 0
        && number(4095, 1) == 9
}

/// A double that is no number, and signalling: it stays what it is only where nothing is computed of it.
const NO_NUMBER: Double = Double(0x7FF0_0000_0000_0801);

/// The spectrum of a sheet. What its answer slices hold before must not show.
fn spectrum(sheet: &Drawn, cells: &[u8]) -> Call {
    let mut call = given(Name::Spectrum, sheet, cells, 0);
    call.table.fill(u64::MAX);
    call.summary.fill(NO_NUMBER);
    call
}

/// Whether a spectrum is accepted with this table and, bit for bit, this mean and share, and leaves its work buffers zero
/// and the rest as it was.
fn counts(call: &Call, table: &[u64], summary: [f64; 2]) -> bool {
    let mut expected = call.clone();
    expected.table = table.to_vec();
    expected.summary = summary.map(Double::of).to_vec();
    expected.work_a.fill(0);
    expected.work_b.fill(0);
    number_and_after(call) == (0, expected)
}

/// The row of case 6; rows of which both fractions have to be rounded: 5 by 3 is rounded up and 1 by 3 down, 17 by 5 down
/// and 1 by 5 up; and a corner, which the element fits as it is but not turned.
fn spectra_by_hand() -> bool {
    let of_row = |row| spectrum(&drawn(&[row]), &T);
    let of_corner = |rows: &[&str]| spectrum(&drawn(rows), &[0, 0, 0, 0, 1, 1, 0, 1, 0]);
    let thirds = [0x3FFA_AAAA_AAAA_AAAB, 0x3FD5_5555_5555_5555].map(f64::from_bits);
    counts(&of_row("10111"), &[1, 1, 0, 3, 0, 0], [2.5, 0.25])
        && counts(&of_row("1011"), &[1, 1, 2, 0, 0], thirds)
        && counts(&of_row("101111"), &[1, 1, 0, 0, 4, 0, 0], [3.4, 0.2])
        && counts(&of_corner(&["11", "10"]), &[1, 0, 3], [2.0, 0.0])
        && counts(&of_corner(&["01", "11"]), &[1, 3, 0], [1.0, 1.0])
}

/// Full sheets: 3 by 3 opened by the cross is the cross, opened by the box it is all. The table goes by the larger side,
/// whichever side the levels go by.
fn spectra_of_full_sheets() -> bool {
    let of_full = |width, height, cells| spectrum(&full(width, height), cells);
    // 14 by 9 and 4 by 9.
    let ninths = [0x3FF8_E38E_38E3_8E39, 0x3FDC_71C7_1C71_C71C].map(f64::from_bits);
    counts(&of_full(1, 1, &BOX), &[0, 1], [1.0, 1.0])
        && counts(&of_full(3, 3, &CROSS), &[0, 4, 5, 0], ninths)
        && counts(&of_full(3, 3, &BOX), &[0, 0, 9, 0], [2.0, 0.0])
        && counts(&of_full(3, 2, &T), &[0, 0, 0, 6], [3.0, 0.0])
        && counts(&of_full(2, 3, &T), &[0, 0, 6, 0], [2.0, 0.0])
        && counts(&of_full(3, 2, &UPRIGHT), &[0, 0, 6, 0], [2.0, 0.0])
        && counts(&of_full(2, 3, &UPRIGHT), &[0, 0, 0, 6], [3.0, 0.0])
}

/// Every row and every column of ten points: those of a stretch of n are of level n.
fn spectra_of_rows() -> bool {
    (1..1 << 10).all(|number| {
        let row = format!("{number:010b}");
        let column: Vec<&str> = (0..10).map(|place| &row[place..=place]).collect();
        let mut table = [0; 11];
        for stretch in row.split('0') {
            table[stretch.len()] += stretch.len() as u64;
        }
        table[0] = row.matches('0').count() as u64;
        let sum: u64 = (0..).zip(table).map(|(level, entry)| level * entry).sum();
        let foreground = (10 - table[0]) as f64;
        let summary = [sum as f64 / foreground, table[1] as f64 / foreground];
        counts(&spectrum(&drawn(&[&row]), &T), &table, summary)
            && counts(&spectrum(&drawn(&column), &UPRIGHT), &table, summary)
    })
}

/// A blank sheet is refused, whatever its padding bits are; one point is foreground enough, wherever it lies.
fn blank_spectra() -> bool {
    let mut table = [0; 14];
    [table[0], table[1]] = [38, 1];
    [0, 0x01, 0x07].into_iter().all(|padding| {
        // Thirteen columns, so that three bits pad each row.
        let mut blank = drawn(&["0000000000000"; 3]);
        for row in blank.bytes.chunks_mut(2) {
            row[1] = padding;
        }
        let mut one_point = (0..39).map(|place| {
            let (row, column) = (place / 13, place % 13);
            let mut call = spectrum(&blank, &CROSS);
            call.sheet[2 * row + column / 8] |= 0x80 >> (column % 8);
            call
        });
        refused(&spectrum(&blank, &CROSS), 14)
            && one_point.all(|call| counts(&call, &table, [1.0, 1.0]))
    }) && refused(&spectrum(&drawn(&["0"]), &T), 14)
        && refused(&spectrum(&drawn(&["00000000"]), &T), 14)
}

/// The faults of a spectrum that are judged after those of its sheet and its element.
const FAULTS_OF_SPECTRA: [Fault; 5] = [
    (14, |call| call.sheet.fill(0)),
    (11, |call| call.summary.push(NO_NUMBER)),
    (11, |call| call.table.push(0)),
    (10, |call| call.work_b.push(0)),
    (10, |call| call.work_a.push(0)),
];

fn spectra_refused() -> bool {
    let sound = spectrum(&drawn(&["10111"]), &T);
    counts(&sound, &[1, 1, 0, 3, 0, 0], [2.5, 0.25]) && each_refused(&sound, &FAULTS_OF_SPECTRA)
}

/// Whether a slice of a spectrum is refused with this number at every length but the one due.
fn only_length(field: Field, due: usize, number: u32) -> bool {
    // Wider than high, and higher than wide.
    [full(5, 2), full(2, 5)].iter().all(|sheet| {
        (0..2 * due + 2).all(|length| {
            let mut call = spectrum(sheet, &CROSS);
            call.set_length(field, length);
            if length == due {
                number_and_after(&call).0 == 0
            } else {
                refused(&call, number)
            }
        })
    })
}

/// The ends of the ranges of frames and lengths.
fn ends_of_spectra() -> bool {
    let number = |width, height| number_and_after(&spectrum(&full(width, height), &CROSS)).0;
    only_length(Field::WorkA, 10, 10)
        && only_length(Field::WorkB, 10, 10)
        && only_length(Field::Table, 6, 11)
        && only_length(Field::Summary, 2, 11)
        && number(4096, 1) == 0
        && number(1, 4096) == 0
        && number(4097, 1) == 2
        && number(1, 4097) == 2
}

/// The largest sheet, full, with the box: the level is the distance to the nearest border.
fn largest_erosion() -> bool {
    let side: u64 = 4096;
    let levels = erosion(&full(side, side), &BOX);
    levels.len() == count(side * side)
        && levels.iter().enumerate().all(|(place, level)| {
            let (row, column) = (place as u64 / side, place as u64 % side);
            let nearest = row.min(column).min(side - 1 - row).min(side - 1 - column) + 1;
            u64::from(*level) == nearest
        })
}

/// The largest canvas: a frame of 2 by 2 with the cap 2,047. Levels are right on all of the canvas.
fn largest_dilation() -> bool {
    let start = given(Name::StartDilation, &full(2, 2), &BOX, 2047);
    let (_, levels) = worked(&start, 8192);
    let side: u64 = 4096;
    // The frame lies at 2,047 and 2,048.
    let distance = |place: u64| {
        if place < 2047 {
            2047 - place
        } else {
            place.saturating_sub(2048)
        }
    };
    levels.len() == count(side * side)
        && levels.iter().enumerate().all(|(place, level)| {
            let (row, column) = (place as u64 / side, place as u64 % side);
            u64::from(*level) == distance(row).max(distance(column)) + 1
        })
}

/// The widest canvas of a cropped run, a row of 2,050 with the cap 1,023: only its last point is unset.
fn longest_crop() -> bool {
    let mut row = full(2050, 1);
    row.bytes[256] = 0x80;
    let levels = cropped(&row, &T, 1023);
    levels.len() == 2050
        && levels.iter().rev().enumerate().all(|(steps, level)| {
            // As many steps as lead to the unset point, where the cap has so many.
            usize::from(*level) == if steps <= 1023 { steps } else { 65535 }
        })
}

/// The widest canvas of a map, a row of 2,050 with the cap 1,023: its first point by the cap, and a later one by 10.
fn longest_map() -> bool {
    let place = |column: usize| (column / 8, 0x80 >> (column % 8));
    let mut row = full(2050, 1);
    row.bytes.fill(0);
    let mut map = vec![65535; 2050];
    for (column, size) in [(0, 1023), (1500, 10)] {
        let (byte, bit) = place(column);
        row.bytes[byte] |= bit;
        map[column] = size;
    }
    let (number, after) = number_and_after(&by_map(&row, &T, 1023, &map));
    number == 0
        && after.work_a.iter().all(|level| *level == 0)
        && (0..2050).all(|column| {
            let (byte, bit) = place(column);
            let held = column <= 1023 || (1500..=1510).contains(&column);
            (after.bytes_out[byte] & bit != 0) == held
        })
}

/// A full row of 4,096 with its right neighbour: every opening up to size 4,095 holds all of it.
fn longest_opening() -> bool {
    let sheet = full(4096, 1);
    let row = levels_of(Name::OpeningLevels, &sheet, &T, 0);
    let opened = |size| {
        number_and_after(&given(Name::Open, &sheet, &T, size))
            .1
            .bytes_out
    };
    row == vec![4096; 4096] && opened(4095) == vec![255; 512] && opened(4096) == vec![0; 512]
}

/// A full row of 4,096 with its right neighbour: all points are of the last entry's level.
fn longest_spectrum() -> bool {
    let mut table = vec![0; 4097];
    table[4096] = 4096;
    counts(&spectrum(&full(4096, 1), &T), &table, [4096.0, 0.0])
}

/// A square of 300 by 300, a blank column, and a column of points: more points than 16 bits count.
fn most_points() -> bool {
    let row = format!("{}01", "1".repeat(300));
    let sheet = drawn(&[row.as_str(); 300]);
    let mut table = [0; 303];
    [table[0], table[1], table[150]] = [300, 300, 90_000];
    // 13,500,300 by 90,300, and 300 by 90,300.
    let summary = [0x4062_B028_D2EC_7044, 0x3F6B_3748_4AD8_06CE].map(f64::from_bits);
    counts(&spectrum(&sheet, &BOX), &table, summary)
}

type Case = (&'static str, fn() -> bool);

const CASES: [Case; 36] = [
    ("case 1: full 3 by 3, cross", case_1),
    ("case 2: full 5 by 1, right neighbour", case_2),
    ("case 3: the same, reflected", case_3),
    ("case 4: dilation to the right, capped", case_4),
    ("case 5: dilation by way of beyond the frame", case_5),
    ("case 6: opening of a row", case_6),
    ("case 7: closing of a row", case_7),
    ("case 8: empty sheet, and one point", case_8),
    ("case 9: the ends of the ranges", case_9),
    ("case 10: padding bits", case_10),
    ("points lowered, and blank slices", points_lowered),
    ("crops: levels by hand, and more than the cap", crops),
    ("crops: by way of beyond the frame", crops_beyond_the_frame),
    ("crops: sheets of sizes up to the cap", sheets_of_crops),
    ("crops: levels printed", levels_of_crops_printed),
    ("chains: openings and closings fold", filters_chained),
    ("chains: dilations in the frame do not", dilations_chained),
    ("maps: a row of seven by hand", sizes_of_points),
    ("maps: large sizes beside small ones", sizes_side_by_side),
    ("maps: by way of beyond the frame", sizes_beyond_the_frame),
    ("maps: padding bits, and cap 0", sizes_and_padding),
    ("maps: each refusal, and their order", sizes_refused),
    ("maps: the ends of the ranges", ends_of_sizes),
    ("spectrum: by hand, bit for bit", spectra_by_hand),
    ("spectrum: full sheets by hand", spectra_of_full_sheets),
    ("spectrum: all rows and columns of ten", spectra_of_rows),
    ("spectrum: blank sheets, padding, one point", blank_spectra),
    ("spectrum: each refusal, and their order", spectra_refused),
    ("spectrum: the ends of the ranges", ends_of_spectra),
    ("largest frame: erosion of 4,096 by 4,096", largest_erosion),
    ("largest canvas: dilation with cap 2,047", largest_dilation),
    ("longest crop: a row of 2,050 with cap 1,023", longest_crop),
    ("longest map: a row of 2,050 with cap 1,023", longest_map),
    ("longest opening: sizes up to 4,096", longest_opening),
    ("longest spectrum: levels of 4,096", longest_spectrum),
    ("most points: a spectrum of 90,300", most_points),
];

pub fn check_cases(tally: &mut Tally) {
    for (name, holds) in CASES {
        tally.tried(name);
        if !holds() && tally.differs(name) {
            println!("DIFFERENCE in {name}: see src/cases.rs");
        }
    }
}
