//! Times the library beside C scans of the same rule, OpenCV and leptonica, on the same machine in the same run.
//!
//! Usage: `bench [--quick]`
//!
//! Each works in one thread, turn by turn, so that a slow moment of the machine meets all of them; medians of the
//! processor time are given, and how far wall time lies above it. Buffers are allocated and touched beforehand. A run
//! of the library is its start and all its rows; a run of a scan in C is the same unpacking, done here, and the scan.
//! Pictures are taken of a run that the library finished beforehand, by all of them from its levels.
//! OpenCV and leptonica are given pictures in their own layout, made beforehand, and answer in theirs.
#![deny(unsafe_code)]

mod library;
mod raw;
mod sheets;

use std::hint::black_box;
use std::time::Instant;

use walugtirim::lent::{Record, Summary};

use raw::{Leptonica, Way};
use sheets::{elements, Content, Element, Frame, Sheet};

/// The size that sheets are opened and closed by, and the cap of dilations.
const SIZE: usize = 10;

struct Options {
    side: usize,
    repeats: usize,
}

/// One who does the work: a name, and the work.
struct Runner<'a> {
    name: &'static str,
    work: Box<dyn FnMut() + 'a>,
}

fn runner<'a>(name: &'static str, work: impl FnMut() + 'a) -> Runner<'a> {
    Runner {
        name,
        work: Box::new(work),
    }
}

/// Median time and spread of one runner.
struct Timed {
    name: &'static str,
    median: f64,
    /// The largest less the smallest time, as a share of the median.
    spread: f64,
}

/// Times all runners turn by turn, in nanoseconds for each pixel; a first turn that doesn't count warms them up.
fn time(pixels: usize, repeats: usize, mut runners: Vec<Runner>) -> Vec<Timed> {
    let mut times = vec![Vec::new(); runners.len()];
    for turn in 0..=repeats {
        for (runner, times) in runners.iter_mut().zip(&mut times) {
            let begin = raw::seconds_used();
            (runner.work)();
            let used = raw::seconds_used() - begin;
            if turn > 0 {
                times.push(used * 1e9 / pixels as f64);
            }
        }
    }
    runners
        .iter()
        .zip(times)
        .map(|(runner, mut times)| {
            times.sort_by(f64::total_cmp);
            let median = times[times.len() / 2];
            Timed {
                name: runner.name,
                median,
                spread: (times[times.len() - 1] - times[0]) / median,
            }
        })
        .collect()
}

/// One work, and what it took everyone.
struct Row {
    title: String,
    timed: Vec<Timed>,
}

/// Prints one line for each runner; ratios are the library's time over the runner's.
fn report(title: String, timed: Vec<Timed>) -> Row {
    println!("{title}");
    let library = timed[0].median;
    for entry in &timed {
        println!(
            "    {:<24} {:>9.3} ns/pixel   spread {:>4.0} %   library/this {:>7.2}",
            entry.name,
            entry.median,
            entry.spread * 100.0,
            library / entry.median
        );
    }
    Row { title, timed }
}

/// All medians again, one line for each work.
fn print_table(rows: &[Row]) {
    const COLUMNS: [&str; 5] = ["library", "plain C", "tuned C", "OpenCV", "leptonica"];
    print!("{:<69}", "ns/pixel");
    for column in COLUMNS {
        print!(" {column:>9}");
    }
    println!(" {:>9} {:>9}", "lib/plain", "lib/tuned");
    for row in rows {
        let median = |column: &str| {
            let entry = row
                .timed
                .iter()
                .find(|entry| entry.name.starts_with(column));
            entry.map(|entry| entry.median)
        };
        let shown = |number: Option<f64>| number.map_or("-".to_string(), |n| format!("{n:.2}"));
        print!("{:<69}", row.title);
        for column in COLUMNS {
            print!(" {:>9}", shown(median(column)));
        }
        for column in ["plain C", "tuned C"] {
            let ratio = median("library").zip(median(column)).map(|(l, c)| l / c);
            print!(" {:>9}", shown(ratio));
        }
        println!();
    }
}

/// Sets levels up as a start does, without a branch for each pixel.
fn unpack(sheet: &Sheet, margin: usize, on: u16, off: u16, levels: &mut [u16]) {
    if margin > 0 {
        levels.fill(off);
    }
    let width = sheet.width + 2 * margin;
    for (y, row) in sheet.bytes.chunks(sheet.width.div_ceil(8)).enumerate() {
        let levels = &mut levels[(y + margin) * width + margin..][..sheet.width];
        for (levels, byte) in levels.chunks_mut(8).zip(row) {
            for (place, level) in levels.iter_mut().enumerate() {
                let bit = u16::from(*byte) >> (7 - place) & 1;
                *level = off ^ ((on ^ off) & 0_u16.wrapping_sub(bit));
            }
        }
    }
}

fn erosion_by(which: Way, sheet: &Sheet, element: &Element, levels: &mut [u16]) {
    unpack(sheet, 0, u16::MAX, 0, levels);
    raw::scan(which, levels, sheet.width, sheet.height, element, false);
}

fn dilation_by(which: Way, sheet: &Sheet, element: &Element, cap: usize, levels: &mut [u16]) {
    let margin = cap * element.reach();
    unpack(sheet, margin, 1, u16::MAX, levels);
    scan_within(which, sheet, margin, element, levels);
}

/// Works all rows of a dilation on a canvas with this margin.
fn scan_within(which: Way, sheet: &Sheet, margin: usize, element: &Element, levels: &mut [u16]) {
    let (width, height) = (sheet.width + 2 * margin, sheet.height + 2 * margin);
    raw::scan(which, levels, width, height, element, true);
}

/// Opens or closes with a scan in C, in the way that two work buffers allow: one scan, its threshold, another scan.
fn filter_by(
    which: Way,
    closing: bool,
    sheet: &Sheet,
    element: &Element,
    work: &mut [Vec<u16>; 2],
    out: &mut [u8],
) {
    let size = u16::try_from(SIZE).expect("a small size");
    let margin = if closing { SIZE * element.reach() } else { 0 };
    let (width, height) = (sheet.width + 2 * margin, sheet.height + 2 * margin);
    let frame = sheet.within(margin);
    let [a, b] = work;
    if closing {
        dilation_by(which, sheet, element, SIZE, a);
        for (from, to) in a.iter().zip(b.iter_mut()) {
            *to = if *from <= size + 1 { u16::MAX } else { 0 };
        }
        raw::scan(which, b, width, height, element, false);
        raw::pack(which, b, frame, size, u16::MAX, out);
    } else {
        erosion_by(which, sheet, element, a);
        for (from, to) in a.iter().zip(b.iter_mut()) {
            *to = if *from > size { 1 } else { u16::MAX };
        }
        raw::scan(which, b, width, height, element, true);
        raw::pack(which, b, frame, 0, size + 1, out);
    }
}

/// The opening transform with a scan in C: a scan for the erosion, and one for every size up to its largest level.
fn opening_levels_by(
    which: Way,
    sheet: &Sheet,
    element: &Element,
    work: &mut [Vec<u16>; 2],
    out: &mut [u16],
) {
    let [a, b] = work;
    erosion_by(which, sheet, element, a);
    out.fill(0);
    for size in 0..a.iter().copied().max().unwrap_or(0) {
        for (from, to) in a.iter().zip(b.iter_mut()) {
            *to = if *from > size { 1 } else { u16::MAX };
        }
        raw::scan(which, b, sheet.width, sheet.height, element, true);
        for (from, to) in b.iter().zip(out.iter_mut()) {
            if *from <= size + 1 {
                *to = size + 1;
            }
        }
    }
}

/// What a spectrum is counted in, and its answer. The library's has no use for the third buffer of levels.
struct SpectrumRoom {
    work: [Vec<u16>; 2],
    levels: Vec<u16>,
    table: Vec<u64>,
    summary: Summary,
}

impl SpectrumRoom {
    fn new(sheet: &Sheet) -> SpectrumRoom {
        let levels = || vec![0; sheet.width * sheet.height];
        SpectrumRoom {
            work: [levels(), levels()],
            levels: levels(),
            table: vec![0; sheet.width.max(sheet.height) + 1],
            summary: Summary {
                mean_level: 0.0,
                share_at_level_one: 0.0,
            },
        }
    }
}

/// The spectrum with scans in C, as one would have it without such a call: the opening transform, and a count of its
/// levels.
fn spectrum_by(which: Way, sheet: &Sheet, element: &Element, room: &mut SpectrumRoom) {
    opening_levels_by(which, sheet, element, &mut room.work, &mut room.levels);
    room.table.fill(0);
    for level in &room.levels {
        room.table[usize::from(*level)] += 1;
    }
    let weighted = (0..).zip(&room.table).map(|(level, points)| level * points);
    let (sum, foreground) = (weighted.sum::<u64>(), room.table[1..].iter().sum::<u64>());
    room.summary = Summary {
        mean_level: sum as f64 / foreground as f64,
        share_at_level_one: room.table[1] as f64 / foreground as f64,
    };
}

/// Sets levels up by a map, without a branch for each pixel: on the foreground what `level_of` makes of the size there.
fn unpack_by_map(
    sheet: &Sheet,
    margin: usize,
    map: &[u16],
    level_of: impl Fn(u16) -> u16,
    levels: &mut [u16],
) {
    if margin > 0 {
        levels.fill(u16::MAX);
    }
    let width = sheet.width + 2 * margin;
    let rows = sheet.bytes.chunks(sheet.width.div_ceil(8));
    for (y, (row, sizes)) in rows.zip(map.chunks(sheet.width)).enumerate() {
        let levels = &mut levels[(y + margin) * width + margin..][..sheet.width];
        for ((levels, sizes), byte) in levels.chunks_mut(8).zip(sizes.chunks(8)).zip(row) {
            for (place, (level, size)) in levels.iter_mut().zip(sizes).enumerate() {
                let bit = u16::from(*byte) >> (7 - place) & 1;
                *level = level_of(*size) | bit.wrapping_sub(1);
            }
        }
    }
}

/// What dilating by a map in C works in: levels, and the sheet of one size.
type MapRoom = (Vec<u16>, Vec<u8>);

/// The type of [`by_map_in_one_scan`] and [`by_map_size_by_size`].
type ByMap = fn(Way, &Sheet, &Element, &[u16], &mut MapRoom, &mut [u8]);

/// Dilates by a map with one scan in C, as the library does: a point of size n starts at the level R + 1 - n, and what
/// ends at most at R + 1 is held.
fn by_map_in_one_scan(
    which: Way,
    sheet: &Sheet,
    element: &Element,
    map: &[u16],
    room: &mut MapRoom,
    out: &mut [u8],
) {
    let most = u16::try_from(SIZE + 1).expect("a small size");
    let margin = SIZE * element.reach();
    let (levels, _) = room;
    unpack_by_map(sheet, margin, map, |size| most - size, levels);
    scan_within(which, sheet, margin, element, levels);
    raw::pack(which, levels, sheet.within(margin), 0, most, out);
}

/// Dilates by a map with scans in C, as one would without such a call: the points of each size are dilated by it, on a
/// canvas of that size, and the sheets joined.
fn by_map_size_by_size(
    which: Way,
    sheet: &Sheet,
    element: &Element,
    map: &[u16],
    room: &mut MapRoom,
    out: &mut [u8],
) {
    let (levels, part) = room;
    out.fill(0);
    for size in 0..=u16::try_from(SIZE).expect("a small size") {
        let margin = usize::from(size) * element.reach();
        let levels = &mut levels[..sheet.within(margin).points()];
        let level_of = |of_point| if of_point == size { 1 } else { u16::MAX };
        unpack_by_map(sheet, margin, map, level_of, levels);
        // Size 0 leaves its points as they are.
        if size > 0 {
            scan_within(which, sheet, margin, element, levels);
        }
        raw::pack(which, levels, sheet.within(margin), 0, size + 1, part);
        for (to, from) in out.iter_mut().zip(part.iter()) {
            *to |= from;
        }
    }
}

/// Says where two answers that should be the same are not; a timing of wrong answers is worth nothing.
fn compare<T: PartialEq>(who: &str, ours: &[T], theirs: &[T]) {
    if ours != theirs {
        println!("    WARNING: the answer of {who} differs from the library's");
    }
}

fn bench_erosion(options: &Options, element: &Element, content: Content) -> Row {
    let side = options.side;
    let sheet = content.sheet(side, side);
    let points = side * side;
    let mut levels = [vec![0; points], vec![0; points], vec![0; points]];
    // OpenCV and leptonica know the cross and the box only.
    let known = element.side == 3;
    let box_shaped = element.cells[0] == 1;
    let pixels: Vec<u8> = if known {
        let mut flags = vec![0; points];
        unpack(&sheet, 0, 1, 0, &mut flags);
        flags.iter().map(|flag| flag.to_le_bytes()[0]).collect()
    } else {
        Vec::new()
    };
    let mut distances = vec![0_f32; if known { points } else { 0 }];
    let has_opencv = known && raw::opencv(&pixels, side, side, &mut distances, box_shaped);
    let leptonica = if known { Leptonica::new(&sheet) } else { None };
    let title = format!(
        "erosion run, {}, {} {side} by {side}",
        element.name,
        content.name()
    );

    let [ours, plain, tuned] = &mut levels;
    let mut runners = vec![
        runner("library", || {
            library::erosion(&sheet, element, ours);
        }),
        runner("plain C", || {
            erosion_by(Way::Plain, &sheet, element, plain);
        }),
        runner("tuned C", || {
            erosion_by(Way::Tuned, &sheet, element, tuned);
        }),
    ];
    if has_opencv {
        let name = if box_shaped {
            "OpenCV, C"
        } else {
            "OpenCV, L1"
        };
        runners.push(runner(name, || {
            raw::opencv(&pixels, side, side, &mut distances, box_shaped);
        }));
    }
    if let Some(leptonica) = &leptonica {
        runners.push(runner("leptonica", || leptonica.distance(box_shaped)));
    }
    let row = report(title, time(points, options.repeats, runners));
    if known && !has_opencv {
        println!("    {:<24} not installed", "OpenCV");
    }
    if known && leptonica.is_none() {
        println!("    {:<24} not installed", "leptonica");
    }
    let [ours, plain, tuned] = &levels;
    compare("plain C", ours, plain);
    compare("tuned C", ours, tuned);
    if let Some(leptonica) = &leptonica {
        compare("leptonica", ours, &leptonica.levels(box_shaped));
    }
    row
}

/// A dilation's canvas may have sides of 4,096, so the frame is smaller by its margins.
fn frame_side(options: &Options, element: &Element) -> usize {
    options.side - 2 * SIZE * element.reach()
}

fn bench_dilation(options: &Options, element: &Element, content: Content) -> Row {
    let side = frame_side(options, element);
    let sheet = content.sheet(side, side);
    let points = options.side * options.side;
    let mut levels = [vec![0; points], vec![0; points], vec![0; points]];
    let [ours, plain, tuned] = &mut levels;
    let runners = vec![
        runner("library", || {
            library::dilation(&sheet, element, SIZE, ours);
        }),
        runner("plain C", || {
            dilation_by(Way::Plain, &sheet, element, SIZE, plain);
        }),
        runner("tuned C", || {
            dilation_by(Way::Tuned, &sheet, element, SIZE, tuned);
        }),
    ];
    let title = format!(
        "dilation run, cap {SIZE}, {}, {} {side} by {side}",
        element.name,
        content.name()
    );
    let row = report(title, time(side * side, options.repeats, runners));
    compare("plain C", &levels[0], &levels[1]);
    compare("tuned C", &levels[0], &levels[2]);
    row
}

fn bench_filter(options: &Options, element: &Element, content: Content, closing: bool) -> Row {
    let side = if closing {
        frame_side(options, element)
    } else {
        options.side
    };
    let sheet = content.sheet(side, side);
    let points = options.side * options.side;
    let mut work = [vec![0; points], vec![0; points]];
    let mut work_plain = [vec![0; points], vec![0; points]];
    let mut work_tuned = [vec![0; points], vec![0; points]];
    let bytes = sheet.bytes.len();
    let mut out = [vec![0; bytes], vec![0; bytes], vec![0; bytes]];
    let [ours, plain, tuned] = &mut out;
    let runners = vec![
        runner("library", || {
            library::filter(closing, &sheet, element, SIZE, &mut work, ours);
        }),
        runner("plain C", || {
            filter_by(Way::Plain, closing, &sheet, element, &mut work_plain, plain);
        }),
        runner("tuned C", || {
            filter_by(Way::Tuned, closing, &sheet, element, &mut work_tuned, tuned);
        }),
    ];
    let title = format!(
        "{} by {SIZE}, {}, {} {side} by {side}",
        if closing { "closing" } else { "opening" },
        element.name,
        content.name()
    );
    let row = report(title, time(side * side, options.repeats, runners));
    compare("plain C", &out[0], &out[1]);
    compare("tuned C", &out[0], &out[2]);
    row
}

/// The library's call is the same in both rows; the C works in one scan, or size by size.
fn bench_by_map(options: &Options, element: &Element, content: Content, size_by_size: bool) -> Row {
    let side = frame_side(options, element);
    let sheet = content.sheet(side, side);
    let map = sheet.growing_sizes(SIZE);
    let (points, bytes) = (options.side * options.side, sheet.bytes.len());
    let mut work = vec![0; points];
    let mut room_plain = (vec![0; points], vec![0; bytes]);
    let mut room_tuned = (vec![0; points], vec![0; bytes]);
    let mut out = [vec![0; bytes], vec![0; bytes], vec![0; bytes]];
    let [ours, plain, tuned] = &mut out;
    let (call, how): (ByMap, _) = if size_by_size {
        (by_map_size_by_size, "size by size")
    } else {
        (by_map_in_one_scan, "in one scan")
    };
    let runners = vec![
        runner("library", || {
            library::dilate_by_map(&sheet, element, SIZE, &map, &mut work, ours);
        }),
        runner("plain C", || {
            call(Way::Plain, &sheet, element, &map, &mut room_plain, plain);
        }),
        runner("tuned C", || {
            call(Way::Tuned, &sheet, element, &map, &mut room_tuned, tuned);
        }),
    ];
    let title = format!(
        "dilating by a map, C {how}, {}, {} {side} by {side}",
        element.name,
        content.name()
    );
    let row = report(title, time(side * side, options.repeats, runners));
    compare("plain C", &out[0], &out[1]);
    compare("tuned C", &out[0], &out[2]);
    row
}

/// Only on a sheet of small shapes: the transform takes a scan for every size that leaves something.
fn bench_opening_levels(options: &Options, element: &Element) -> Row {
    let side = options.side;
    let sheet = Content::TextLike.sheet(side, side);
    let points = side * side;
    let mut work = [vec![0; points], vec![0; points]];
    let mut work_plain = [vec![0; points], vec![0; points]];
    let mut work_tuned = [vec![0; points], vec![0; points]];
    let mut out = [vec![0; points], vec![0; points], vec![0; points]];
    let [ours, plain, tuned] = &mut out;
    let runners = vec![
        runner("library", || {
            library::opening_levels(&sheet, element, &mut work, ours);
        }),
        runner("plain C", || {
            opening_levels_by(Way::Plain, &sheet, element, &mut work_plain, plain);
        }),
        runner("tuned C", || {
            opening_levels_by(Way::Tuned, &sheet, element, &mut work_tuned, tuned);
        }),
    ];
    let title = format!(
        "opening levels, {}, text-like {side} by {side}",
        element.name
    );
    let row = report(title, time(points, options.repeats, runners));
    println!(
        "    the largest level is {}",
        out[0].iter().copied().max().unwrap_or(0)
    );
    compare("plain C", &out[0], &out[1]);
    compare("tuned C", &out[0], &out[2]);
    row
}

/// The spectrum, and the library's opening transform of the same sheet beside it, which becomes a row of its own. Both take
/// a scan for every size that leaves something.
fn bench_spectrum(options: &Options, element: &Element, content: Content) -> [Row; 2] {
    let side = options.side;
    let sheet = content.sheet(side, side);
    let mut rooms = [(); 4].map(|()| SpectrumRoom::new(&sheet));
    let [ours, plain, tuned, transform] = &mut rooms;
    let runners = vec![
        runner("library", || {
            ours.summary = library::spectrum(&sheet, element, &mut ours.work, &mut ours.table);
        }),
        runner("plain C", || {
            spectrum_by(Way::Plain, &sheet, element, plain);
        }),
        runner("tuned C", || {
            spectrum_by(Way::Tuned, &sheet, element, tuned);
        }),
        runner("opening transform", || {
            let SpectrumRoom { work, levels, .. } = transform;
            library::opening_levels(&sheet, element, work, levels);
        }),
    ];
    let what = format!("{}, {} {side} by {side}", element.name, content.name());
    let timed = time(side * side, options.repeats, runners);
    let mut row = report(format!("spectrum, {what}"), timed);
    // In its own row the transform stands where the library's times do.
    let mut beside = row.timed.split_off(3);
    beside[0].name = "library";
    let [ours, plain, tuned, transform] = &rooms;
    println!(
        "    the largest level is {}",
        transform.levels.iter().copied().max().unwrap_or(0)
    );
    for (who, theirs) in [("plain C", plain), ("tuned C", tuned)] {
        compare(who, &ours.table, &theirs.table);
        compare(who, &[ours.summary], &[theirs.summary]);
        compare(who, &transform.levels, &theirs.levels);
    }
    let title = format!("opening transform, {what}");
    let timed = beside;
    [row, Row { title, timed }]
}

/// A finished run of the library, by the cross, and how its frame lies in its levels.
struct Finished {
    kind: &'static str,
    sheet: String,
    record: Record,
    levels: Vec<u16>,
    frame: Frame,
    dilation: bool,
}

impl Finished {
    fn new(options: &Options, content: Content, dilation: bool) -> Finished {
        let [cross, ..] = elements();
        let margin = if dilation { SIZE * cross.reach() } else { 0 };
        let side = options.side - 2 * margin;
        let sheet = content.sheet(side, side);
        let mut levels = vec![0; options.side * options.side];
        let record = if dilation {
            library::dilation(&sheet, &cross, SIZE, &mut levels)
        } else {
            library::erosion(&sheet, &cross, &mut levels)
        };
        Finished {
            kind: if dilation { "a dilation" } else { "an erosion" },
            sheet: format!("{} {side} by {side}", content.name()),
            record,
            levels,
            frame: sheet.within(margin),
            dilation,
        }
    }

    /// The same number of turns takes far less time here than of whole runs, so more are taken.
    fn time(&self, options: &Options, runners: Vec<Runner>) -> Vec<Timed> {
        let pixels = self.frame.width * self.frame.height;
        time(pixels, 5 * options.repeats, runners)
    }
}

fn bench_threshold(options: &Options, run: &Finished, size: u16) -> Row {
    let bytes = run.frame.height * run.frame.width.div_ceil(8);
    let (low, high) = if run.dilation {
        (0, size + 1)
    } else {
        (size, u16::MAX)
    };
    let mut out = [vec![0; bytes], vec![0; bytes], vec![0; bytes]];
    let [ours, plain, tuned] = &mut out;
    let runners = vec![
        runner("library", || {
            library::threshold(&run.record, &run.levels, usize::from(size), ours);
        }),
        runner("plain C", || {
            raw::pack(Way::Plain, &run.levels, run.frame, low, high, plain);
        }),
        runner("tuned C", || {
            raw::pack(Way::Tuned, &run.levels, run.frame, low, high, tuned);
        }),
    ];
    let title = format!("thresholding {} at {size}, {}", run.kind, run.sheet);
    let row = report(title, run.time(options, runners));
    compare("plain C", &out[0], &out[1]);
    compare("tuned C", &out[0], &out[2]);
    row
}

fn bench_collect(options: &Options, run: &Finished) -> Row {
    let points = run.frame.height * run.frame.width;
    let limit = if run.dilation {
        u16::try_from(SIZE + 1).expect("a small size")
    } else {
        u16::MAX
    };
    let mut out = [vec![0; points], vec![0; points]];
    let [ours, plain] = &mut out;
    let runners = vec![
        runner("library", || {
            library::collect(&run.record, &run.levels, ours);
        }),
        runner("plain C", || {
            raw::collect(&run.levels, run.frame, limit, plain);
        }),
    ];
    let title = format!("collecting {}, {}", run.kind, run.sheet);
    let row = report(title, run.time(options, runners));
    compare("plain C", &out[0], &out[1]);
    row
}

fn bench_reading(options: &Options) -> Row {
    let side = options.side;
    let sheet = Content::RandomHalf.sheet(side, side);
    let mut file = format!("P4\n{side} {side}\n").into_bytes();
    let header = file.len();
    file.extend(&sheet.bytes);
    let mut ours = vec![0; sheet.bytes.len()];
    let mut copied = vec![0; sheet.bytes.len()];
    let runners = vec![
        runner("library", || library::read_pbm(&file, &mut ours)),
        runner("copying the raster", || {
            copied.copy_from_slice(&file[header..]);
            black_box(&copied);
        }),
    ];
    let title = format!("reading a raw PBM, {side} by {side}");
    let row = report(title, time(side * side, options.repeats, runners));
    compare("copying", &ours, &copied);
    row
}

/// The same work again and again: how far its times lie apart is what the machine alone does to a figure.
fn bench_noise(options: &Options) {
    let side = options.side;
    let sheet = Content::TextLike.sheet(side, side);
    let [cross, ..] = elements();
    let mut levels = vec![0; side * side];
    let runners = vec![runner("tuned C", || {
        erosion_by(Way::Tuned, &sheet, &cross, &mut levels);
    })];
    let (wall, processor) = (Instant::now(), raw::seconds_used());
    let timed = time(side * side, 11, runners);
    println!(
        "noise of the machine: {}, eleven times: {:.3} ns/pixel, spread {:.0} %; wall time {:.2} times processor time",
        timed[0].name,
        timed[0].median,
        timed[0].spread * 100.0,
        wall.elapsed().as_secs_f64() / (raw::seconds_used() - processor)
    );
}

fn main() {
    let quick = std::env::args().any(|argument| argument == "--quick");
    let options = if quick {
        Options {
            side: 1024,
            repeats: 3,
        }
    } else {
        Options {
            side: 4096,
            repeats: 5,
        }
    };
    // A full sheet of 4096 by 4096 would take 2,048 scans for each spectrum.
    let of_spectra = Options {
        side: options.side.min(1024),
        repeats: options.repeats.min(3),
    };
    println!(
        "processor time in ns per pixel of the frame, medians of {} turns ({} for spectra); spread is (largest - smallest) / median",
        options.repeats, of_spectra.repeats
    );
    bench_noise(&options);
    let mut rows = Vec::new();
    for element in &elements() {
        for content in Content::ERODED {
            rows.push(bench_erosion(&options, element, content));
        }
    }
    for element in &elements() {
        rows.push(bench_dilation(&options, element, Content::TextLike));
    }
    let [cross, box_shaped, _] = elements();
    for element in [&cross, &box_shaped] {
        for closing in [false, true] {
            rows.push(bench_filter(&options, element, Content::TextLike, closing));
        }
    }
    for element in [&cross, &box_shaped] {
        for size_by_size in [false, true] {
            let row = bench_by_map(&options, element, Content::TextLike, size_by_size);
            rows.push(row);
        }
    }
    rows.push(bench_opening_levels(&options, &cross));
    for content in Content::COUNTED {
        rows.extend(bench_spectrum(&of_spectra, &cross, content));
    }
    for (content, dilation) in [
        (Content::TextLike, false),
        (Content::RandomHalf, false),
        (Content::TextLike, true),
    ] {
        let run = Finished::new(&options, content, dilation);
        for size in [10, 0] {
            rows.push(bench_threshold(&options, &run, size));
        }
        rows.push(bench_collect(&options, &run));
    }
    rows.push(bench_reading(&options));
    bench_noise(&options);
    println!();
    print_table(&rows);
}
