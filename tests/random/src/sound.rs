//! Makes random calls that are accepted.

use crate::call::{Call, Double, Field, Name};
use crate::definitions::{dilated_by_sizes, Point};
use crate::dice::Dice;
use crate::kinds::Kind;
use crate::rules::{
    due_length, element_set, frame_points, pack, pack_set, record_words, sound_sheet_set, Record,
};

/// How large the sheets may be.
#[derive(Clone, Copy, PartialEq, Eq)]
pub enum Scale {
    /// Frames of 1 to 12, and of up to 21 for shapes.
    Small,
    /// Frames of up to 40, and wide ones of up to 300 by 3.
    Large,
}

/// A random accepted call of the function. What its answer slices hold beforehand is random too.
pub fn sound_call(dice: &mut Dice, name: Name, scale: Scale) -> Call {
    let mut call = Call::new(name);
    if name.takes_frame() {
        (call.width, call.height) = frame(dice, scale);
        call.sheet = sheet(dice, call.width, call.height);
    }
    if name.takes_element() {
        (call.side, call.cells) = element(dice);
    }
    if name == Name::Spectrum {
        if dice.percent(70) {
            shapes(dice, &mut call, scale);
        }
        some_foreground(dice, &mut call);
    }
    if name.takes_record() {
        record(dice, &mut call, scale);
    }
    if name == Name::ReadPbm {
        call.file = file(dice, scale);
    }
    if name.takes_cap() || name == Name::Open {
        call.number = filter_size(dice, name, call.side, scale);
    }
    lend_due_lengths(&mut call);
    if name.takes_record() {
        levels_of_run(dice, &mut call);
    }
    if name.takes_map() {
        sizes(dice, &mut call);
        background_sizes(dice, &mut call);
    }
    let is_file_call = matches!(name, Name::ReadPbm | Name::WritePbm | Name::WritePgm);
    if is_file_call {
        // The levels are known only now, and with them the length of the text; a file's room may be longer.
        let due = due_length(&call, Field::BytesOut);
        let due = usize::try_from(due).expect("sound calls are small");
        let spare = dice.pick(&[0, 0, 1, 7, 100]);
        call.set_length(Field::BytesOut, due + spare);
    }
    scramble(dice, &mut call);
    call
}

/// Gives the levels, the map, the work buffers and the answer slices of a call the lengths that its other arguments ask
/// for.
pub fn lend_due_lengths(call: &mut Call) {
    for field in call.name.fields() {
        if !matches!(
            field,
            Field::Sheet | Field::Cells | Field::Record | Field::File
        ) {
            let due = usize::try_from(due_length(call, *field)).expect("sound calls are small");
            call.set_length(*field, due);
        }
    }
}

fn frame(dice: &mut Dice, scale: Scale) -> (u64, u64) {
    let most = if scale == Scale::Large { 40 } else { 12 };
    match dice.below(8) {
        0 => (1, dice.between(1, most)),
        1 => (dice.between(1, most), 1),
        // Widths around whole bytes.
        2 => (dice.between(7, 9), dice.between(1, most)),
        // Rows of several words, whatever the size of a word.
        3 if scale == Scale::Large => (dice.between(41, 300), dice.between(1, 3)),
        _ => (dice.between(1, most), dice.between(1, most)),
    }
}

/// A packed sheet: random points, rectangles, empty or full. Its padding bits are random.
pub fn sheet(dice: &mut Dice, width: u64, height: u64) -> Vec<u8> {
    let count = usize::try_from(width * height).expect("frames are small");
    let flags: Vec<bool> = match dice.below(10) {
        0 => vec![false; count],
        1 => vec![true; count],
        2 | 3 => rectangles(dice, width, height),
        4 => {
            // Nearly full, so that levels grow.
            let mut flags = vec![true; count];
            for _ in 0..dice.between(1, 3) {
                flags[dice.index(count)] = false;
            }
            flags
        }
        5 => {
            let mut flags = vec![false; count];
            for _ in 0..dice.between(1, 3) {
                flags[dice.index(count)] = true;
            }
            flags
        }
        _ => {
            let share = dice.pick(&[10, 30, 50, 70, 85, 95]);
            (0..count).map(|_| dice.percent(share)).collect()
        }
    };
    let mut bytes = pack(width, &flags);
    set_padding(dice, width, &mut bytes);
    bytes
}

/// The padding bits of a row's last byte.
pub fn padding(width: u64) -> u8 {
    u8::try_from((1_u32 << ((8 - width % 8) % 8)) - 1).expect("below 128")
}

/// The last byte of each row of a packed sheet.
pub fn row_ends(width: u64, sheet: &mut [u8]) -> impl Iterator<Item = &mut u8> + '_ {
    let row_bytes = usize::try_from(width.div_ceil(8)).expect("frames are small");
    sheet.iter_mut().skip(row_bytes - 1).step_by(row_bytes)
}

/// Sets any of a sheet's padding bits.
pub fn set_padding(dice: &mut Dice, width: u64, sheet: &mut [u8]) {
    row_ends(width, sheet).for_each(|byte| *byte |= dice.byte() & padding(width));
}

/// A sheet of shapes that the element makes, added to itself some times and moved, in a frame that holds them whole: few
/// other sheets have points of several opening levels.
fn shapes(dice: &mut Dice, call: &mut Call, scale: Scale) {
    let most = if scale == Scale::Large {
        40
    } else {
        3 * call.side
    };
    call.width = dice.between(call.side, most);
    call.height = dice.between(call.side, most);
    let (width, height, side) = (call.width, call.height, call.side);
    let most_times = (width.min(height) - 1) / (side - 1);
    let shapes: Vec<(Point, u64)> = (0..dice.between(1, 5))
        .map(|_| {
            let times = dice.between(0, most_times);
            let margin = times * (side - 1) / 2;
            let mut between_margins = |frame_side: u64| {
                let place = dice.between(margin, frame_side - 1 - margin);
                i64::try_from(place).expect("frames are small")
            };
            let (column, row) = (between_margins(width), between_margins(height));
            (Point { column, row }, times)
        })
        .collect();
    let union = dilated_by_sizes(&shapes, &element_set(side, &call.cells));
    call.sheet = pack_set(width, height, &union);
    set_padding(dice, width, &mut call.sheet);
}

/// Sets a point where the sheet has none, as a spectrum asks for one.
fn some_foreground(dice: &mut Dice, call: &mut Call) {
    if sound_sheet_set(call).is_some_and(|set| set.is_empty()) {
        let (column, row) = (dice.below(call.width), dice.below(call.height));
        let byte = row * call.width.div_ceil(8) + column / 8;
        call.sheet[usize::try_from(byte).expect("frames are small")] |= 0x80 >> (column % 8);
    }
}

fn rectangles(dice: &mut Dice, width: u64, height: u64) -> Vec<bool> {
    let mut flags = vec![false; usize::try_from(width * height).expect("frames are small")];
    for _ in 0..dice.between(1, 4) {
        let (left, top) = (dice.below(width), dice.below(height));
        let right = dice.between(left, width - 1);
        let bottom = dice.between(top, height - 1);
        for row in top..=bottom {
            for column in left..=right {
                flags[usize::try_from(row * width + column).expect("in the frame")] = true;
            }
        }
    }
    flags
}

/// An accepted element of side 3, 5 or 7.
pub fn element(dice: &mut Dice) -> (u64, Vec<u8>) {
    let side = dice.pick(&[3, 3, 5, 7]);
    let count = usize::try_from(side * side).expect("49 at most");
    let centre = count / 2;
    let reach = (side - 1) / 2;
    // The points used lie within this reach, so that outer rings are sometimes empty.
    let used_reach = if dice.percent(25) {
        dice.between(1, reach)
    } else {
        reach
    };
    let within = |place: usize| {
        let (row, column) = (place as u64 / side, place as u64 % side);
        row.abs_diff(reach) <= used_reach && column.abs_diff(reach) <= used_reach
    };
    let mut cells = vec![0; count];
    match dice.below(6) {
        0 => {
            for (place, cell) in cells.iter_mut().enumerate() {
                *cell = u8::from(within(place));
            }
        }
        1 => {
            // A cross.
            for (place, cell) in cells.iter_mut().enumerate() {
                let (row, column) = (place as u64 / side, place as u64 % side);
                *cell = u8::from(within(place) && (row == reach || column == reach));
            }
        }
        2 => {} // One point beside the origin.
        _ => {
            let share = dice.pick(&[5, 15, 40, 80]);
            for (place, cell) in cells.iter_mut().enumerate() {
                *cell = u8::from(within(place) && dice.percent(share));
            }
        }
    }
    cells[centre] = 1;
    while cells.iter().filter(|cell| **cell == 1).count() == 1 {
        let place = dice.index(count);
        if within(place) {
            cells[place] = 1;
        }
    }
    (side, cells)
}

/// A size or cap that the call takes with an element of this side.
pub fn filter_size(dice: &mut Dice, name: Name, side: u64, scale: Scale) -> u64 {
    if name.takes_cap() {
        cap(dice, side, scale)
    } else {
        opening_size(dice)
    }
}

/// A cap that keeps the definitions affordable.
fn cap(dice: &mut Dice, side: u64, scale: Scale) -> u64 {
    let reach = (side - 1) / 2;
    let most = match scale {
        Scale::Small => 9 / reach,
        Scale::Large => 6 / reach,
    };
    if scale == Scale::Small && dice.percent(3) {
        return dice.between(0, 24 / reach);
    }
    dice.between(0, most)
}

fn opening_size(dice: &mut Dice) -> u64 {
    match dice.below(10) {
        0 => 0,
        1 => dice.pick(&[4095, 4096]),
        2 => dice.between(0, 4096),
        _ => dice.between(0, 6),
    }
}

/// A sound record, and the number that the call on it takes.
fn record(dice: &mut Dice, call: &mut Call, scale: Scale) {
    let (side, cells) = element(dice);
    let kind = dice.pick(&Kind::ALL);
    let (mut width, mut height) = frame(dice, scale);
    let mut cap = cap(dice, side, scale);
    if call.name == Name::WritePgm && dice.percent(30) {
        // Numbers of up to five digits, and rows of many lines. No canvas is lent here, so this is cheap.
        cap = dice.pick(&[8, 9, 98, 99, 300]);
        width = dice.pick(&[20, 35, 36, 99, 100, 101, 999, 1000, 1200]);
        height = dice.between(1, 3);
    }
    let cap = cap.min(kind.most_cap());
    call.record = record_words(kind, (width, height), cap, (side, &cells), 0);
    let record = Record::read(&call.record).expect("the record is sound");
    match call.name {
        Name::Continue => {
            call.record[5] = dice.between(0, record.rows_due());
            call.number = allowance(dice, record.rows_due());
        }
        Name::Threshold | Name::Provisional => {
            // A look takes any rows done, a threshold all of them.
            let any = call.name == Name::Provisional && dice.percent(70);
            let least = if any { 0 } else { record.rows_due() };
            call.record[5] = dice.between(least, record.rows_due());
            call.number = match dice.below(4) {
                0 => dice.between(0, record.most_size()),
                1 => record.most_size(),
                _ => dice.between(0, record.most_size().min(5)),
            };
        }
        _ => call.record[5] = record.rows_due(),
    }
}

/// An accepted allowance: none, a few rows, about as many as there are, or the most.
pub fn allowance(dice: &mut Dice, rows_due: u64) -> u64 {
    match dice.below(6) {
        0 => 0,
        1 => 1,
        2 => dice.between(0, 3),
        3 => 8192,
        _ => dice.between(0, rows_due + 2),
    }
}

/// Levels that no start need have given, of every kind: any 16-bit numbers, small ones, and those at both ends.
fn levels_of_run(dice: &mut Dice, call: &mut Call) {
    let record = Record::read(&call.record).expect("the record is sound");
    let kind = if call.name == Name::WritePgm {
        4
    } else {
        dice.below(4)
    };
    let small = dice.between(1, 20);
    let maximum = record.maximum();
    for level in &mut call.levels {
        *level = match kind {
            0 => dice.level(),
            1 => u16::try_from(dice.below(small)).unwrap_or(0),
            2 => dice.pick(&[0, 1, 2, 65533, 65534, 65535]),
            3 => dice.pick(&[0, 65535]),
            _ => u16::try_from(if dice.percent(10) {
                maximum
            } else {
                dice.between(0, maximum)
            })
            .expect("a maximum is at most 65,535"),
        };
    }
}

/// A map of sizes up to the cap: any, growing from row to row as perspective has it, one size, or the two at the ends.
fn sizes(dice: &mut Dice, call: &mut Call) {
    let (cap, height) = (call.number, call.height);
    let width = usize::try_from(call.width).expect("frames are small");
    let (kind, one) = (dice.below(4), dice.between(0, cap));
    for (place, size) in call.map.iter_mut().enumerate() {
        let rows_from_the_top = (place / width) as u64 + 1;
        *size = as_size(match kind {
            0 => dice.between(0, cap),
            1 => cap * rows_from_the_top / height,
            2 => one,
            _ => dice.pick(&[0, cap]),
        });
    }
}

/// Changes what the map has at background points, where nothing matters: often above the cap.
pub fn background_sizes(dice: &mut Dice, call: &mut Call) {
    let set = sound_sheet_set(call).expect("the call is sound");
    let (kind, above) = (dice.below(4), as_size(call.number + 1));
    for (point, size) in frame_points(call.width, call.height)
        .into_iter()
        .zip(&mut call.map)
    {
        if !set.holds(point) {
            *size = match kind {
                0 => *size,
                1 => u16::MAX,
                2 => dice.pick(&[0, 1, above, u16::MAX]),
                _ => dice.level(),
            };
        }
    }
}

/// A number of a sound call as a map's entry.
pub fn as_size(number: u64) -> u16 {
    u16::try_from(number).expect("a cap is at most 2,047")
}

/// A sound raw PBM: any run of white bytes, leading zeros, padding bits as they come.
fn file(dice: &mut Dice, scale: Scale) -> Vec<u8> {
    let (width, height) = frame(dice, scale);
    let mut file = b"P4".to_vec();
    white(dice, &mut file);
    digits(dice, &mut file, width);
    white(dice, &mut file);
    digits(dice, &mut file, height);
    file.push(dice.pick(b" \t\r\n"));
    file.extend(sheet(dice, width, height));
    file
}

fn white(dice: &mut Dice, file: &mut Vec<u8>) {
    for _ in 0..dice.pick(&[1, 1, 1, 2, 5]) {
        file.push(dice.pick(b" \t\r\n"));
    }
}

fn digits(dice: &mut Dice, file: &mut Vec<u8>, number: u64) {
    for _ in 0..dice.pick(&[0, 0, 0, 1, 3, 30]) {
        file.push(b'0');
    }
    file.extend(number.to_string().into_bytes());
}

/// Random contents for what the call is to overwrite.
pub fn scramble(dice: &mut Dice, call: &mut Call) {
    if Kind::started_by(call.name).is_some() {
        call.levels
            .iter_mut()
            .for_each(|level| *level = dice.level());
    }
    for buffer in [&mut call.work_a, &mut call.work_b, &mut call.levels_out] {
        // Any levels, or such as a run leaves behind.
        let any = dice.percent(50);
        buffer.iter_mut().for_each(|level| {
            *level = if any {
                dice.level()
            } else {
                dice.pick(&[0, 1, 2, u16::MAX])
            };
        });
    }
    call.bytes_out
        .iter_mut()
        .for_each(|byte| *byte = dice.byte());
    for words in [&mut call.words_out, &mut call.table] {
        words.iter_mut().for_each(|word| *word = dice.word());
    }
    call.summary
        .iter_mut()
        .for_each(|double| *double = any_double(dice));
}

/// Any double: often one that is no number, or else one that no computation would give back.
fn any_double(dice: &mut Dice) -> Double {
    const SIGN: u64 = 1 << 63;
    const EXPONENT: u64 = 0x7FF << 52;
    let word = dice.word();
    Double(match dice.below(5) {
        // All bits of the exponent make it no number, quiet or signalling; none make it subnormal.
        0 | 1 => word | EXPONENT,
        2 => word & !EXPONENT,
        3 => dice.pick(&[0, SIGN, EXPONENT, EXPONENT | SIGN]),
        _ => word,
    })
}
