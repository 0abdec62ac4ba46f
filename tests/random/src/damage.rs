//! Damages calls, so that they are refused for every reason there is, and for several at once.

use crate::call::{Call, Field, Name};
use crate::dice::Dice;
use crate::rules::{frame_points, sound_sheet_set, Record, EDGE_RULE};
use crate::sound::set_padding;

/// Damages a call in one way. What comes of it (another refusal, or none) is for the rules to judge.
pub fn damage(dice: &mut Dice, call: &mut Call) {
    // Which kinds of damage fit the call; each is as likely as the others.
    let mut kinds: Vec<fn(&mut Dice, &mut Call)> = vec![damage_length, damage_length];
    if call.name.takes_frame() {
        kinds.push(damage_frame);
    }
    if call.name.takes_element() {
        kinds.push(damage_element);
        kinds.push(damage_element);
    }
    if call.name.takes_number() {
        kinds.push(damage_number);
    }
    if call.name.takes_cap() {
        kinds.push(damage_canvas);
    }
    if call.name.takes_record() {
        kinds.push(damage_record);
        kinds.push(damage_record);
        kinds.push(damage_rows_done);
    }
    if call.name.takes_map() {
        kinds.push(damage_map);
        kinds.push(damage_map);
        kinds.push(damage_map_length);
    }
    if call.name == Name::Spectrum {
        kinds.push(damage_foreground);
        kinds.push(damage_foreground);
        kinds.push(damage_table);
    }
    if call.name == Name::WritePgm {
        kinds.push(damage_levels);
    }
    if call.name == Name::ReadPbm {
        kinds.extend([damage_file as fn(&mut Dice, &mut Call); 6]);
    }
    let kind = dice.pick(&kinds);
    kind(dice, call);
}

/// One slice longer or shorter by one, empty, or of quite another length.
fn damage_length(dice: &mut Dice, call: &mut Call) {
    let field = dice.pick(call.name.fields());
    let length = call.length(field);
    let changed = match dice.below(6) {
        0 | 1 => length + 1,
        2 | 3 => length.saturating_sub(1),
        4 => 0,
        _ => dice.index(2 * length + 2),
    };
    if field != Field::File {
        call.set_length(field, changed);
    }
}

fn edge_side(dice: &mut Dice) -> u64 {
    dice.pick(&[
        0,
        1,
        4095,
        4096,
        4097,
        65536,
        1 << 32,
        (1 << 32) + 3,
        1 << 61,
        1 << 63,
        u64::MAX - 7,
        u64::MAX,
    ])
}

fn damage_frame(dice: &mut Dice, call: &mut Call) {
    let old = if dice.percent(50) {
        &mut call.width
    } else {
        &mut call.height
    };
    *old = match dice.below(4) {
        0 => *old + 1,
        1 => old.saturating_sub(1),
        _ => edge_side(dice),
    };
}

fn damage_element(dice: &mut Dice, call: &mut Call) {
    let count = call.cells.len();
    match dice.below(8) {
        0 => call.side = dice.pick(&[0, 1, 2, 3, 4, 5, 6, 7, 8, 9, 11, 1 << 63, u64::MAX]),
        // A side whose square is the length again where 64 bits wrap.
        1 => {
            let (side, count) = dice.pick(&[(1 << 32, 0), ((1 << 63) + 3, 9)]);
            (call.side, call.cells) = (side, vec![1; count]);
        }
        2 => {
            // Side 1 has a valid length, and always a fault.
            call.side = 1;
            call.cells = vec![dice.pick(&[0, 1, 2, 255])];
        }
        3 if count > 0 => {
            let place = dice.index(count);
            call.cells[place] = dice.pick(&[2, 3, 128, 255]);
        }
        4 if count > 0 => call.cells[count / 2] = 0,
        5 if count > 0 => {
            call.cells.fill(0);
            call.cells[count / 2] = dice.pick(&[0, 1, 1, 2]);
        }
        6 => call.side = dice.pick(&[3, 5, 7]),
        _ if count > 0 => call.cells[count / 2] = dice.pick(&[0, 2]),
        _ => {}
    }
}

fn damage_number(dice: &mut Dice, call: &mut Call) {
    call.number = dice.pick(&[
        0,
        2046,
        2047,
        2048,
        4095,
        4096,
        4097,
        8191,
        8192,
        8193,
        65535,
        65536,
        (1 << 32) + 1,
        1 << 63,
        u64::MAX,
    ]);
    if matches!(call.name, Name::Threshold | Name::Provisional) && dice.percent(30) {
        // Just above the range: for most kinds of run, above the cap.
        if let Some(record) = Record::read(&call.record) {
            call.number = record.most_size() + 1;
        }
    }
}

/// A cap, or a frame side, at which the canvas just fits or just doesn't. The levels then have another length, so
/// that a canvas which fits is refused for that.
fn damage_canvas(dice: &mut Dice, call: &mut Call) {
    if !matches!(call.side, 3 | 5 | 7) || call.width > 4096 || call.height > 4096 {
        return;
    }
    let reach = (call.side - 1) / 2;
    if dice.percent(50) {
        let larger = call.width.max(call.height);
        call.number = (4096 - larger) / (2 * reach) + dice.below(2);
    } else if call.number <= 682 {
        // A new width needs a new sheet, or its length would be refused first.
        call.width = 4096 - 2 * call.number * reach + dice.below(2);
        let bytes = call.width.div_ceil(8) * call.height;
        if let Ok(bytes) = usize::try_from(bytes) {
            call.set_length(Field::Sheet, bytes);
        }
    }
}

/// One word of a record that no start gives, or that a start gives only with others.
fn damage_record(dice: &mut Dice, call: &mut Call) {
    if call.record.len() < 6 {
        return;
    }
    let word = match dice.below(10) {
        0..=4 => dice.index(6),
        5 | 6 => EDGE_RULE.min(call.record.len() - 1),
        _ => dice.index(call.record.len()),
    };
    let old = call.record[word];
    call.record[word] = match word {
        0 => dice.pick(&[0, 1, 2, 3, 256, 257, 1 << 32, (1 << 32) + 1, u64::MAX]),
        3 => dice.pick(&[0, 1, old + 1, 2047, 2048, 1 << 32, 1 << 63, u64::MAX]),
        4 => dice.pick(&[0, 1, 2, 3, 4, 5, 6, 7, 8, 9, (1 << 32) + 3, u64::MAX]),
        1 | 2 | 5 => match dice.below(3) {
            0 => old.wrapping_add(1),
            1 => old.saturating_sub(1),
            _ => edge_side(dice),
        },
        _ => dice.pick(&[0, 1, 2, 255, 256, 257, 1 << 32, (1 << 32) + 1, u64::MAX]),
    };
    if dice.percent(8) && call.record.len() > EDGE_RULE {
        // The element's centre alone, or nothing at all.
        call.record[6..EDGE_RULE].fill(0);
        call.record[30] = dice.below(2);
    }
}

fn damage_rows_done(dice: &mut Dice, call: &mut Call) {
    if let Some(record) = Record::read(&call.record) {
        let due = record.rows_due();
        call.record[5] = match dice.below(6) {
            0 => due,
            1 => due + 1,
            2 => due - 1,
            3 => due / 2,
            4 => dice.between(0, due),
            _ => dice.pick(&[0, 8192, 8193, u64::MAX]),
        };
    }
}

fn damage_levels(dice: &mut Dice, call: &mut Call) {
    if call.levels.is_empty() {
        return;
    }
    let place = dice.index(call.levels.len());
    let maximum = Record::read(&call.record).map_or(0, |record| record.maximum());
    call.levels[place] = dice.pick(&[
        u16::try_from(maximum).unwrap_or(u16::MAX),
        u16::try_from(maximum + 1).unwrap_or(u16::MAX),
        u16::MAX,
    ]);
}

/// A size at or above the cap, mostly at a foreground point, where above is refused; else at a background point, where
/// anything is accepted.
fn damage_map(dice: &mut Dice, call: &mut Call) {
    let Some(set) = sound_sheet_set(call) else {
        return;
    };
    let wanted = dice.percent(70);
    let mut places: Vec<usize> = (0..call.map.len()).collect();
    let points = frame_points(call.width, call.height);
    places.retain(|place| points.get(*place).map(|point| set.holds(*point)) == Some(wanted));
    if places.is_empty() {
        return;
    }
    let cap = u16::try_from(call.number).unwrap_or(u16::MAX);
    call.map[dice.pick(&places)] = dice.pick(&[cap, cap.saturating_add(1), u16::MAX]);
}

/// A map of the canvas's length, a work buffer of the frame's, or the two lengths exchanged.
fn damage_map_length(dice: &mut Dice, call: &mut Call) {
    let (map, work) = (call.map.len(), call.work_a.len());
    let (map, work) = dice.pick(&[(work, work), (map, map), (work, map)]);
    call.set_length(Field::Map, map);
    call.set_length(Field::WorkA, work);
}

/// A sheet without foreground, whose padding bits are any.
fn damage_foreground(dice: &mut Dice, call: &mut Call) {
    if sound_sheet_set(call).is_some() {
        call.sheet.fill(0);
        set_padding(dice, call.width, &mut call.sheet);
    }
}

/// A table without an entry for the background or with one too many, of another side, or of the largest frame.
fn damage_table(dice: &mut Dice, call: &mut Call) {
    let sides = [call.width, call.height];
    if let [Ok(width), Ok(height)] = sides.map(u16::try_from) {
        let (width, height) = (usize::from(width), usize::from(height));
        let larger = width.max(height);
        let lengths = [larger, larger + 2, width + 1, height + 1, 4097];
        call.set_length(Field::Table, dice.pick(&lengths));
    }
}

fn damage_file(dice: &mut Dice, call: &mut Call) {
    let file = &mut call.file;
    // Mostly within the header, which is a small part of the file.
    let length = file.len().max(1);
    let place = if dice.percent(80) {
        dice.index(length.min(16))
    } else {
        dice.index(length)
    };
    let place = place.min(file.len());
    match dice.below(10) {
        0 | 1 if place < file.len() => {
            file[place] = dice.pick(b"0123456789 \t\r\n#P4p5x-+\0\xff\x0b\x0c");
        }
        2 if place < file.len() => file[place] = dice.byte(),
        3 => file.insert(place, dice.pick(b"0123456789 \t\r\n#P4-\0")),
        4 if place < file.len() => {
            file.remove(place);
        }
        5 => file.truncate(place),
        6 => {
            let kept = file.len().saturating_sub(dice.index(3));
            file.truncate(kept);
        }
        7 => {
            for _ in 0..dice.between(1, 2) {
                file.push(dice.byte());
            }
        }
        8 => {
            // Another whole header before the raster: large numbers, zero, line ends of two bytes, a remark.
            let header: &[u8] = dice.pick(&[
                b"P4\n4097 1\n".as_slice(),
                b"P4\n4096 1\n",
                b"P4\n1 4096\n",
                b"P4\n1 4097\n",
                b"P4\n0 1\n",
                b"P4\n1 0\n",
                b"P4\n000 000\n",
                b"P4 1 1 ",
                b"P4\r\n1\t1\r\n",
                b"P4\n18446744073709551617 1\n",
                b"P4\n1 18446744073709551617\n",
                b"P4\n4294967297 1\n",
                b"P4\n65537 65537\n",
                b"P4\n99999999999999999999999999999999999999999 8\n",
                b"P4\n99999999999999999999999999999999999999999 8",
                b"P4\n99999999999999999999999999999999999999999 x\n",
                b"P4\n0000000000000000000000000000000000000000008 1\n",
                b"P4\n# remark\n8 1\n",
                b"P4\n8 1 # remark\n",
                b"P4\n8 1x",
                b"P4\n8\n",
                b"P4\n8 \n",
                b"P48 1\n",
                b"P4\n-8 1\n",
                b"P4\n+8 1\n",
                b"P4\n8.0 1\n",
                b"P4\x0b8 1\n",
                b"P4\n8 1",
                b"P4\n9 1",
                b"P4",
                b"P",
                b"P1\n1 1\n1\n",
                b"P5\n1 1\n255\n\0",
                b"p4\n1 1\n",
                b" P4\n1 1\n",
            ]);
            let raster_length = dice.pick(&[0, 1, 2, 512, 4096]);
            let mut made = header.to_vec();
            made.extend((0..raster_length).map(|_| dice.byte()));
            *file = made;
        }
        _ => {
            // CR LF where one white byte ends the header: LF is then the raster's first byte.
            if let Some(at) = file.iter().position(|byte| *byte == b'\n') {
                file.insert(at, b'\r');
            }
        }
    }
}
