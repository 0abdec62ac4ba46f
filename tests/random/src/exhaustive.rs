//! Everything there is on a small scale: all sheets of a few points with all elements of side 3 and all maps of sizes up to
//! 2, the spectra of all sheets of 3 by 3, all changes of one byte in the header of a file, all columns of rows of up to
//! five bytes, and all kinds with all edge rules.

use crate::call::{Call, Field, Name};
use crate::check::{check, check_run};
use crate::kinds::Kind;
use crate::looks::{check_looks, Cuts};
use crate::report::Tally;
use crate::rules::{pack, record_words, EDGE_RULE};
use crate::sound::lend_due_lengths;

/// The origin with its right neighbour, and its side.
const T: (u64, &[u8]) = (3, &[0, 0, 0, 0, 1, 1, 0, 0, 0]);

/// Frames of at most four points, so that there are at most sixteen sheets of each.
const FRAMES: [(u64, u64); 5] = [(1, 1), (2, 2), (3, 1), (1, 3), (4, 1)];

/// The bits of a number as flags.
fn flags(number: u32, count: u32) -> Vec<bool> {
    (0..count).map(|bit| number >> bit & 1 == 1).collect()
}

/// The 255 elements of side 3: the centre, and every choice of other cells but none.
fn elements() -> Vec<Vec<u8>> {
    (1..256)
        .map(|number| {
            let mut cells: Vec<u8> = flags(number, 8).into_iter().map(u8::from).collect();
            cells.insert(4, 1);
            cells
        })
        .collect()
}

/// Every map of sizes 0 to 2 at the points held, with 65,535 at the others.
fn maps(held: &[bool]) -> Vec<Vec<u16>> {
    held.iter().fold(vec![Vec::new()], |maps, held| {
        let sizes: &[u16] = if *held { &[0, 1, 2] } else { &[u16::MAX] };
        let longer = |size: &u16| {
            let size = *size;
            maps.iter()
                .map(move |map| [map.as_slice(), &[size]].concat())
        };
        sizes.iter().flat_map(longer).collect()
    })
}

/// A call of a sheet with an element of side 3, and the number that it takes.
fn small_call(name: Name, frame: (u64, u64), sheet: &[u8], cells: &[u8], number: u64) -> Call {
    let mut call = Call::new(name);
    (call.width, call.height) = frame;
    call.sheet = sheet.to_vec();
    (call.side, call.cells) = (3, cells.to_vec());
    call.number = number;
    lend_due_lengths(&mut call);
    call
}

pub fn check_small_sheets(tally: &mut Tally) {
    let elements = elements();
    for (width, height) in FRAMES {
        let count = u32::try_from(width * height).expect("four at most");
        for number in 0..1 << count {
            let held = flags(number, count);
            let sheet = pack(width, &held);
            let maps = maps(&held);
            for cells in &elements {
                let make = |name: Name, number: u64| {
                    small_call(name, (width, height), &sheet, cells, number)
                };
                check(tally, &make(Name::Open, 1));
                check(tally, &make(Name::Close, 1));
                check(tally, &make(Name::OpeningLevels, 0));
                check(tally, &make(Name::ClosingLevels, 2));
                check(tally, &make(Name::Spectrum, 0));
                for map in &maps {
                    let mut call = make(Name::DilateByMap, 2);
                    call.map.clone_from(map);
                    check(tally, &call);
                }
                for kind in Kind::ALL {
                    let start = make(kind.start(), kind.most_cap().min(2));
                    check_run(tally, &start);
                    check_looks(tally, &start, Cuts::EveryRow);
                }
            }
        }
    }
}

/// The spectra of all sheets of 3 by 3, as few of the smaller sheets have points above level 1.
pub fn check_small_spectra(tally: &mut Tally) {
    for cells in elements() {
        for number in 0..1 << 9 {
            let sheet = pack(3, &flags(number, 9));
            check(
                tally,
                &small_call(Name::Spectrum, (3, 3), &sheet, &cells, 0),
            );
        }
    }
}

/// Every header byte changed into, and preceded by, every value; every length of the file up to two bytes more.
pub fn check_headers(tally: &mut Tally) {
    for header in [b"P4\n9 2\n".as_slice(), b"P4 \t\r\n0012\n\n 02\t"] {
        let mut file = header.to_vec();
        file.extend([0xA5, 0xFF, 0x3C, 0x81]);
        for place in 0..=header.len() {
            for byte in 0..=255 {
                let mut changed = file.clone();
                changed[place] = byte;
                check(tally, &reading(changed));
                let mut longer = file.clone();
                longer.insert(place, byte);
                check(tally, &reading(longer));
            }
        }
        for length in 0..file.len() + 2 {
            let mut other = file.clone();
            other.resize(length, b'\n');
            check(tally, &reading(other));
        }
    }
}

fn reading(file: Vec<u8>) -> Call {
    let mut call = Call::new(Name::ReadPbm);
    call.file = file;
    // Room for any sheet that so short a file can hold.
    call.set_length(Field::BytesOut, 32);
    call.set_length(Field::WordsOut, 2);
    call
}

/// Every width up to five bytes, where each column in turn is the only one held, or the only one not held, by runs of
/// all kinds; what the lent sheet holds beforehand is all zeros or all ones.
pub fn check_columns(tally: &mut Tally) {
    for width in 1..=33 {
        for column in 0..width {
            for (held, fill) in [(false, 0), (false, 255), (true, 0), (true, 255)] {
                for kind in Kind::ALL {
                    check(tally, &one_column(width, column, held, kind, fill));
                }
            }
        }
    }
}

/// A threshold of one row, at the cap or at 0. Levels around a canvas's frame are as the other columns'.
fn one_column(width: u64, column: u64, held: bool, kind: Kind, fill: u8) -> Call {
    let mut call = Call::new(Name::Threshold);
    let cap = kind.most_cap().min(1);
    call.record = record_words(kind, (width, 1), cap, T, 2 * (1 + 2 * cap));
    call.number = cap;
    lend_due_lengths(&mut call);
    // The nearest levels on both sides of the threshold: in a cropped run, more than the cap and the cap.
    let [level_held, other] = match kind {
        Kind::Erosion => [1, 0],
        Kind::Dilation => [2, 3],
        Kind::Cropped => [3, 2],
    };
    let level = |held| if held { level_held } else { other };
    let place = cap * (width + 2 * cap) + cap + column;
    call.levels.fill(level(!held));
    call.levels[usize::try_from(place).expect("a short row")] = level(held);
    call.bytes_out.fill(fill);
    call
}

/// Every kind with every edge rule, with a cap and without one, in every call on a run. Three pairs are a start's.
pub fn check_edge_rules(tally: &mut Tally) {
    const WORDS: [u64; 8] = [0, 1, 2, 3, 255, 256, 257, 1 << 32];
    for name in Name::ALL.into_iter().filter(|name| name.takes_record()) {
        for kind in WORDS {
            for edge_rule in WORDS {
                for cap in [0, 1] {
                    check(tally, &finished_point(name, kind, edge_rule, cap));
                }
            }
        }
    }
}

/// A call on a run of one point with all rows done, whose record has these words; its lengths fit the cap.
fn finished_point(name: Name, kind: u64, edge_rule: u64, cap: u64) -> Call {
    let mut call = Call::new(name);
    call.record = record_words(Kind::Dilation, (1, 1), cap, T, 2 * (1 + 2 * cap));
    lend_due_lengths(&mut call);
    if name == Name::WritePgm {
        // A cropped run's text is longer.
        call.set_length(Field::BytesOut, 64);
    }
    call.levels.fill(1);
    call.record[0] = kind;
    call.record[EDGE_RULE] = edge_rule;
    call
}
