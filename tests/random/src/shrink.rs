//! Makes a failing call smaller for as long as it still fails.

use crate::call::{Call, Field, Name};
use crate::definitions::Point;
use crate::rules::{due_length, frame_points, pack, sound_sheet_set, Record, EDGE_RULE};

/// So many smaller calls are tried at most: each costs two calls, and a failing test should end soon.
const MOST_TRIES: usize = 20_000;

/// The smallest call found, greedily, that still fails.
pub fn shrink(call: &Call, fails: impl Fn(&Call) -> bool) -> Call {
    let mut smallest = call.clone();
    let mut tries = 0;
    'again: loop {
        for candidate in smaller(&smallest) {
            tries += 1;
            if tries > MOST_TRIES {
                return smallest;
            }
            if candidate != smallest && fails(&candidate) {
                smallest = candidate;
                continue 'again;
            }
        }
        return smallest;
    }
}

/// Calls that are smaller in one way.
fn smaller(call: &Call) -> Vec<Call> {
    let mut list = Vec::new();
    smaller_frames(call, &mut list);
    smaller_records(call, &mut list);
    for number in [0, call.number / 2, call.number.saturating_sub(1)] {
        if number < call.number {
            let mut next = call.clone();
            next.number = number;
            lower_sizes(call, &mut next);
            fit_lengths(call, &mut next);
            list.push(next);
        }
    }
    smaller_sizes(call, &mut list);
    // Points of the sheet and of the element, one by one.
    for (place, byte) in call.sheet.iter().enumerate() {
        for bit in 0..8 {
            if byte >> bit & 1 == 1 {
                let mut next = call.clone();
                next.sheet[place] &= !(1 << bit);
                list.push(next);
            }
        }
    }
    for place in 0..call.cells.len() {
        if call.cells[place] != 0 && place != call.cells.len() / 2 {
            let mut next = call.clone();
            next.cells[place] = 0;
            list.push(next);
        }
    }
    for place in 0..call.levels.len().min(400) {
        for level in [0, u16::MAX, 1] {
            // 0 is simplest, then 65,535, then 1; anything else is less simple than these.
            let rank = |level: u16| match level {
                0 => 0,
                u16::MAX => 1,
                1 => 2,
                _ => 3,
            };
            if call.name.takes_record() && rank(level) < rank(call.levels[place]) {
                let mut next = call.clone();
                next.levels[place] = level;
                list.push(next);
            }
        }
    }
    for kept in [call.file.len() / 2, call.file.len() - call.file.len() / 8] {
        let mut next = call.clone();
        next.file.truncate(kept);
        list.push(next);
    }
    for place in 0..call.file.len().min(400) {
        let mut next = call.clone();
        next.file.remove(place);
        list.push(next);
    }
    list
}

/// The frame without one of its outer rows or columns.
fn smaller_frames(call: &Call, list: &mut Vec<Call>) {
    let Some(set) = sound_sheet_set(call) else {
        return;
    };
    for (width, height, left, top) in [
        (call.width.div_ceil(2), call.height, 0, 0),
        (call.width, call.height.div_ceil(2), 0, 0),
        (call.width - 1, call.height, 0, 0),
        (call.width - 1, call.height, 1, 0),
        (call.width, call.height - 1, 0, 0),
        (call.width, call.height - 1, 0, 1),
    ] {
        let is_smaller = width < call.width || height < call.height;
        if width == 0 || height == 0 || !is_smaller {
            continue;
        }
        // The points that stay, where they lay before.
        let kept: Vec<Point> = frame_points(width, height)
            .into_iter()
            .map(|point| Point {
                column: point.column + left,
                row: point.row + top,
            })
            .collect();
        let flags: Vec<bool> = kept.iter().map(|point| set.holds(*point)).collect();
        let mut next = call.clone();
        next.sheet = pack(width, &flags);
        // Each point keeps its size, where the map has one for it.
        let size = |point: &Point| {
            let place = point.row.unsigned_abs() * call.width + point.column.unsigned_abs();
            call.map.get(usize::try_from(place).ok()?).copied()
        };
        next.map = kept.iter().filter_map(size).collect();
        (next.width, next.height) = (width, height);
        fit_lengths(call, &mut next);
        list.push(next);
    }
}

/// Lowers the map's sizes to a smaller cap; those above the cap before stay, and so stay above it.
fn lower_sizes(before: &Call, after: &mut Call) {
    for size in &mut after.map {
        if u64::from(*size) <= before.number {
            *size = u16::try_from(after.number).map_or(*size, |cap| cap.min(*size));
        }
    }
}

/// A map with all sizes 0, or one of them smaller, or all smaller by one.
fn smaller_sizes(call: &Call, list: &mut Vec<Call>) {
    let mut none = call.clone();
    none.map.fill(0);
    list.push(none);
    let above = u16::try_from(call.number).map_or(u16::MAX, |cap| cap.saturating_add(1));
    for place in 0..call.map.len().min(400) {
        let old = call.map[place];
        for size in [0, above, old / 2, old.saturating_sub(1)] {
            if size < old {
                let mut next = call.clone();
                next.map[place] = size;
                list.push(next);
            }
        }
    }
    // For maps that have to keep one size; of larger numbers there would be too many steps.
    if call.map.iter().all(|size| *size < above) {
        let mut next = call.clone();
        let sizes = next.map.iter_mut();
        sizes.for_each(|size| *size = size.saturating_sub(1));
        list.push(next);
    }
}

/// A record of a smaller frame or cap, or with a cell less.
fn smaller_records(call: &Call, list: &mut Vec<Call>) {
    let Some(record) = Record::read(&call.record) else {
        return;
    };
    for word in 1..4 {
        let least = if word == 3 { 0 } else { 1 };
        for number in [call.record[word] / 2, call.record[word].saturating_sub(1)] {
            if number >= least && number < call.record[word] {
                let mut next = call.clone();
                next.record[word] = number;
                next.record[5] = 0;
                let Some(changed) = Record::read(&next.record) else {
                    continue;
                };
                // A finished run stays finished, and an unfinished one unfinished.
                next.record[5] = if record.rows_done == record.rows_due() {
                    changed.rows_due()
                } else {
                    record.rows_done.min(changed.rows_due() - 1)
                };
                fit_lengths(call, &mut next);
                list.push(next);
            }
        }
    }
    for place in 6..EDGE_RULE {
        if call.record[place] == 1 && place != 30 {
            let mut next = call.clone();
            next.record[place] = 0;
            list.push(next);
        }
    }
}

/// Gives the slices of a smaller call the lengths that belong to it, each as much too long or too short as before.
fn fit_lengths(before: &Call, after: &mut Call) {
    let sound = |call: &Call| {
        let element_fits = matches!(call.side, 1 | 3 | 5 | 7) || !call.name.takes_element();
        let record_fits = Record::read(&call.record).is_some() || !call.name.takes_record();
        let number_fits = call.number <= 4096 || !call.name.takes_cap();
        element_fits && record_fits && number_fits && call.name != Name::ReadPbm
    };
    if !sound(before) || !sound(after) {
        return;
    }
    for field in [
        Field::Levels,
        Field::Map,
        Field::WorkA,
        Field::WorkB,
        Field::BytesOut,
        Field::LevelsOut,
        Field::Table,
    ] {
        if !before.name.fields().contains(&field) {
            continue;
        }
        if before.name == Name::WritePgm && field == Field::BytesOut {
            continue;
        }
        let wrong_by = before.length(field) as i128 - due_length(before, field) as i128;
        let length = due_length(after, field) as i128 + wrong_by;
        if let Ok(length) = usize::try_from(length) {
            after.set_length(field, length);
        }
    }
}
