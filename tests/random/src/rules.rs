//! What every call has to answer, for all inputs: the refusals from their tables, the runs by the row rule, the files
//! by their layout, and the rest by `definitions`.
//!
//! Nothing here is fast or clever: a row is worked point by point as `docs/RULES.md` states it, and conditions are computed
//! with numbers wide enough for any argument.

use crate::call::{number_of, Call, Double, Field, Name, SIZE_OF_MAP};
use crate::definitions::{self, Point, Set};
use crate::kinds::{Kind, NOTHING_FOUND};

const RECORD_WORDS: usize = 56;
/// The place of a record's edge rule, after the cells.
pub const EDGE_RULE: usize = 55;

/// The number the call has to give, and all its slices afterwards.
pub fn judge(call: &Call) -> (u32, Call) {
    let (reason, after) = judge_by_reason(call);
    (number_of(reason), after)
}

/// The reason why the call has to be refused, 0 for none, and all its slices afterwards.
pub fn judge_by_reason(call: &Call) -> (u32, Call) {
    let mut after = call.clone();
    let refusal = call
        .name
        .refusals()
        .iter()
        .find(|reason| applies(call, **reason));
    if let Some(reason) = refusal {
        return (*reason, after);
    }
    accept(&mut after);
    (0, after)
}

/// Whether a refusal applies to a call to which no refusal before it in the order does.
fn applies(call: &Call, reason: u32) -> bool {
    match reason {
        1 => Record::read(&call.record).is_none(),
        2 => match call.name {
            Name::ReadPbm => Header::read(&call.file).is_some_and(|header| header.frame.is_none()),
            _ => side_out_of_range(call.width) || side_out_of_range(call.height),
        },
        3 => wrong_length(call, Field::Sheet),
        4 => !matches!(call.side, 1 | 3 | 5 | 7) || wrong_length(call, Field::Cells),
        5 => call.cells.iter().any(|cell| *cell > 1),
        6 => call.cells[call.cells.len() / 2] == 0,
        7 => call.cells.iter().filter(|cell| **cell == 1).count() == 1,
        8 => match call.name {
            Name::WritePgm => {
                let maximum = record_of(call).maximum();
                call.levels.iter().any(|level| u64::from(*level) > maximum)
            }
            Name::Threshold | Name::Provisional => call.number > record_of(call).most_size(),
            Name::Open => call.number > 4096,
            _ => call.number > 2047,
        },
        9 => {
            let margin = call.number * ((call.side - 1) / 2);
            call.width + 2 * margin > 4096 || call.height + 2 * margin > 4096
        }
        10 => [Field::Levels, Field::Map, Field::WorkA, Field::WorkB]
            .iter()
            .any(|field| call.name.fields().contains(field) && wrong_length(call, *field)),
        11 => [
            Field::BytesOut,
            Field::LevelsOut,
            Field::WordsOut,
            Field::Table,
            Field::Summary,
        ]
        .iter()
        .any(|field| call.name.fields().contains(field) && wrong_length(call, *field)),
        12 => call.number > 8192,
        13 => !record_of(call).is_finished(),
        14 => sheet_set(call.width, call.height, &call.sheet).is_empty(),
        21 => !call.file.starts_with(b"P4"),
        22 => Header::read(&call.file).is_none(),
        23 => raster_of(call).0.len() < raster_of(call).1,
        24 => raster_of(call).0.len() > raster_of(call).1,
        SIZE_OF_MAP => {
            let set = sheet_set(call.width, call.height, &call.sheet);
            sizes(call).any(|(point, size)| set.holds(point) && size > call.number)
        }
        _ => unreachable!("no call lists refusal {reason}"),
    }
}

/// The points of the frame with their sizes, where the map has its length.
fn sizes(call: &Call) -> impl Iterator<Item = (Point, u64)> + '_ {
    let sizes = call.map.iter().map(|size| u64::from(*size));
    frame_points(call.width, call.height).into_iter().zip(sizes)
}

/// The foreground points of the call's sheet, where it takes one that fits a sound frame.
pub fn sound_sheet_set(call: &Call) -> Option<Set> {
    let sound = call.name.takes_frame() && !applies(call, 2) && !applies(call, 3);
    sound.then(|| sheet_set(call.width, call.height, &call.sheet))
}

/// Whether a slice has another length than the call's other arguments ask for. A file's room may be longer.
fn wrong_length(call: &Call, field: Field) -> bool {
    let length = call.length(field) as u128;
    let due = due_length(call, field);
    match (call.name, field) {
        (Name::ReadPbm | Name::WritePbm | Name::WritePgm, Field::BytesOut) => length < due,
        _ => length != due,
    }
}

/// The length that a slice has to have (for a file's room, the least it may have), where no refusal that is judged
/// before the slice's own applies.
pub fn due_length(call: &Call, field: Field) -> u128 {
    let frame_bytes = |width: u64, height: u64| u128::from(height) * u128::from(width).div_ceil(8);
    match (call.name, field) {
        (_, Field::Sheet) => frame_bytes(call.width, call.height),
        (_, Field::Cells) => u128::from(call.side) * u128::from(call.side),
        (_, Field::Record) => RECORD_WORDS as u128,
        (name, Field::WordsOut) if Kind::started_by(name).is_some() => RECORD_WORDS as u128,
        (Name::Continue | Name::ReadPbm, Field::WordsOut) => 2,
        (_, Field::WordsOut) => 1,
        (Name::Continue | Name::Collect | Name::Threshold | Name::Provisional, Field::Levels) => {
            let record = record_of(call);
            u128::from(record.area_width()) * u128::from(record.area_height())
        }
        (Name::WritePgm, Field::Levels) | (Name::Collect, Field::LevelsOut) => {
            let record = record_of(call);
            u128::from(record.width) * u128::from(record.height)
        }
        (_, Field::LevelsOut | Field::Map) => u128::from(call.width) * u128::from(call.height),
        (name, Field::Levels | Field::WorkA | Field::WorkB) => {
            let margin = if name.takes_cap() {
                u128::from(call.number) * u128::from((call.side - 1) / 2)
            } else {
                0
            };
            (u128::from(call.width) + 2 * margin) * (u128::from(call.height) + 2 * margin)
        }
        (Name::Threshold | Name::Provisional, Field::BytesOut) => {
            let record = record_of(call);
            frame_bytes(record.width, record.height)
        }
        (Name::Reflect, Field::BytesOut) => call.cells.len() as u128,
        (Name::ReadPbm, Field::BytesOut) => raster_of(call).1 as u128,
        (Name::WritePbm, Field::BytesOut) => pbm_file(call).len() as u128,
        (Name::WritePgm, Field::BytesOut) => pgm_file(&record_of(call), &call.levels).len() as u128,
        (_, Field::BytesOut) => frame_bytes(call.width, call.height),
        (_, Field::File) => call.file.len() as u128,
        (_, Field::Table) => u128::from(call.width.max(call.height)) + 1,
        (_, Field::Summary) => 2,
    }
}

fn side_out_of_range(side: u64) -> bool {
    !(1..=4096).contains(&side)
}

fn index(number: u64) -> usize {
    usize::try_from(number).expect("accepted numbers are small")
}

fn coordinate(number: u64) -> i64 {
    i64::try_from(number).expect("accepted numbers are small")
}

/// A record that some start could give, rows done aside.
#[derive(Clone, Debug)]
pub struct Record {
    pub kind: Kind,
    pub width: u64,
    pub height: u64,
    pub cap: u64,
    pub side: u64,
    pub rows_done: u64,
    /// The element: its points other than the origin, as column and row.
    partners: Vec<Point>,
}

/// The record of an accepted call.
fn record_of(call: &Call) -> Record {
    Record::read(&call.record).expect("refusal 1 is judged first")
}

impl Record {
    pub fn read(words: &[u64]) -> Option<Record> {
        let [kind, width, height, cap, side, rows_done, cells @ .., edge_rule] = words else {
            return None;
        };
        let kind = Kind::of_words(*kind, *edge_rule)?;
        let frame_wrong = side_out_of_range(*width) || side_out_of_range(*height);
        let cap_wrong = *cap > kind.most_cap();
        if cells.len() != 49 || frame_wrong || cap_wrong || !matches!(side, 3 | 5 | 7) {
            return None;
        }
        let reach = coordinate((side - 1) / 2);
        let mut partners = Vec::new();
        for (place, cell) in cells.iter().enumerate() {
            let place = coordinate(place as u64);
            let point = Point {
                column: place % 7 - 3,
                row: place / 7 - 3,
            };
            let inside = point.column.abs() <= reach && point.row.abs() <= reach;
            match cell {
                0 if point == Point::ORIGIN => return None,
                1 if !inside => return None,
                0 => {}
                1 if point == Point::ORIGIN => {}
                1 => partners.push(point),
                _ => return None,
            }
        }
        let record = Record {
            kind,
            width: *width,
            height: *height,
            cap: *cap,
            side: *side,
            rows_done: *rows_done,
            partners,
        };
        let sound = !record.partners.is_empty()
            && record.area_width() <= 4096
            && record.area_height() <= 4096
            && record.rows_done <= record.rows_due();
        sound.then_some(record)
    }

    pub fn margin(&self) -> u64 {
        self.cap * ((self.side - 1) / 2)
    }

    pub fn area_width(&self) -> u64 {
        self.width + 2 * self.margin()
    }

    pub fn area_height(&self) -> u64 {
        self.height + 2 * self.margin()
    }

    /// Rows due in all.
    pub fn rows_due(&self) -> u64 {
        2 * self.area_height()
    }

    fn is_finished(&self) -> bool {
        self.rows_done == self.rows_due()
    }

    /// The maximum that a PGM of the run states.
    pub fn maximum(&self) -> u64 {
        match self.kind {
            Kind::Erosion => self.width.max(self.height),
            Kind::Dilation => self.cap + 1,
            Kind::Cropped => u64::from(NOTHING_FOUND),
        }
    }

    /// The largest size that can be thresholded at.
    pub fn most_size(&self) -> u64 {
        self.kind.most_size(self.cap)
    }

    /// The level of the area at a point, or what is read beyond the area.
    fn level_at(&self, levels: &[u16], point: Point) -> u16 {
        let (width, height) = (
            coordinate(self.area_width()),
            coordinate(self.area_height()),
        );
        let inside = (0..width).contains(&point.column) && (0..height).contains(&point.row);
        if inside {
            levels[usize::try_from(point.row * width + point.column).expect("inside")]
        } else {
            self.kind.beyond()
        }
    }

    /// Works the row that comes after so many rows done.
    fn work_row(&self, levels: &mut [u16], rows_done: u64) {
        let downward = rows_done < self.area_height();
        let row = if downward {
            rows_done
        } else {
            self.rows_due() - 1 - rows_done
        };
        for step in 0..self.area_width() {
            let column = if downward {
                step
            } else {
                self.area_width() - 1 - step
            };
            self.work_point(
                levels,
                downward,
                Point {
                    column: coordinate(column),
                    row: coordinate(row),
                },
            );
        }
    }

    fn work_point(&self, levels: &mut [u16], downward: bool, x: Point) {
        let mut least_met: Option<u16> = None;
        for b in &self.partners {
            let partner = self.kind.partner(x, *b);
            let before = partner.row < x.row || (partner.row == x.row && partner.column < x.column);
            if before == downward {
                let level = self.level_at(levels, partner);
                least_met = Some(least_met.map_or(level, |least| least.min(level)));
            }
        }
        if let Some(least) = least_met {
            // One more than 65,535 is 65,535 again.
            let offered = least.saturating_add(1);
            let own = &mut levels[index(self.area_width())
                * usize::try_from(x.row).expect("in the area")
                + usize::try_from(x.column).expect("in the area")];
            *own = (*own).min(offered);
        }
    }

    /// The levels of the frame's points, as the run holds them, row by row.
    fn frame_levels(&self, levels: &[u16]) -> Vec<u16> {
        let margin = coordinate(self.margin());
        frame_points(self.width, self.height)
            .iter()
            .map(|point| {
                let on_area = Point {
                    column: point.column + margin,
                    row: point.row + margin,
                };
                self.level_at(levels, on_area)
            })
            .collect()
    }
}

/// The points of a frame, row by row.
pub fn frame_points(width: u64, height: u64) -> Vec<Point> {
    let (width, height) = (coordinate(width), coordinate(height));
    (0..height)
        .flat_map(|row| (0..width).map(move |column| Point { column, row }))
        .collect()
}

/// The foreground points of a packed sheet; padding bits are no points.
pub fn sheet_set(width: u64, height: u64, sheet: &[u8]) -> Set {
    let row_bytes = index(width.div_ceil(8));
    let points: Vec<Point> = frame_points(width, height)
        .into_iter()
        .filter(|point| {
            let (column, row) = (point.column.unsigned_abs(), point.row.unsigned_abs());
            sheet[index(row) * row_bytes + index(column / 8)] >> (7 - column % 8) & 1 == 1
        })
        .collect();
    Set::of(&points)
}

/// The points of an element's cells, the origin at the centre.
pub fn element_set(side: u64, cells: &[u8]) -> Set {
    let reach = coordinate((side - 1) / 2);
    let points: Vec<Point> = frame_points(side, side)
        .into_iter()
        .zip(cells)
        .filter(|(_, cell)| **cell == 1)
        .map(|(point, _)| Point {
            column: point.column - reach,
            row: point.row - reach,
        })
        .collect();
    Set::of(&points)
}

/// Packs one flag for each point of a frame; padding bits are 0.
pub fn pack(width: u64, flags: &[bool]) -> Vec<u8> {
    flags
        .chunks(index(width))
        .flat_map(|row| row.chunks(8))
        .map(|byte| {
            byte.iter()
                .enumerate()
                .map(|(place, flag)| u8::from(*flag) << (7 - place))
                .sum()
        })
        .collect()
}

/// What a frame shows of a set, packed.
pub fn pack_set(width: u64, height: u64, set: &Set) -> Vec<u8> {
    let points = frame_points(width, height).into_iter();
    let flags: Vec<bool> = points.map(|point| set.holds(point)).collect();
    pack(width, &flags)
}

/// Changes the slices of a call that no refusal applies to.
fn accept(call: &mut Call) {
    let points = || frame_points(call.width, call.height);
    let sheet = || sheet_set(call.width, call.height, &call.sheet);
    let element = || element_set(call.side, &call.cells);
    match call.name {
        Name::StartErosion => start(call, Kind::Erosion),
        Name::StartDilation => start(call, Kind::Dilation),
        Name::StartCropped => start(call, Kind::Cropped),
        Name::Continue => {
            let record = record_of(call);
            let rows = call.number.min(record.rows_due() - record.rows_done);
            let mut lowered = 0;
            for row in 0..rows {
                let before = call.levels.clone();
                record.work_row(&mut call.levels, record.rows_done + row);
                lowered += points_below(&call.levels, &before);
            }
            call.record[5] = record.rows_done + rows;
            call.words_out = vec![u64::from(call.record[5] == record.rows_due()), lowered];
        }
        Name::Collect => {
            let record = record_of(call);
            call.levels_out = record.frame_levels(&call.levels);
            for level in &mut call.levels_out {
                *level = record.kind.collected(record.cap, *level);
            }
        }
        Name::Threshold => call.bytes_out = thresholded(call),
        Name::Provisional => {
            call.bytes_out = thresholded(call);
            call.words_out = vec![u64::from(record_of(call).is_finished())];
        }
        Name::Open => {
            let opened = definitions::opened(&sheet(), &element(), call.number);
            call.bytes_out = pack_set(call.width, call.height, &opened);
            clear_work(call);
        }
        Name::Close => {
            let flags = definitions::closing_holds(&sheet(), &element(), call.number, &points());
            call.bytes_out = pack(call.width, &flags);
            clear_work(call);
        }
        Name::OpeningLevels => {
            call.levels_out = definitions::opening_levels(&sheet(), &element(), &points());
            clear_work(call);
        }
        Name::ClosingLevels => {
            call.levels_out =
                definitions::closing_levels(&sheet(), &element(), call.number, &points());
            clear_work(call);
        }
        Name::Spectrum => spectrum(call),
        Name::DilateByMap => {
            let set = sheet();
            let points: Vec<(Point, u64)> =
                sizes(call).filter(|(point, _)| set.holds(*point)).collect();
            let dilated = definitions::dilated_by_sizes(&points, &element());
            call.bytes_out = pack_set(call.width, call.height, &dilated);
            clear_work(call);
        }
        // The cell at b takes the byte at -b, and in a square around the origin -b is the cell counted from the end.
        Name::Reflect => call.bytes_out = call.cells.iter().rev().copied().collect(),
        Name::ReadPbm => {
            let header = Header::read(&call.file).expect("refusal 22 is judged first");
            let (width, height) = header.frame.expect("refusal 2 is judged first");
            let sheet = cleared(width, &call.file[header.length..]);
            call.bytes_out[..sheet.len()].copy_from_slice(&sheet);
            call.words_out = vec![width, height];
        }
        Name::WritePbm => write(call, &pbm_file(call)),
        Name::WritePgm => write(call, &pgm_file(&record_of(call), &call.levels)),
    }
}

/// How many levels of the first list are below their level in the second.
pub fn points_below(levels: &[u16], others: &[u16]) -> u64 {
    let pairs = levels.iter().zip(others);
    pairs.filter(|(level, other)| level < other).count() as u64
}

/// The sheet that a run's levels hold at the call's size.
fn thresholded(call: &Call) -> Vec<u8> {
    let record = record_of(call);
    let flags: Vec<bool> = record
        .frame_levels(&call.levels)
        .into_iter()
        .map(|level| record.kind.holds(record.cap, call.number, level))
        .collect();
    pack(record.width, &flags)
}

/// How many of the levels are n, for each n from 0 to the last.
pub fn counts(levels: &[u16], last: u64) -> Vec<u64> {
    let of_level = |n: u64| levels.iter().filter(move |level| u64::from(**level) == n);
    (0..=last).map(|n| of_level(n).count() as u64).collect()
}

/// The table counts all points of the frame by their levels, the summary speaks of the sheet's own points.
fn spectrum(call: &mut Call) {
    let points = frame_points(call.width, call.height);
    let set = sheet_set(call.width, call.height, &call.sheet);
    let levels = definitions::opening_levels(&set, &element_set(call.side, &call.cells), &points);
    call.table = counts(&levels, call.width.max(call.height));
    let foreground: Vec<u64> = points
        .iter()
        .zip(&levels)
        .filter(|(point, _)| set.holds(**point))
        .map(|(_, level)| u64::from(*level))
        .collect();
    let sum: u64 = foreground.iter().sum();
    let at_one = foreground.iter().filter(|level| **level == 1).count();
    // One division each, of whole numbers that a double holds exactly.
    let part = |number: u64| Double::of(number as f64 / foreground.len() as f64);
    call.summary = vec![part(sum), part(at_one as u64)];
    clear_work(call);
}

fn clear_work(call: &mut Call) {
    call.work_a.fill(0);
    call.work_b.fill(0);
}

/// Puts a file into the room lent for it, and its length into the answer.
fn write(call: &mut Call, file: &[u8]) {
    call.bytes_out[..file.len()].copy_from_slice(file);
    call.words_out = vec![file.len() as u64];
}

/// The words of a record.
pub fn record_words(
    kind: Kind,
    (width, height): (u64, u64),
    cap: u64,
    (side, cells): (u64, &[u8]),
    rows_done: u64,
) -> Vec<u64> {
    let (kind, edge_rule) = kind.words();
    let mut words = vec![kind, width, height, cap, side, rows_done];
    let corner = 3 - (side - 1) / 2;
    let mut rows = [[0; 7]; 7];
    for (place, cell) in cells.iter().enumerate() {
        let (row, column) = (place as u64 / side, place as u64 % side);
        rows[index(corner + row)][index(corner + column)] = u64::from(*cell);
    }
    words.extend(rows.iter().flatten());
    words.push(edge_rule);
    words
}

fn start(call: &mut Call, kind: Kind) {
    let cap = if kind.has_cap() { call.number } else { 0 };
    let frame = (call.width, call.height);
    call.words_out = record_words(kind, frame, cap, (call.side, &call.cells), 0);
    let record = Record::read(&call.words_out).expect("a start gives a sound record");
    let margin = coordinate(record.margin());
    let set = sheet_set(call.width, call.height, &call.sheet);
    let frame = Set::of(&frame_points(call.width, call.height));
    let [foreground, background, elsewhere] = kind.start_levels();
    call.levels = frame_points(record.area_width(), record.area_height())
        .into_iter()
        .map(|point| Point {
            column: point.column - margin,
            row: point.row - margin,
        })
        .map(|point| match (set.holds(point), frame.holds(point)) {
            (true, _) => foreground,
            (false, true) => background,
            (false, false) => elsewhere,
        })
        .collect();
}

/// The header of a raw PBM.
struct Header {
    /// The frame, where both sides are in range.
    frame: Option<(u64, u64)>,
    /// Bytes up to the raster.
    length: usize,
}

fn is_white(byte: u8) -> bool {
    matches!(byte, b' ' | b'\t' | b'\r' | b'\n')
}

impl Header {
    /// The header of a file that begins with P4, or nothing where it is broken.
    fn read(file: &[u8]) -> Option<Header> {
        let (_, rest) = split(file.get(2..)?, is_white)?;
        let (width, rest) = split(rest, |byte| byte.is_ascii_digit())?;
        let (_, rest) = split(rest, is_white)?;
        let (height, rest) = split(rest, |byte| byte.is_ascii_digit())?;
        if !is_white(*rest.first()?) {
            return None;
        }
        Some(Header {
            frame: frame_side(width).zip(frame_side(height)),
            length: file.len() - rest.len() + 1,
        })
    }
}

/// The first bytes of a kind, of which there is at least one, and the rest.
fn split(bytes: &[u8], kind: impl Fn(u8) -> bool) -> Option<(&[u8], &[u8])> {
    let count = bytes.iter().take_while(|byte| kind(**byte)).count();
    (count > 0).then(|| bytes.split_at(count))
}

/// The frame side that decimal digits mean, where it is in range.
fn frame_side(digits: &[u8]) -> Option<u64> {
    let zeros = digits.iter().take_while(|digit| **digit == b'0').count();
    let digits = std::str::from_utf8(&digits[zeros..]).expect("digits are text");
    // More than four digits without leading zeros are above 4,096, however many they are.
    if digits.len() > 4 {
        return None;
    }
    let side = digits.parse().ok()?;
    (!side_out_of_range(side)).then_some(side)
}

/// What follows the header of a file, and how many bytes have to.
fn raster_of(call: &Call) -> (&[u8], usize) {
    let header = Header::read(&call.file).expect("refusal 22 is judged first");
    let (width, height) = header.frame.expect("refusal 2 is judged first");
    (
        &call.file[header.length..],
        index(height * width.div_ceil(8)),
    )
}

/// The same raster with its padding bits 0.
fn cleared(width: u64, raster: &[u8]) -> Vec<u8> {
    let row_bytes = width.div_ceil(8);
    let height = raster.len() as u64 / row_bytes;
    pack_set(width, height, &sheet_set(width, height, raster))
}

fn pbm_file(call: &Call) -> Vec<u8> {
    let mut file = format!("P4\n{} {}\n", call.width, call.height).into_bytes();
    file.extend(cleared(call.width, &call.sheet));
    file
}

fn pgm_file(record: &Record, levels: &[u16]) -> Vec<u8> {
    let mut lines = vec![
        "P2".to_string(),
        format!("# rows {} of {}", record.rows_done, record.rows_due()),
        format!("{} {}", record.width, record.height),
        record.maximum().to_string(),
    ];
    for row in levels.chunks(index(record.width)) {
        let mut line = String::new();
        for (place, level) in row.iter().enumerate() {
            let longer = format!("{line} {level}");
            if place == 0 {
                line = level.to_string();
            } else if longer.len() > 70 {
                lines.push(line);
                line = level.to_string();
            } else {
                line = longer;
            }
        }
        lines.push(line);
    }
    (lines.join("\n") + "\n").into_bytes()
}
