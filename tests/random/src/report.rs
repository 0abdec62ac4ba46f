//! Counts what was tried and prints what differed.

use std::collections::BTreeMap;
use std::fmt::Write;

use crate::call::{Call, Field};
use crate::kinds::Kind;
use crate::rules::{due_length, Record};

/// So many differences of one test are printed in full; the rest are only counted.
const MOST_PRINTED: u64 = 2;

#[derive(Default)]
struct Count {
    tries: u64,
    differences: u64,
}

/// The tests by name, with their counts. A test that was never tried has failed.
#[derive(Default)]
pub struct Tally {
    /// Whether each call is printed before it is made, so that one that never comes back is known.
    pub traced: bool,
    counts: BTreeMap<String, Count>,
    order: Vec<String>,
}

impl Tally {
    /// Names a test that has to be tried at least once.
    pub fn expect(&mut self, test: String) {
        if !self.counts.contains_key(&test) {
            self.order.push(test.clone());
            self.counts.insert(test, Count::default());
        }
    }

    pub fn tried(&mut self, test: &str) {
        self.expect(test.to_string());
        if let Some(count) = self.counts.get_mut(test) {
            count.tries += 1;
        }
    }

    /// Counts a difference, and answers whether it should be printed.
    pub fn differs(&mut self, test: &str) -> bool {
        self.expect(test.to_string());
        self.counts.get_mut(test).is_some_and(|count| {
            count.differences += 1;
            count.differences <= MOST_PRINTED
        })
    }

    /// Prints all tests with their counts and answers how many passed and failed.
    pub fn print(&self) -> (usize, usize) {
        let mut passed = 0;
        for test in &self.order {
            let count = &self.counts[test];
            let verdict = if count.differences > 0 {
                format!("FAILED, {} differ", count.differences)
            } else if count.tries == 0 {
                "FAILED, never tried".to_string()
            } else {
                passed += 1;
                "ok".to_string()
            };
            println!("{test:<52} {:>9}  {verdict}", count.tries);
        }
        (passed, self.order.len() - passed)
    }
}

/// The call, drawn so that a person can follow it.
pub fn describe(call: &Call) -> String {
    let mut text = format!("  {}\n", call.name.function());
    if call.name.takes_frame() {
        let _ = writeln!(text, "    frame {} by {}", call.width, call.height);
        describe_sheet(&mut text, call);
    }
    if call.name.takes_element() {
        let _ = writeln!(text, "    element of side {}: {:?}", call.side, call.cells);
    }
    if call.name.takes_number() {
        let _ = writeln!(text, "    number (cap, size or allowance) {}", call.number);
    }
    if call.name.takes_map() {
        describe_map(&mut text, call);
    }
    if call.name.takes_record() {
        let _ = writeln!(text, "    record {:?}", call.record);
    }
    if let Some(record) = Record::read(&call.record) {
        let _ = writeln!(
            text,
            "    that is {} of a frame {} by {}, cap {}, side {}, {} of {} rows done",
            match record.kind {
                Kind::Erosion => "an erosion",
                Kind::Dilation => "a dilation",
                Kind::Cropped => "a cropped run",
            },
            record.width,
            record.height,
            record.cap,
            record.side,
            record.rows_done,
            record.rows_due()
        );
    }
    for field in call.name.fields() {
        let _ = writeln!(text, "    {field:?} has length {}", call.length(*field));
    }
    if call.name.takes_record() {
        let _ = writeln!(text, "    levels {}", brief(&call.levels));
    }
    if !call.file.is_empty() {
        let shown = &call.file[..call.file.len().min(160)];
        let _ = writeln!(text, "    file begins \"{}\"", shown.escape_ascii());
    }
    text
}

fn describe_sheet(text: &mut String, call: &Call) {
    let row_bytes = usize::try_from(call.width.div_ceil(8)).unwrap_or(0);
    if call.width > 120 || row_bytes == 0 {
        let _ = writeln!(text, "    sheet {}", brief(&call.sheet));
        return;
    }
    for row in call.sheet.chunks(row_bytes) {
        let bits: String = row.iter().map(|byte| format!("{byte:08b}")).collect();
        let width = usize::try_from(call.width).unwrap_or(0).min(bits.len());
        let _ = writeln!(
            text,
            "    {} (padding {})",
            bits[..width].replace('0', ".").replace('1', "#"),
            &bits[width..]
        );
    }
}

/// The map row by row, as the sheet is drawn; or as a list, where it doesn't fit the frame.
fn describe_map(text: &mut String, call: &Call) {
    let fits = call.map.len() as u128 == due_length(call, Field::Map);
    let width = usize::try_from(call.width).unwrap_or(usize::MAX);
    let width = if fits { width } else { usize::MAX };
    for row in call.map.chunks(width.max(1)) {
        let _ = writeln!(text, "    sizes {}", brief(row));
    }
}

/// So many entries of a list are shown.
const MOST_SHOWN: usize = 100;

/// A list, cut where it is long.
fn brief<T: std::fmt::Debug>(list: &[T]) -> String {
    if list.len() <= MOST_SHOWN {
        format!("{list:?}")
    } else {
        let rest = list.len() - MOST_SHOWN;
        format!("{:?} and {rest} more", &list[..MOST_SHOWN])
    }
}

/// How two outcomes of a call differ.
pub fn describe_difference(
    expected: &(u32, Call),
    observed: &Result<(u32, Call), String>,
) -> String {
    let (number, after) = match observed {
        Err(sentence) => return sentence.clone(),
        Ok((number, after)) => (number, after),
    };
    let mut text = String::new();
    if *number != expected.0 {
        let _ = writeln!(
            text,
            "    expected number {}, observed {number}",
            expected.0
        );
    }
    for field in after.name.fields() {
        let pair = match field {
            Field::Sheet => pair(&expected.1.sheet, &after.sheet),
            Field::Cells => pair(&expected.1.cells, &after.cells),
            Field::File => pair(&expected.1.file, &after.file),
            Field::Record => pair(&expected.1.record, &after.record),
            Field::Levels => pair(&expected.1.levels, &after.levels),
            Field::Map => pair(&expected.1.map, &after.map),
            Field::WorkA => pair(&expected.1.work_a, &after.work_a),
            Field::WorkB => pair(&expected.1.work_b, &after.work_b),
            Field::BytesOut => pair(&expected.1.bytes_out, &after.bytes_out),
            Field::LevelsOut => pair(&expected.1.levels_out, &after.levels_out),
            Field::WordsOut => pair(&expected.1.words_out, &after.words_out),
            Field::Table => pair(&expected.1.table, &after.table),
            Field::Summary => pair(&expected.1.summary, &after.summary),
        };
        if let Some((expected, observed)) = pair {
            let _ = writeln!(text, "    {field:?} expected {expected}");
            let _ = writeln!(text, "    {field:?} observed {observed}");
        }
    }
    text
}

/// Both lists from shortly before the first place where they differ, or nothing where they are the same.
fn pair<T: std::fmt::Debug + PartialEq>(
    expected: &[T],
    observed: &[T],
) -> Option<(String, String)> {
    if expected == observed {
        return None;
    }
    let same = expected.iter().zip(observed).take_while(|(e, o)| e == o);
    let from = same.count().saturating_sub(MOST_SHOWN / 2);
    let shown = |list: &[T]| {
        format!(
            "from place {from}: {}",
            brief(&list[from.min(list.len())..])
        )
    };
    Some((shown(expected), shown(observed)))
}
