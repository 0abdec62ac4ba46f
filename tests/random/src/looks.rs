//! Looks at runs under way, judged by the definitions: at every cut an erosion's sheet, cropped or not, contains the
//! eroded set, and a dilation's lies within the dilated set; no level is below its final one, and no row raises one.

use crate::call::{Call, Name};
use crate::check::{call_on_run, print_small};
use crate::dice::Dice;
use crate::kinds::Kind;
use crate::pictures;
use crate::raw::perform;
use crate::report::Tally;
use crate::rules::{frame_points, judge, points_below, sheet_set};
use crate::sound::allowance;

/// The test that looks at a kind of run belong to.
pub fn test_of(kind: Kind) -> String {
    let relation = match kind {
        Kind::Erosion | Kind::Cropped => "contain the erosion",
        Kind::Dilation => "lie within the dilation",
    };
    format!("looks at {} runs {relation}", kind.name())
}

/// A size, and which points of the frame the definitions hold at it.
type Expected = (u64, Vec<bool>);

fn expected(start: &Call) -> Vec<Expected> {
    let mut sizes = vec![0, 1, 2, 5];
    if start.name.takes_cap() {
        sizes = vec![0, 1, start.number];
        sizes.retain(|size| *size <= start.number);
    }
    sizes
        .into_iter()
        .map(|size| (size, pictures::held(start, size)))
        .collect()
}

/// Looks once at a run, of which all rows are done or not, and compares the sheet with what the definitions hold.
fn look(
    start: &Call,
    record: &[u64],
    levels: &[u16],
    done: bool,
    (size, expected): &Expected,
) -> Result<(), String> {
    let (number, shown) = perform(&call_on_run(Name::Provisional, record, levels, *size))?;
    let rows = record[5];
    if number != 0 || shown.words_out != [u64::from(done)] {
        return Err(format!(
            "    size {size} after {rows} rows: number {number}, state {:?}\n",
            shown.words_out
        ));
    }
    let set = sheet_set(start.width, start.height, &shown.bytes_out);
    let points = frame_points(start.width, start.height);
    let held = points.iter().map(|point| set.holds(*point));
    let wrong = held.zip(expected).any(|(held, expected)| {
        let missing = *expected && !held;
        let beyond = held && !*expected;
        match start.name {
            _ if done => missing || beyond,
            Name::StartDilation => beyond,
            _ => missing,
        }
    });
    if wrong {
        return Err(format!(
            "    size {size} after {rows} rows\n    by the definitions {expected:?}\n    shown {:?}\n",
            shown.bytes_out
        ));
    }
    if done {
        let (number, picture) = perform(&call_on_run(Name::Threshold, record, levels, *size))?;
        if number != 0 || picture.bytes_out != shown.bytes_out {
            return Err(format!(
                "    the threshold at {size} gives {number} and another sheet\n"
            ));
        }
    }
    Ok(())
}

/// Where a run is cut.
#[derive(Clone, Copy, Debug)]
pub enum Cuts {
    EveryRow,
    /// At random, by dice of this seed, so that the same cuts can be had again.
    Random(u64),
}

/// Works a run in slices, and looks at it at every cut, before the first slice and after the last too.
fn compare_looks(start: &Call, cuts: Cuts) -> Result<(), String> {
    let (number, started) = perform(start)?;
    if number != 0 {
        return Err(format!("    the start is refused with {number}\n"));
    }
    let (mut record, mut levels) = (started.words_out, started.levels);
    // The final levels, as the rules have them.
    let last = judge(&call_on_run(Name::Continue, &record, &levels, 8192)).1;
    let sizes = expected(start);
    let mut dice = match cuts {
        Cuts::EveryRow => None,
        Cuts::Random(seed) => Some(Dice::new(seed)),
    };
    let mut done = false;
    loop {
        if points_below(&levels, &last.levels) > 0 {
            return Err(format!(
                "    a level is below its final one after {} rows\n",
                record[5]
            ));
        }
        for size in &sizes {
            look(start, &record, &levels, done, size)?;
        }
        if done {
            return Ok(());
        }
        let slice = dice
            .as_mut()
            .map_or(1, |dice| allowance(dice, last.record[5]));
        let (number, after) = perform(&call_on_run(Name::Continue, &record, &levels, slice))?;
        if number != 0 || after.record[5] != last.record[5].min(record[5] + slice) {
            return Err(format!(
                "    {slice} rows after {}: number {number}, {} done\n",
                record[5], after.record[5]
            ));
        }
        if points_below(&levels, &after.levels) > 0 {
            return Err(format!(
                "    a level is raised within {} rows\n",
                after.record[5]
            ));
        }
        done = after.record[5] == last.record[5];
        (record, levels) = (after.record, after.levels);
    }
}

/// Compares the looks at one run.
pub fn check_looks(tally: &mut Tally, start: &Call, cuts: Cuts) {
    let test = test_of(Kind::started_by(start.name).expect("a start"));
    tally.tried(&test);
    if compare_looks(start, cuts).is_err() && tally.differs(&test) {
        print_small(&test, start, |call| {
            compare_looks(call, cuts).map_err(|text| format!("    cut at {cuts:?}\n{text}"))
        });
    }
}
