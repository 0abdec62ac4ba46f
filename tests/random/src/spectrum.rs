//! Spectra, compared with other calls of the same sheet and element: the table counts what `wt_opening_levels` answers, and
//! the summary averages it; an entry counts the points that one opening by `wt_open` holds and the next does not; all
//! entries add up to the frame's points; and other padding bits change nothing.

use crate::call::{Call, Double, Name};
use crate::check::{accepted, answer, print_small};
use crate::dice::Dice;
use crate::report::Tally;
use crate::rules::counts;
use crate::sound::{lend_due_lengths, padding, row_ends, sound_call, Scale};

const LEVELS: &str = "wt_spectrum counts wt_opening_levels' levels";
const OPENINGS: &str = "wt_spectrum counts the points each wt_open drops";
const FRAME: &str = "wt_spectrum's entries add up to the frame";
const PADDING: &str = "wt_spectrum takes any padding bits";

pub const TESTS: [&str; 4] = [LEVELS, OPENINGS, FRAME, PADDING];

/// A comparison of one accepted spectrum with something else.
type Comparison = fn(&Call) -> Result<(), String>;

/// The last entry's level.
fn larger_side(call: &Call) -> u64 {
    call.width.max(call.height)
}

/// Another call of the spectrum's sheet and element.
fn beside(call: &Call, name: Name, number: u64) -> Call {
    let mut other = Call {
        name,
        number,
        table: Vec::new(),
        summary: Vec::new(),
        ..call.clone()
    };
    lend_due_lengths(&mut other);
    other
}

fn compare_levels(call: &Call) -> Result<(), String> {
    let levels = accepted(&beside(call, Name::OpeningLevels, 0))?.levels_out;
    let table = counts(&levels, larger_side(call));
    let foreground: Vec<u64> = levels
        .iter()
        .map(|level| u64::from(*level))
        .filter(|level| *level > 0)
        .collect();
    let sum: u64 = foreground.iter().sum();
    let number = foreground.len() as f64;
    let summary = [sum as f64 / number, table[1] as f64 / number].map(Double::of);
    let after = accepted(call)?;
    if after.table == table && after.summary == summary {
        return Ok(());
    }
    Err(format!(
        "    {:?}, {:?}\n    of the levels {levels:?}: {table:?}, {summary:?}\n",
        after.table, after.summary
    ))
}

fn compare_openings(call: &Call) -> Result<(), String> {
    let mut held = call.width * call.height;
    let mut dropped = Vec::new();
    for size in 0..=larger_side(call) {
        // What the frame has beyond the sheet's points counts as dropped by size 0, that is, as background.
        let opened = answer(&beside(call, Name::Open, size))?;
        let still_held = opened.iter().map(|byte| u64::from(byte.count_ones())).sum();
        dropped.push(held.wrapping_sub(still_held));
        held = still_held;
    }
    let table = accepted(call)?.table;
    if table == dropped {
        return Ok(());
    }
    Err(format!("    {table:?}\n    by openings {dropped:?}\n"))
}

fn compare_frame(call: &Call) -> Result<(), String> {
    let table = accepted(call)?.table;
    let sum: u128 = table.iter().map(|entry| u128::from(*entry)).sum();
    if sum == u128::from(call.width * call.height) {
        return Ok(());
    }
    Err(format!("    {table:?}\n    adds up to {sum}\n"))
}

fn compare_padding(call: &Call) -> Result<(), String> {
    let mut other = call.clone();
    row_ends(call.width, &mut other.sheet).for_each(|byte| *byte ^= padding(call.width));
    let (first, mut second) = (accepted(call)?, accepted(&other)?);
    second.sheet.clone_from(&first.sheet);
    if first == second {
        return Ok(());
    }
    Err(format!(
        "    {:?}, {:?}\n    with every padding bit the other: {:?}, {:?}\n",
        first.table, first.summary, second.table, second.summary
    ))
}

/// Makes each comparison, of a random call.
pub fn check_spectra(tally: &mut Tally, dice: &mut Dice, scale: Scale) {
    let call = sound_call(dice, Name::Spectrum, scale);
    let mut comparisons: Vec<(&str, Comparison)> = vec![
        (LEVELS, compare_levels),
        (OPENINGS, compare_openings),
        (FRAME, compare_frame),
    ];
    if padding(call.width) != 0 {
        comparisons.push((PADDING, compare_padding));
    }
    for (test, compare) in comparisons {
        tally.tried(test);
        if compare(&call).is_err() && tally.differs(test) {
            print_small(test, &call, compare);
        }
    }
}
