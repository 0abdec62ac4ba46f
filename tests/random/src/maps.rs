//! Dilations by a map, compared with runs and with one another: where the map gives one size everywhere, the sheet is byte
//! for byte what a dilation run with the same cap gives at that size; and what the map has at background points changes
//! nothing.

use crate::call::{Call, Name};
use crate::check::{answer, call_on_run, print_small, whole_run};
use crate::dice::Dice;
use crate::report::Tally;
use crate::sound::{as_size, background_sizes, lend_due_lengths, sound_call, Scale};

pub const ONE_SIZE: &str = "wt_dilate_by_map of one size gives a run's sheet";
pub const BACKGROUND: &str = "wt_dilate_by_map takes any background sizes";

/// The sheet of a size, of a whole run with the call's sheet, element and cap.
fn sheet_of_run(call: &Call, size: u64) -> Result<Vec<u8>, String> {
    let mut start = Call {
        name: Name::StartDilation,
        map: Vec::new(),
        work_a: Vec::new(),
        bytes_out: Vec::new(),
        ..call.clone()
    };
    lend_due_lengths(&mut start);
    let run = whole_run(&start)?;
    answer(&call_on_run(
        Name::Threshold,
        &run.record,
        &run.levels,
        size,
    ))
}

/// Compares a call whose map has one size, at background points too, with a run.
fn compare_one_size(call: &Call) -> Result<(), String> {
    let size = call.map[0];
    if call.map.iter().any(|other| *other != size) || u64::from(size) > call.number {
        // A smaller call that is no longer of this kind.
        return Ok(());
    }
    let (mapped, run) = (answer(call)?, sheet_of_run(call, size.into())?);
    if mapped == run {
        return Ok(());
    }
    Err(format!(
        "    by the map {mapped:?}\n    by the run {run:?}\n"
    ))
}

/// Compares a call with the same whose map has other sizes, by dice of this seed, at background points.
fn compare_background(call: &Call, seed: u64) -> Result<(), String> {
    let mut other = call.clone();
    background_sizes(&mut Dice::new(seed), &mut other);
    let (first, second) = (answer(call)?, answer(&other)?);
    if first == second {
        return Ok(());
    }
    Err(format!(
        "    {first:?}\n    with the sizes {:?}: {second:?}\n",
        other.map
    ))
}

/// Makes both comparisons, of random calls.
pub fn check_maps(tally: &mut Tally, dice: &mut Dice, scale: Scale) {
    let call = sound_call(dice, Name::DilateByMap, scale);
    let seed = dice.word();
    tally.tried(BACKGROUND);
    if compare_background(&call, seed).is_err() && tally.differs(BACKGROUND) {
        print_small(BACKGROUND, &call, |call| compare_background(call, seed));
    }
    let mut even = call;
    let size = dice.between(0, even.number);
    even.map.fill(as_size(size));
    tally.tried(ONE_SIZE);
    if compare_one_size(&even).is_err() && tally.differs(ONE_SIZE) {
        print_small(ONE_SIZE, &even, compare_one_size);
    }
}
