//! Compares the library with the rules, one call at a time, and whole runs with the definitions.

use crate::call::{number_of, Call, Field, Name, SIZE_OF_MAP};
use crate::damage::damage;
use crate::dice::Dice;
use crate::kinds::Kind;
use crate::looks::{check_looks, Cuts};
use crate::pictures;
use crate::raw::perform;
use crate::report::{describe, describe_difference, Tally};
use crate::rules::{due_length, judge, judge_by_reason, pack, sheet_set, Record};
use crate::shrink::shrink;
use crate::sound::{allowance, sound_call, Scale};

/// The name of the test that a call belongs to, by the reason why it has to be refused, 0 for none.
pub fn test_of(name: Name, reason: u32) -> String {
    let (function, number) = (name.function(), number_of(reason));
    match reason {
        0 => format!("{function} accepted"),
        SIZE_OF_MAP => format!("{function} refused with {number}, last, for a size"),
        _ => format!("{function} refused with {number}"),
    }
}

/// Whether the library answers anything but what the rules say.
fn differs(call: &Call) -> bool {
    perform(call) != Ok(judge(call))
}

/// Compares one call, and answers what it came to, or nothing where it differs.
pub fn check(tally: &mut Tally, call: &Call) -> Option<(u32, Call)> {
    let (reason, after) = judge_by_reason(call);
    let test = test_of(call.name, reason);
    let expected = (number_of(reason), after);
    tally.tried(&test);
    if tally.traced {
        eprint!("{test}:\n{}", describe(call));
    }
    let observed = perform(call);
    if observed.as_ref() == Ok(&expected) {
        return Some(expected);
    }
    if tally.differs(&test) {
        let small = shrink(call, differs);
        println!("DIFFERENCE in {test}, made small:");
        print!("{}", describe(&small));
        print!("{}", describe_difference(&judge(&small), &perform(&small)));
    }
    None
}

/// Prints the smallest accepted call found for which a comparison still fails, and why it does.
pub fn print_small(test: &str, call: &Call, compare: impl Fn(&Call) -> Result<(), String>) {
    let small = shrink(call, |call| judge(call).0 == 0 && compare(call).is_err());
    println!("DIFFERENCE in {test}, made small:");
    print!("{}", describe(&small));
    print!("{}", compare(&small).err().unwrap_or_default());
}

/// What a call leaves, where it is accepted.
pub fn accepted(call: &Call) -> Result<Call, String> {
    let (number, after) = perform(call)?;
    match number {
        0 => Ok(after),
        number => Err(format!(
            "    {} of {}: refused with {number}\n",
            call.name.function(),
            call.number
        )),
    }
}

/// The sheet that a call answers, where it is accepted.
pub fn answer(call: &Call) -> Result<Vec<u8>, String> {
    Ok(accepted(call)?.bytes_out)
}

/// A sound call of every function, and damaged ones.
pub fn check_calls(tally: &mut Tally, dice: &mut Dice, scale: Scale) {
    for name in Name::ALL {
        let sound = sound_call(dice, name, scale);
        check(tally, &sound);
        let damaged_calls = if scale == Scale::Small { 8 } else { 1 };
        for _ in 0..damaged_calls {
            let mut call = sound.clone();
            // Mostly one fault; several show whether the first is given.
            for _ in 0..dice.pick(&[1, 1, 1, 2, 3]) {
                damage(dice, &mut call);
            }
            check(tally, &call);
        }
    }
}

/// A call on a run, with answer slices of the due length; they stay empty where a start gave no sound record, and the
/// call is then refused.
pub fn call_on_run(name: Name, record: &[u64], levels: &[u16], number: u64) -> Call {
    let mut call = Call::new(name);
    call.record = record.to_vec();
    call.levels = levels.to_vec();
    call.number = number;
    if Record::read(record).is_some() {
        for field in [Field::LevelsOut, Field::BytesOut, Field::WordsOut] {
            if name.fields().contains(&field) {
                let due = due_length(&call, field);
                call.set_length(field, usize::try_from(due).expect("runs are small"));
            }
        }
    }
    call
}

/// A run in slices: every slice follows the row rule, refused calls change nothing and count for nothing, no picture
/// is given before the end, and at every cut the run stands where one unbroken call would have brought it, which
/// lowers as many points as the slices together. Over all rows no point counts more than twice.
pub fn check_series(tally: &mut Tally, dice: &mut Dice, start: &Call) {
    const TEST: &str = "series of slices equal one unbroken call";
    let Some((0, started)) = check(tally, start) else {
        return;
    };
    let (mut record, mut levels) = (started.words_out.clone(), started.levels.clone());
    let rows_due = 2 * levels.len() as u64 / canvas_width(start);
    let mut lowered = 0;
    loop {
        if dice.percent(15) {
            // A refused call in between.
            let mut refused = call_on_run(Name::Continue, &record, &levels, 8193);
            if dice.percent(50) {
                damage(dice, &mut refused);
            }
            if judge(&refused).0 != 0 {
                check(tally, &refused);
            }
        }
        if dice.percent(20) {
            for name in [Name::Collect, Name::Threshold, Name::Provisional] {
                check(tally, &call_on_run(name, &record, &levels, 0));
            }
        }
        let allowance = allowance(dice, rows_due);
        let slice = call_on_run(Name::Continue, &record, &levels, allowance);
        let Some((0, after)) = check(tally, &slice) else {
            return;
        };
        (record, levels) = (after.record, after.levels);
        lowered += after.words_out[1];

        tally.tried(TEST);
        let unbroken = call_on_run(
            Name::Continue,
            &started.words_out,
            &started.levels,
            record[5],
        );
        let whole = perform(&unbroken);
        let same = matches!(&whole, Ok((0, whole)) if whole.record == record
            && whole.levels == levels
            && whole.words_out == [u64::from(record[5] == rows_due), lowered]
            && lowered <= 2 * levels.len() as u64);
        if !same && tally.differs(TEST) {
            // The slices follow the rules, so it is the unbroken call that doesn't.
            let small = shrink(&unbroken, differs);
            println!("DIFFERENCE in {TEST}; the unbroken call, made small:");
            print!("{}", describe(&small));
            print!("{}", describe_difference(&judge(&small), &perform(&small)));
        }
        if record[5] == rows_due {
            break;
        }
    }
}

fn canvas_width(start: &Call) -> u64 {
    if start.name.takes_cap() {
        start.width + start.number * (start.side - 1)
    } else {
        start.width
    }
}

/// A run after all its rows, as the call that works them leaves it.
pub fn whole_run(start: &Call) -> Result<Call, String> {
    let (number, started) = perform(start)?;
    if number != 0 {
        return Err(format!("    the start is refused with {number}\n"));
    }
    let whole = call_on_run(Name::Continue, &started.words_out, &started.levels, 8192);
    Ok(perform(&whole)?.1)
}

/// Compares a whole run with the definitions: its collected levels, and its sheets of several sizes.
fn compare_run(start: &Call) -> Result<(), String> {
    let finished = whole_run(start)?;
    let collect = call_on_run(Name::Collect, &finished.record, &finished.levels, 0);
    let (number, collected) = perform(&collect)?;

    let expected = pictures::levels(start);
    if number != 0 || collected.levels_out != expected {
        return Err(format!(
            "    number {number}\n    by the definitions {expected:?}\n    collected          {:?}\n",
            collected.levels_out
        ));
    }
    let largest = if start.name.takes_cap() {
        start.number
    } else {
        7
    };
    for size in [0, 1, 2, largest] {
        if size > largest {
            continue;
        }
        let threshold = call_on_run(Name::Threshold, &finished.record, &finished.levels, size);
        let (number, thresholded) = perform(&threshold)?;
        let expected = pack(start.width, &pictures::held(start, size));
        if number != 0 || thresholded.bytes_out != expected {
            return Err(format!(
                "    number {number}\n    size {size} by the definitions {expected:?}\n    thresholded {:?}\n",
                thresholded.bytes_out
            ));
        }
    }
    Ok(())
}

/// The tests that a whole run counts for.
fn run_tests(start: &Call) -> Vec<String> {
    let kind = Kind::started_by(start.name).expect("a start").name();
    let mut tests = vec![format!(
        "{kind} runs, side {}, equal the definitions",
        start.side
    )];
    let turned: Vec<u8> = start.cells.iter().rev().copied().collect();
    if turned != start.cells {
        tests.push(format!("{kind} runs, asymmetric, equal the definitions"));
    }
    let side = usize::try_from(start.side).unwrap_or(1);
    let ring_is_empty = start.cells.iter().enumerate().all(|(place, cell)| {
        let (row, column) = (place / side, place % side);
        let on_ring = row == 0 || column == 0 || row == side - 1 || column == side - 1;
        *cell == 0 || !on_ring
    });
    if ring_is_empty {
        tests.push(format!(
            "{kind} runs, outer ring empty, equal the definitions"
        ));
    }
    tests
}

/// Compares one whole run with the definitions.
pub fn check_run(tally: &mut Tally, start: &Call) {
    let differs = compare_run(start).is_err();
    for test in run_tests(start) {
        tally.tried(&test);
        if differs && tally.differs(&test) {
            print_small(&test, start, compare_run);
        }
    }
}

/// Works runs of all kinds, whole and in slices.
pub fn check_runs(tally: &mut Tally, dice: &mut Dice, scale: Scale) {
    for kind in Kind::ALL {
        let start = sound_call(dice, kind.start(), scale);
        check_run(tally, &start);
        check_series(tally, dice, &start);
        check_looks(tally, &start, Cuts::Random(dice.word()));
    }
}

/// Writes a sheet and reads it, and compares frame and pixels.
fn compare_back(write: &Call) -> Result<(), String> {
    let (number, written) = perform(write)?;
    let length = usize::try_from(written.words_out[0]).unwrap_or(usize::MAX);
    let Some(file) = written.bytes_out.get(..length) else {
        return Err(format!("    written with {number}, {length} bytes\n"));
    };
    let mut read = Call::new(Name::ReadPbm);
    read.file = file.to_vec();
    read.set_length(Field::BytesOut, write.sheet.len());
    read.set_length(Field::WordsOut, 2);
    let (number_back, back) = perform(&read)?;
    let set = |bytes: &[u8]| sheet_set(write.width, write.height, bytes);
    let same = [number, number_back] == [0, 0]
        && back.words_out == [write.width, write.height]
        && set(&back.bytes_out).same(&set(&write.sheet));
    if same {
        return Ok(());
    }
    Err(format!(
        "    written with {number}, read with {number_back}: frame {:?}, sheet {:?}\n",
        back.words_out, back.bytes_out
    ))
}

pub fn check_there_and_back(tally: &mut Tally, dice: &mut Dice, scale: Scale) {
    const TEST: &str = "a PBM written is read as the same sheet";
    let write = sound_call(dice, Name::WritePbm, scale);
    tally.tried(TEST);
    if compare_back(&write).is_err() && tally.differs(TEST) {
        print_small(TEST, &write, compare_back);
    }
}
