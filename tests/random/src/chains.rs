//! Filters chained at the boundary: a call, and the same by other sizes with the same element, each of the sheet that the
//! one before it answered. What comes of it is byte for byte what one call by the largest size answers; and what is passed
//! on is refused where the first sheet would be.

use crate::call::{Call, Name};
use crate::check::{answer, check, print_small};
use crate::damage::damage;
use crate::dice::Dice;
use crate::raw::perform;
use crate::report::{describe, Tally};
use crate::sound::{filter_size, lend_due_lengths, scramble, sound_call, Scale};

/// The calls that are chained.
pub const FILTERS: [Name; 2] = [Name::Open, Name::Close];

/// The test that chains of a filter belong to.
pub fn folding_of(name: Name) -> String {
    format!("{} chained is one call by the largest", name.function())
}

/// The test that sheets passed on to a filter belong to.
pub fn passing_of(name: Name) -> String {
    format!("{} of its answer is refused alike", name.function())
}

/// The same call by another size, of another sheet of the frame. Its buffers fit, whatever they hold.
fn again(call: &Call, sheet: &[u8], size: u64) -> Call {
    let mut next = call.clone();
    next.sheet = sheet.to_vec();
    next.number = size;
    lend_due_lengths(&mut next);
    scramble(&mut Dice::new(size), &mut next);
    next
}

fn compare_chain(first: &Call, sizes: &[u64]) -> Result<(), String> {
    let mut chained = answer(first)?;
    for size in sizes {
        chained = answer(&again(first, &chained, *size))?;
    }
    let largest = sizes.iter().fold(first.number, |a, b| a.max(*b));
    let once = answer(&again(first, &first.sheet, largest))?;
    if chained == once {
        return Ok(());
    }
    Err(format!(
        "    then by {sizes:?}: {chained:?}\n    by {largest} at once: {once:?}\n"
    ))
}

/// Compares one chain, a call and then the same by other sizes, with one call by the largest.
fn check_chain(tally: &mut Tally, first: &Call, sizes: &[u64]) {
    let test = folding_of(first.name);
    tally.tried(&test);
    if compare_chain(first, sizes).is_err() && tally.differs(&test) {
        print_small(&test, first, |call| compare_chain(call, sizes));
    }
}

/// Compares the numbers that a damaged second call gives of what was passed on and of the first sheet.
fn check_passing(tally: &mut Tally, dice: &mut Dice, first: &Call, size: u64) {
    let Ok(passed) = answer(first) else {
        return;
    };
    let mut second = again(first, &passed, size);
    for _ in 0..dice.pick(&[1, 1, 2]) {
        damage(dice, &mut second);
    }
    if second.sheet != passed {
        // What is damaged was not passed on.
        return;
    }
    let of_the_first = Call {
        sheet: first.sheet.clone(),
        ..second.clone()
    };
    let test = passing_of(first.name);
    tally.tried(&test);
    let number = |call: &Call| perform(call).map(|(number, _)| number);
    if number(&second) != number(&of_the_first) && tally.differs(&test) {
        println!(
            "DIFFERENCE in {test}: {:?}, and {:?} of the first sheet",
            number(&second),
            number(&of_the_first)
        );
        print!("{}", describe(&second));
    }
}

/// A random chain of each filter, of two to four calls. The second is judged by the rules too, as every call is.
pub fn check_chains(tally: &mut Tally, dice: &mut Dice, scale: Scale) {
    for name in FILTERS {
        let first = sound_call(dice, name, scale);
        let sizes: Vec<u64> = (0..dice.pick(&[1, 1, 2, 3]))
            .map(|_| filter_size(dice, name, first.side, scale))
            .collect();
        if let Ok(passed) = answer(&first) {
            check(tally, &again(&first, &passed, sizes[0]));
        }
        check_chain(tally, &first, &sizes);
        check_passing(tally, dice, &first, sizes[0]);
    }
}
