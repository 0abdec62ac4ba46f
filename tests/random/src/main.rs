//! Random tests of the library's C boundary against an implementation written from the definitions.
//!
//! Usage: `random [--seed N] [--rounds N] [--long] [--trace]`
//!
//! First come the sheets worked by hand, the largest sheets, and all calls of a small scale; then the random rounds.
//! Every round makes random calls of every function, sound and damaged, and compares the number and every lent slice
//! with what the rules say; it works runs of all kinds, whole and in slices, looks at them at their cuts, and compares
//! them with the definitions; it chains filters; and it compares maps with one another and with runs, and spectra with
//! opening levels and openings. The same seed and rounds give the same calls. `--trace` prints each call to standard error
//! before it is made, for a library that crashes. The last line is `random: N passed, M failed`, and the exit status is 0
//! exactly when M is 0.
#![deny(unsafe_code)]

mod call;
mod cases;
mod chains;
mod check;
mod damage;
mod definitions;
mod dice;
mod exhaustive;
mod guarded;
mod kinds;
mod looks;
mod maps;
mod pictures;
mod raw;
mod report;
mod rules;
mod shrink;
mod sound;
mod spectrum;

use std::env;
use std::process::ExitCode;
use std::time::{Instant, SystemTime, UNIX_EPOCH};

use call::Name;
use dice::Dice;
use kinds::Kind;
use report::Tally;
use sound::Scale;

const DEFAULT_ROUNDS: u64 = 10_000;
const LONG_ROUNDS: u64 = 500_000;
/// One round in so many has large sheets.
const LARGE_EVERY: u64 = 40;

struct Options {
    seed: u64,
    rounds: u64,
    traced: bool,
}

fn options() -> Result<Options, String> {
    let clock = SystemTime::now().duration_since(UNIX_EPOCH);
    let mut options = Options {
        // Another seed every time; it is printed, so that a failure can be had again.
        seed: clock.map_or(1, |time| u64::from(time.subsec_nanos()) ^ time.as_secs()),
        rounds: DEFAULT_ROUNDS,
        traced: false,
    };
    let mut arguments = env::args().skip(1);
    while let Some(argument) = arguments.next() {
        let mut number = || {
            let text = arguments.next().unwrap_or_default();
            text.parse()
                .map_err(|_| format!("{argument} takes a number, not \"{text}\""))
        };
        match argument.as_str() {
            "--seed" => options.seed = number()?,
            "--rounds" => options.rounds = number()?,
            "--trace" => options.traced = true,
            "--long" => options.rounds = LONG_ROUNDS,
            _ => return Err(format!("unknown argument {argument}")),
        }
    }
    Ok(options)
}

/// Names all tests beforehand, so that one that is never tried is missed.
fn expected_tests() -> Tally {
    let mut tally = Tally::default();
    for name in Name::ALL {
        tally.expect(check::test_of(name, 0));
        for reason in name.refusals() {
            tally.expect(check::test_of(name, *reason));
        }
    }
    for kind in Kind::ALL {
        for what in [
            "side 3",
            "side 5",
            "side 7",
            "asymmetric",
            "outer ring empty",
        ] {
            tally.expect(format!(
                "{} runs, {what}, equal the definitions",
                kind.name()
            ));
        }
        tally.expect(looks::test_of(kind));
    }
    for name in chains::FILTERS {
        tally.expect(chains::folding_of(name));
        tally.expect(chains::passing_of(name));
    }
    tally.expect(maps::ONE_SIZE.to_string());
    tally.expect(maps::BACKGROUND.to_string());
    for test in spectrum::TESTS {
        tally.expect(test.to_string());
    }
    tally
}

fn main() -> ExitCode {
    let options = match options() {
        Ok(options) => options,
        Err(sentence) => {
            eprintln!("random: {sentence}");
            eprintln!("usage: random [--seed N] [--rounds N] [--long] [--trace]");
            return ExitCode::from(2);
        }
    };
    println!("seed {}, {} rounds", options.seed, options.rounds);
    let begin = Instant::now();
    let mut tally = expected_tests();
    tally.traced = options.traced;
    cases::check_cases(&mut tally);
    exhaustive::check_small_sheets(&mut tally);
    exhaustive::check_small_spectra(&mut tally);
    exhaustive::check_headers(&mut tally);
    exhaustive::check_columns(&mut tally);
    exhaustive::check_edge_rules(&mut tally);
    for round in 0..options.rounds {
        // Every round has dice of its own, so that a change of one round leaves the others as they are.
        let mut dice = Dice::new(
            options
                .seed
                .wrapping_add(round.wrapping_mul(0x1234_5678_9ABC_DEF1)),
        );
        let scale = if round % LARGE_EVERY == LARGE_EVERY - 1 {
            Scale::Large
        } else {
            Scale::Small
        };
        check::check_calls(&mut tally, &mut dice, scale);
        check::check_runs(&mut tally, &mut dice, scale);
        check::check_there_and_back(&mut tally, &mut dice, scale);
        chains::check_chains(&mut tally, &mut dice, scale);
        maps::check_maps(&mut tally, &mut dice, scale);
        spectrum::check_spectra(&mut tally, &mut dice, scale);
    }
    println!("{:<52} {:>9}", "test", "tries");
    let (passed, failed) = tally.print();
    println!("{} seconds", begin.elapsed().as_secs());
    println!("random: {passed} passed, {failed} failed");
    if failed == 0 {
        ExitCode::SUCCESS
    } else {
        ExitCode::FAILURE
    }
}
