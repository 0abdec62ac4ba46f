//! Holds the documents to the files that they speak of.
//!
//! Usage: `documents ROOT`
//!
//! - Each C function of the header is a public call, and no public call has a `requires`.
//! - `docs/PROMISES.md` has a row for each public call, and lists what a reader must believe: the files that the contracts of
//!   public calls and the theorems named there reach through their `use` lines, each with its lines, and no other.
//! - `README.md` has the same totals, a row for each C function, and an opening that stays short.
//! - `docs/RULES.md` has each C function's refusals in the header's order.
//! - The files and the Rust calls that documents name are there.
//!
//! Prints a line for each check, and what is wrong below it. The last line is `documents: N passed, M failed`, and the exit
//! status is 0 exactly when M is 0.
#![forbid(unsafe_code)]

mod boundary;
mod names;
mod promises;
mod sources;

use std::env;
use std::fmt::Debug;
use std::path::Path;
use std::process::ExitCode;

use promises::{Belief, Promises};
use sources::{read, Sources};

/// The most words before README's first heading.
const OPENING_WORDS: usize = 150;

/// What was checked so far.
#[derive(Default)]
struct Tally {
    passed: usize,
    failed: usize,
}

impl Tally {
    /// Counts one check, which passed where nothing is wrong.
    fn check(&mut self, name: &str, wrong: Vec<String>) {
        if wrong.is_empty() {
            self.passed += 1;
            println!("ok      {name}");
        } else {
            self.failed += 1;
            println!("FAILED  {name}");
        }
        for sentence in wrong {
            println!("        {sentence}");
        }
    }
}

/// A sentence for each entry that one of two lists has and the other has not.
fn differing<T: PartialEq + Debug>(found: &[T], wanted: &[T]) -> Vec<String> {
    let strange = found.iter().filter(|entry| !wanted.contains(entry));
    let missing = wanted.iter().filter(|entry| !found.contains(entry));
    let mut wrong: Vec<String> = strange.map(|entry| format!("{entry:?} is wrong")).collect();
    wrong.extend(missing.map(|entry| format!("{entry:?} is missing")));
    if wrong.is_empty() && found != wanted {
        wrong.push(format!("{found:?} is not {wanted:?}"));
    }
    wrong
}

fn check_promises(tally: &mut Tally, sources: &Sources, promises: &Promises) {
    let belief = Belief::of(sources, promises);
    tally.check(
        "PROMISES: every theorem named is declared",
        belief.undeclared.clone(),
    );
    tally.check(
        "PROMISES: a row for each public call, with its contract",
        promises.wrong_contracts(sources),
    );
    tally.check(
        "PROMISES: every module used is a file",
        belief.unreadable.clone(),
    );
    tally.check(
        "PROMISES: no file that must be believed is missing",
        belief.missing(promises),
    );
    tally.check(
        "PROMISES: no file is listed that nothing needs",
        belief.needless(promises),
    );
    tally.check(
        "PROMISES: each file has so many lines",
        promises.wrong_counts(sources),
    );
    tally.check(
        "PROMISES: the lines add up",
        differing(&promises.totals, &promises.sums()),
    );
}

/// That the header's functions are the public ones, and that no public call asks anything of its caller.
fn check_calls(tally: &mut Tally, sources: &Sources, functions: &[String]) {
    let public = sources.functions();
    let names: Vec<String> = public.keys().cloned().collect();
    tally.check("the header's functions", differing(functions, &names));
    let calls = sources.calls().into_iter().chain(public);
    let asking = calls.filter(|(_, contract)| contract.contains("requires"));
    tally.check(
        "no public call has a `requires`",
        asking.map(|(call, _)| call).collect(),
    );
}

fn check_readme(tally: &mut Tally, root: &Path, promises: &Promises, functions: &[String]) {
    let readme = read(root, "README.md");
    let totals = promises::numbers_before(&readme, "lines");
    tally.check(
        "README: the lines that must be believed",
        differing(&totals, &promises.sums()),
    );
    let words = boundary::opening_words(&readme);
    let long = (words >= OPENING_WORDS).then(|| format!("the opening has {words} words"));
    tally.check("README: a short opening", long.into_iter().collect());
    let rows = readme.lines().filter(|line| line.starts_with('|'));
    let rows: String = rows.collect();
    tally.check(
        "README: a row for each C function, and no other",
        differing(&boundary::functions_named(&rows), functions),
    );
    let source = read(root, "rust/src/lib.rs");
    tally.check(
        "README: every Rust call that it names",
        names::lost_calls(&source, &readme),
    );
}

fn check_rules(tally: &mut Tally, rules: &str, header: &str) {
    tally.check(
        "RULES: the refusals of each C function, in order",
        differing(
            &boundary::orders_of_rules(rules),
            &boundary::orders_of_header(header),
        ),
    );
    tally.check(
        "RULES: the numbers of the header",
        differing(
            &boundary::numbers_of_rules(rules),
            &boundary::numbers_of_header(header),
        ),
    );
}

fn check_files(tally: &mut Tally, root: &Path) {
    let lost = names::DOCUMENTS.into_iter().flat_map(|document| {
        let lost = names::lost_files(root, &read(root, document));
        lost.into_iter()
            .map(move |lost| format!("{document}: {lost}"))
    });
    tally.check("every file that a document names", lost.collect());
}

fn main() -> ExitCode {
    let Some(root) = env::args_os().nth(1) else {
        eprintln!("usage: documents ROOT");
        return ExitCode::from(2);
    };
    let root = Path::new(&root);
    let promises = Promises::parse(&read(root, "docs/PROMISES.md"));
    let header = read(root, "include/walugtirim.h");
    let orders = boundary::orders_of_header(&header);
    let functions: Vec<String> = orders.into_iter().map(|(name, _)| name).collect();

    let sources = Sources::read(root);
    let mut tally = Tally::default();
    check_calls(&mut tally, &sources, &functions);
    check_promises(&mut tally, &sources, &promises);
    check_readme(&mut tally, root, &promises, &functions);
    check_rules(&mut tally, &read(root, "docs/RULES.md"), &header);
    check_files(&mut tally, root);
    println!(
        "documents: {} passed, {} failed",
        tally.passed, tally.failed
    );
    if tally.failed == 0 {
        ExitCode::SUCCESS
    } else {
        ExitCode::FAILURE
    }
}
