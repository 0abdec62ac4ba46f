//! Prints the spectrum of a raw PBM file by the cross: for each opening level that any point has, how many points have it,
//! with a bar. Below stand the mean level over the foreground and the share of it at level 1.
//!
//! Usage: `spectrum FILE.pbm`

use std::error::Error;
use std::path::Path;
use std::process::ExitCode;
use std::{env, fs};

use walugtirim::{Element, Sheet};

/// The longest bar.
const BAR_COLUMNS: u64 = 50;

fn main() -> ExitCode {
    let names: Vec<_> = env::args_os().skip(1).collect();
    let [name] = names.as_slice() else {
        eprintln!("usage: spectrum FILE.pbm");
        return ExitCode::from(2);
    };
    match chart_of(Path::new(name)) {
        Ok(text) => {
            print!("{text}");
            ExitCode::SUCCESS
        }
        Err(error) => {
            eprintln!("spectrum: {error}");
            ExitCode::FAILURE
        }
    }
}

fn chart_of(name: &Path) -> Result<String, Box<dyn Error>> {
    let file = fs::read(name).map_err(|error| format!("{}: {error}", name.display()))?;
    let spectrum = Sheet::read_pbm(&file)?.spectrum(&Element::cross())?;
    let mut lines = vec!["level    points".to_string()];
    // The background has no bar: beside it the others would be short.
    lines.push(format!("    0  {:>8}  background", spectrum.points(0)));
    lines.extend(bars_of(spectrum.table()));
    let (mean, share) = (spectrum.mean_level(), spectrum.share_at_level_one());
    lines.push(format!("mean level over the foreground  {mean:.3}"));
    lines.push(format!("share of it at level 1          {share:.3}"));
    Ok(lines.join("\n") + "\n")
}

/// A line for each level from 1 that any point has; dots stand for the levels between that none has.
fn bars_of(table: &[u64]) -> Vec<String> {
    let levels = table.iter().copied().enumerate().skip(1);
    let largest = levels.clone().map(|(_, points)| points).max().unwrap_or(0);
    let mut lines = Vec::new();
    let mut next = 1;
    for (level, points) in levels.filter(|(_, points)| *points > 0) {
        if level > next {
            lines.push("  ...".to_string());
        }
        next = level + 1;
        // Rounded up, so that a single point is seen beside millions; no number is above BAR_COLUMNS.
        let columns = (points * BAR_COLUMNS).div_ceil(largest);
        let bar = "#".repeat(columns as usize);
        lines.push(format!("{level:>5}  {points:>8}  {bar}"));
    }
    lines
}
