//! Erodes a raw PBM file with the cross and prints the levels, one row of the frame a line.
//!
//! Usage: `erode FILE.pbm`

use std::error::Error;
use std::process::ExitCode;
use std::{env, fs};

use walugtirim::{Element, Run, Sheet};

fn main() -> ExitCode {
    let Some(name) = env::args_os().nth(1) else {
        eprintln!("usage: erode FILE.pbm");
        return ExitCode::from(2);
    };
    match fs::read(name)
        .map_err(Box::from)
        .and_then(|file| levels_of(&file))
    {
        Ok(text) => {
            print!("{text}");
            ExitCode::SUCCESS
        }
        Err(error) => {
            eprintln!("erode: {error}");
            ExitCode::FAILURE
        }
    }
}

fn levels_of(file: &[u8]) -> Result<String, Box<dyn Error>> {
    let sheet = Sheet::read_pbm(file)?;
    let mut run = Run::start_erosion(&sheet, &Element::cross())?;
    run.finish()?;
    let levels = run.collect()?;
    // An accepted sheet is at most 4,096 wide, so its width is also a count of levels.
    let width = usize::try_from(sheet.width)?;
    let lines: Vec<String> = levels
        .chunks(width)
        .map(|row| row.iter().map(u16::to_string).collect::<Vec<_>>().join(" "))
        .collect();
    Ok(lines.join("\n") + "\n")
}
