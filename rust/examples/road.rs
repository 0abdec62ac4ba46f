//! Dilates each foreground point of a raw PBM file, with the cross, by the size that a map gives at it, and prints the
//! sheet and below it the dilated one. The map is a plain PGM file of the same frame; its maximum is the cap.
//!
//! Usage: `road FILE.pbm SIZES.pgm`

use std::error::Error;
use std::path::Path;
use std::process::ExitCode;
use std::{env, fs};

use walugtirim::{Element, Sheet};

fn main() -> ExitCode {
    let names: Vec<_> = env::args_os().skip(1).collect();
    let [sheet, sizes] = names.as_slice() else {
        eprintln!("usage: road FILE.pbm SIZES.pgm");
        return ExitCode::from(2);
    };
    match pictures_of(Path::new(sheet), Path::new(sizes)) {
        Ok(text) => {
            print!("{text}");
            ExitCode::SUCCESS
        }
        Err(error) => {
            eprintln!("road: {error}");
            ExitCode::FAILURE
        }
    }
}

fn pictures_of(sheet: &Path, sizes: &Path) -> Result<String, Box<dyn Error>> {
    let sheet = Sheet::read_pbm(&bytes_of(sheet)?)?;
    let numbers = numbers_of(&String::from_utf8(bytes_of(sizes)?)?)?;
    let [width, height, cap, map @ ..] = numbers.as_slice() else {
        return Err("the map's header is short".into());
    };
    // The library sees no frame of the map, only its length.
    if (u64::from(*width), u64::from(*height)) != (sheet.width, sheet.height) {
        return Err("the map has another frame than the sheet".into());
    }
    let dilated = sheet.dilate_by_map(&Element::cross(), u64::from(*cap), map)?;
    Ok(text_of(&sheet) + "\n" + &text_of(&dilated))
}

fn bytes_of(name: &Path) -> Result<Vec<u8>, String> {
    fs::read(name).map_err(|error| format!("{}: {error}", name.display()))
}

/// The numbers of a plain PGM, remarks left out: width, height, maximum, and the sizes row by row.
fn numbers_of(file: &str) -> Result<Vec<u16>, Box<dyn Error>> {
    let mut words = file
        .lines()
        .filter_map(|line| line.split('#').next())
        .flat_map(str::split_ascii_whitespace);
    if words.next() != Some("P2") {
        return Err("the map doesn't begin with P2".into());
    }
    Ok(words.map(str::parse).collect::<Result<_, _>>()?)
}

fn text_of(sheet: &Sheet) -> String {
    let line = |row| -> String {
        (0..sheet.width)
            .map(|column| if sheet.pixel(column, row) { '#' } else { '.' })
            .collect()
    };
    (0..sheet.height).map(|row| line(row) + "\n").collect()
}
