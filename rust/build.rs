//! Links the verified library: `libharness.a` in the directory that `WALUGTIRIM_LIB_DIR` names, or else where
//! `rt lib --cpu x86-64` in `crates/harness` puts it. Where it is not there, or is for another processor, the build ends
//! with a sentence that says what to do. It is also the build script of `tests/random`.

use std::path::{Path, PathBuf};
use std::process::ExitCode;
use std::{env, fs, str};

/// The processors that are told apart: the number that ELF has for each, and cargo's name.
const PROCESSORS: [(u16, &str); 2] = [(62, "x86_64"), (183, "aarch64")];

fn main() -> ExitCode {
    // Asked for when it runs, as clones may share a target directory and so this program.
    let package = env::var_os("CARGO_MANIFEST_DIR").expect("cargo sets CARGO_MANIFEST_DIR");
    let package = Path::new(&package);
    let directory = match env::var_os("WALUGTIRIM_LIB_DIR") {
        Some(named) => package.join(named),
        None => built_directory(package),
    };
    let archive = directory.join("libharness.a");
    if let Some(complaint) = missing(&archive).or_else(|| foreign(&archive)) {
        eprintln!("{complaint}");
        return ExitCode::FAILURE;
    }
    println!("cargo:rerun-if-env-changed=WALUGTIRIM_LIB_DIR");
    println!("cargo:rerun-if-changed={}", archive.display());
    println!("cargo:rustc-link-search=native={}", directory.display());
    println!("cargo:rustc-link-lib=static=harness");
    ExitCode::SUCCESS
}

/// `crates/harness/out` of the project, which is the nearest directory above with the list of its crates.
fn built_directory(package: &Path) -> PathBuf {
    let project = package
        .ancestors()
        .find(|above| above.join("crates.txt").is_file());
    project.unwrap_or(package).join("crates/harness/out")
}

/// What to do where there is no archive.
fn missing(archive: &Path) -> Option<String> {
    let name = archive.display();
    (!archive.is_file()).then(|| {
        format!("there is no {name}: run `rt lib --cpu x86-64` in crates/harness, or name the archive's directory in WALUGTIRIM_LIB_DIR")
    })
}

/// What to do where the archive is for another processor than the build; nothing where one of them is not known here.
fn foreign(archive: &Path) -> Option<String> {
    let machine = machine_of(&fs::read(archive).ok()?)?;
    let target = env::var("CARGO_CFG_TARGET_ARCH").ok()?;
    let (_, made_for) = PROCESSORS.iter().find(|(number, _)| *number == machine)?;
    let (_, built_for) = PROCESSORS.iter().find(|(_, name)| *name == target)?;
    let advice = if *made_for == "x86_64" {
        "put `./x86-64` in front of the command (`../x86-64` from within rust/), or name the directory of an archive \
         for this processor in WALUGTIRIM_LIB_DIR (`bench/native` makes one)"
    } else {
        "leave WALUGTIRIM_LIB_DIR unset and run `rt lib --cpu x86-64` in crates/harness, which makes one for x86_64"
    };
    let name = archive.display();
    (made_for != built_for)
        .then(|| format!("{name} is for {made_for} and the build for {built_for}: {advice}"))
}

/// ELF's number of the processor that the first object of an `ar` archive is for.
fn machine_of(archive: &[u8]) -> Option<u16> {
    let mut rest = archive.strip_prefix(b"!<arch>\n")?;
    loop {
        // A header of 60 bytes, with the size as digits, then the member, padded to an even length.
        let size = str::from_utf8(rest.get(48..58)?).ok()?;
        let size: usize = size.trim_end().parse().ok()?;
        let members = rest.get(60..)?;
        if let [0x7F, b'E', b'L', b'F', object @ ..] = members.get(..size)? {
            return Some(u16::from_le_bytes([*object.get(14)?, *object.get(15)?]));
        }
        rest = members.get(size + size % 2..)?;
    }
}
