//! Compiles the C, and the shims over OpenCV and leptonica where these are installed; where they are not, the shims say so. The
//! crate `walugtirim` brings the verified library.

use std::env;
use std::path::{Path, PathBuf};
use std::process::Command;

fn main() {
    println!("cargo:rerun-if-changed=c");
    // A header that is not there makes cargo run this again, so libraries installed later are found.
    println!("cargo:rerun-if-changed=/usr/include/opencv4/opencv2/imgproc.hpp");
    println!("cargo:rerun-if-changed=/usr/include/leptonica/allheaders.h");
    println!("cargo:rerun-if-env-changed=CC");
    println!("cargo:rerun-if-env-changed=CXX");
    let c = env::var("CC").unwrap_or_else(|_| "cc".to_string());
    let cxx = env::var("CXX").unwrap_or_else(|_| "c++".to_string());
    for name in ["plain", "tuned", "pictures", "clock"] {
        assert!(
            compile(&c, &format!("{name}.c"), &format!("bench_{name}"), &[]),
            "can't compile c/{name}.c"
        );
    }

    let opencv_flags = flags_of("opencv4", "-I/usr/include/opencv4");
    let opencv_libraries = ["opencv_imgproc", "opencv_core", "stdc++"];
    compile_shim(
        &cxx,
        "opencv.cpp",
        "opencv_shim",
        &opencv_flags,
        &opencv_libraries,
    );
    let leptonica_flags = flags_of("lept", "-I/usr/include");
    compile_shim(
        &c,
        "leptonica.c",
        "leptonica_shim",
        &leptonica_flags,
        &["lept"],
    );
}

/// What pkg-config says is needed to find a library's headers, or where Debian has them.
fn flags_of(package: &str, otherwise: &str) -> Vec<String> {
    let answer = Command::new("pkg-config")
        .args(["--cflags", package])
        .output();
    match answer {
        Ok(answer) if answer.status.success() => String::from_utf8_lossy(&answer.stdout)
            .split_whitespace()
            .map(str::to_string)
            .collect(),
        _ => vec![otherwise.to_string()],
    }
}

/// Compiles the shim over some libraries, and links these; where they are not installed, the shim says so.
fn compile_shim(compiler: &str, file: &str, archive: &str, flags: &[String], libraries: &[&str]) {
    if compile(compiler, file, archive, flags) {
        for library in libraries {
            println!("cargo:rustc-link-lib={library}");
        }
    } else {
        let absent = ["-DNOT_INSTALLED".to_string()];
        assert!(
            compile(compiler, file, archive, &absent),
            "can't compile c/{file}"
        );
    }
}

/// Compiles one file into an archive of its own and links that; answers whether it could be compiled.
fn compile(compiler: &str, file: &str, archive: &str, flags: &[String]) -> bool {
    let out = PathBuf::from(env::var_os("OUT_DIR").expect("cargo sets OUT_DIR"));
    let object = out.join(format!("{archive}.o"));
    let library = out.join(format!("lib{archive}.a"));
    let compiled = run(Command::new(compiler)
        .args(["-O3", "-Wall", "-Wextra", "-c"])
        .args(flags)
        .arg(Path::new("c").join(file))
        .arg("-o")
        .arg(&object));
    if !compiled {
        return false;
    }
    assert!(
        run(Command::new("ar").arg("crs").arg(&library).arg(&object)),
        "ar failed"
    );
    println!("cargo:rustc-link-search=native={}", out.display());
    println!("cargo:rustc-link-lib=static={archive}");
    true
}

fn run(command: &mut Command) -> bool {
    command.output().is_ok_and(|output| output.status.success())
}
