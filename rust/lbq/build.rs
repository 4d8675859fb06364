//! Finds the proved library's archive, liblbq.a: in LBQ_LIB_DIR, or where `make lib` writes it. The header beside it
//! has to be of the version that this crate is written for.

use std::env;
use std::fs;
use std::path::{Path, PathBuf};
use std::process::ExitCode;

include!("src/version.rs");

fn main() -> ExitCode {
    let here = Path::new(env!("CARGO_MANIFEST_DIR"));
    match versions_agree(&here.join("../../include/lbq.h")).and_then(|()| archive(here)) {
        Ok(folder) => {
            println!("cargo:rustc-link-search=native={}", folder.display());
            println!("cargo:rustc-link-lib=static=lbq");
            ExitCode::SUCCESS
        }
        Err(wrong) => {
            eprintln!("{wrong}");
            ExitCode::FAILURE
        }
    }
}

fn versions_agree(header: &Path) -> Result<(), String> {
    println!("cargo:rerun-if-changed={}", header.display());
    let text = fs::read_to_string(header).map_err(|wrong| format!("{}: {wrong}", header.display()))?;
    let number = text.lines().find_map(|line| line.strip_prefix("#define LBQ_VERSION "));
    match number.and_then(|number| number.trim().parse::<u32>().ok()) {
        Some(VERSION) => Ok(()),
        Some(number) => Err(format!("{} is version {number}, and this crate is for {VERSION}", header.display())),
        None => Err(format!("{} has no line `#define LBQ_VERSION` with a number", header.display())),
    }
}

/// The folder of the archive.
fn archive(here: &Path) -> Result<PathBuf, String> {
    println!("cargo:rerun-if-env-changed=LBQ_LIB_DIR");
    let folder = env::var_os("LBQ_LIB_DIR").map_or_else(|| here.join("../../target/staticlib"), PathBuf::from);
    let archive = folder.join("liblbq.a");
    println!("cargo:rerun-if-changed={}", archive.display());
    if archive.is_file() {
        return Ok(folder);
    }
    Err(format!("{} is not there: `make lib` writes it, or LBQ_LIB_DIR names its folder", archive.display()))
}
