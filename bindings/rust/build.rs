//! Links `liblazydfa.a`: from the folder that `LAZYDFA_LIB` names, from this crate's folder `lib`, from `bindings/c`,
//! where `make` builds it, or as pkg-config finds it.
use std::path::{Path, PathBuf};
use std::process::Command;
use std::{env, fs};

/// Tells cargo where `liblazydfa.a` is, and when to link it again. If there is none, builds it, or reports in
/// one line what is missing.
fn main() {
    println!("cargo::rerun-if-env-changed=LAZYDFA_LIB");
    match library() {
        Ok(folder) => {
            println!("cargo::rerun-if-changed={}", folder.join("liblazydfa.a").display());
            println!("cargo::rustc-link-search=native={}", folder.display());
            println!("cargo::rustc-link-lib=static=lazydfa");
        }
        Err(missing) => println!("cargo::error={missing}"),
    }
}

/// Returns the folder with `liblazydfa.a`, or what is missing.
fn library() -> Result<PathBuf, String> {
    if let Some(folder) = env::var_os("LAZYDFA_LIB").map(PathBuf::from) {
        let is_there = folder.join("liblazydfa.a").is_file();
        return if is_there { Ok(folder) } else { Err(no("LAZYDFA_LIB names a folder without it")) };
    }
    let crate_folder = PathBuf::from(env::var_os("CARGO_MANIFEST_DIR").expect("cargo sets it"));
    let packaged = crate_folder.join("lib").join(env::var("TARGET").expect("cargo sets it"));
    if packaged.join("liblazydfa.a").is_file() {
        return Ok(packaged);
    }
    let c = crate_folder.join("../c");
    if !c.join("lazydfa.pc.in").is_file() {
        return installed();
    }
    let folder = c.join("out");
    if !folder.join("liblazydfa.a").is_file() {
        make(&c)?;
    }
    Ok(folder)
}

/// Returns the folder with the archive that is installed, by pkg-config.
fn installed() -> Result<PathBuf, String> {
    let asked = Command::new("pkg-config").args(["--variable=libdir", "lazydfa"]).output();
    let folder = asked
        .ok()
        .filter(|said| said.status.success())
        .map(|said| PathBuf::from(String::from_utf8_lossy(&said.stdout).trim()));
    folder
        .filter(|folder| folder.join("liblazydfa.a").is_file())
        .ok_or_else(|| no("LAZYDFA_LIB names no folder with it, and pkg-config finds no package `lazydfa`"))
}

/// Builds `liblazydfa.a`. This proves the library if that was not done before, which takes a while.
fn make(c: &Path) -> Result<(), String> {
    for (program, option) in [("rt", "version"), ("make", "--version")] {
        if Command::new(program).arg(option).output().is_err() {
            return Err(no(&format!("`{program}`, which makes it, is not there either (README.md)")));
        }
    }
    let log = PathBuf::from(env::var_os("OUT_DIR").expect("cargo sets it")).join("make.log");
    let made = Command::new("make").arg("-C").arg(c).arg("out/liblazydfa.a").output();
    let made = made.map_err(|error| no(&format!("make: {error}")))?;
    if made.status.success() {
        return Ok(());
    }
    let written = fs::write(&log, [made.stdout, made.stderr].concat());
    written.map_err(|error| no(&format!("{}: {error}", log.display())))?;
    Err(no(&format!("`make` in bindings/c does not make it, as {} says", log.display())))
}

/// Returns a line that says that there is no library.
fn no(reason: &str) -> String {
    format!("there is no liblazydfa.a: {reason}")
}
