//! Finds the static library and links it. `MANDROZSI_ARCHIVE` names it, and it is an error where the one named is not there; without that it is
//! target/staticlib/libexports.a of the repository, which `.ci/archive` writes there and which is for x86-64 (on AArch64 `bindings/native` makes
//! one that can be named). Where there is none, the crate is still built, with no function behind its declarations, and the configuration `linked` is
//! not set. The tests then find functions of the declarations' names in tests/boundary/served.rs, which hand each call to the process that
//! `MANDROZSI_SERVE` names (the configuration `served`); without one either, those that need the library are ignored.
use std::path::{Path, PathBuf};
use std::{env, fs, process};

fn main() {
    println!("cargo:rerun-if-env-changed=MANDROZSI_ARCHIVE");
    println!("cargo:rerun-if-env-changed=MANDROZSI_SERVE");
    match archive() {
        Ok(archive) => link(&archive),
        Err(_) if env::var_os("MANDROZSI_SERVE").is_some() => println!("cargo:rustc-cfg=served"),
        Err(why) => println!("cargo:warning={why}: built without it"),
    }
}

/// The archive to link, or why there is none; one that was asked for by name must be there.
fn archive() -> Result<PathBuf, String> {
    let x86_64 = env::var("CARGO_CFG_TARGET_ARCH").as_deref() == Ok("x86_64");
    let named = env::var_os("MANDROZSI_ARCHIVE");
    let archive = match &named {
        Some(named) => PathBuf::from(named),
        None if x86_64 => Path::new(&env::var_os("CARGO_MANIFEST_DIR").unwrap()).join("../../target/staticlib/libexports.a"),
        None => return Err("libexports.a is for x86-64 and this is another processor".into()),
    };
    println!("cargo:rerun-if-changed={}", archive.display());
    let shown = archive.display();
    match (archive.is_file(), named) {
        (true, _) => Ok(archive),
        (false, None) => Err(format!("{shown} is not there (.ci/archive writes it)")),
        (false, Some(_)) => stop(&format!(
            "MANDROZSI_ARCHIVE names {shown:?}, and there is no such file. Name the archive that `.ci/archive` writes by its whole path, or \
             leave the variable unset."
        )),
    }
}

/// Ends the build with a sentence.
fn stop(why: &str) -> ! {
    eprintln!("{why}");
    process::exit(1)
}

fn link(archive: &Path) {
    let out = PathBuf::from(env::var_os("OUT_DIR").unwrap());
    if let Err(why) = fs::copy(archive, out.join("libmandrozsi_exports.a")) {
        stop(&format!("{} cannot be read: {why}", archive.display()));
    }
    println!("cargo:rustc-link-search=native={}", out.display());
    println!("cargo:rustc-link-lib=static=mandrozsi_exports");
    println!("cargo:rustc-cfg=linked");
}
