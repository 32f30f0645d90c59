//! Finds the static library that this crate is linked with, libegretfold.a: in
//! the folder that the environment variable EGRETFOLD_LIB names, else in the
//! repository's own target/staticlib, or, where this crate was installed, in the
//! same prefix's lib.

use std::env;
use std::fs::{self, File};
use std::path::{Path, PathBuf};
use std::process::{exit, Command};

const ARCHIVE: &str = "libegretfold.a";
/// Where `./install` puts this crate, below its prefix.
const INSTALLED: &str = "share/egretfold/rust/egretfold";

fn main() {
    println!("cargo:rerun-if-env-changed=EGRETFOLD_LIB");
    println!("cargo:rerun-if-changed=build.rs");
    let folder = folder();
    let archive = folder.join(ARCHIVE);
    // Named also where it is missing, so that the next build looks again.
    println!("cargo:rerun-if-changed={}", archive.display());
    if !archive.is_file() {
        give_up(&archive);
    }
    println!("cargo:rustc-link-search=native={}", folder.display());
    println!("cargo:rustc-link-lib=static=egretfold");
    println!("cargo:rustc-env=EGRETFOLD_ARCHIVE={}", archive.display());
    let kit = kit(&folder);
    println!("cargo:rustc-env=EGRETFOLD_KIT={kit}");
    // For the build script of a crate that uses this one: DEP_EGRETFOLD_KIT and DEP_EGRETFOLD_SHA256.
    println!("cargo:kit={kit}");
    println!("cargo:sha256={}", sha256(&archive));
}

/// The archive's SHA-256 in hex, by coreutils, so that this crate needs no other.
fn sha256(archive: &Path) -> String {
    // From standard input: behind a name with a backslash it would escape the line.
    let told = File::open(archive).and_then(|file| Command::new("sha256sum").stdin(file).output());
    let told = match told {
        Ok(told) => String::from_utf8_lossy(&told.stdout).into_owned(),
        Err(error) => {
            eprintln!(
                "sha256sum could not be run on {}: {error}",
                archive.display()
            );
            exit(1)
        }
    };
    told.split_whitespace()
        .next()
        .unwrap_or_default()
        .to_string()
}

/// The kit that proved the archive, by the record that tools/prepare puts beside it
/// and `./install` beside this crate's folder; empty where there is none.
fn kit(folder: &Path) -> String {
    let record = if is_installed() {
        manifest_folder().join("../../kit.txt")
    } else {
        folder.join("kit.txt")
    };
    println!("cargo:rerun-if-changed={}", record.display());
    let text = fs::read_to_string(record).unwrap_or_default();
    text.lines().next().unwrap_or_default().trim().to_string()
}

fn is_installed() -> bool {
    manifest_folder().ends_with(INSTALLED)
}

/// The folder that should hold the archive, as a full path where it exists.
fn folder() -> PathBuf {
    let folder = match env::var_os("EGRETFOLD_LIB") {
        Some(folder) => PathBuf::from(folder),
        None if is_installed() => manifest_folder().join("../../../../lib"),
        None => manifest_folder().join("../../target/staticlib"),
    };
    folder.canonicalize().unwrap_or(folder)
}

fn manifest_folder() -> PathBuf {
    let folder = env::var_os("CARGO_MANIFEST_DIR");
    PathBuf::from(folder.expect("cargo names the manifest's folder"))
}

fn give_up(archive: &Path) -> ! {
    eprintln!("There is no {}.", archive.display());
    eprintln!("Run `tools/prepare` at the repository's root first, which builds it,");
    eprintln!("or let EGRETFOLD_LIB name the folder that holds {ARCHIVE}.");
    exit(1)
}
