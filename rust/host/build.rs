//! The version that the command tells: the package's, and the commit that it is
//! built from where git knows one, with a + where files have changed since; the kit
//! that proved what it is linked with; and the SHA-256 of that archive.

use std::env;
use std::process::Command;

fn main() {
    println!("cargo:rerun-if-changed=build.rs");
    println!("cargo:rerun-if-changed=src");
    println!("cargo:rerun-if-changed=../egretfold/src");
    // A commit writes here, whatever the folder of the repository's own files is.
    if let Some(path) = git(&["rev-parse", "--git-path", "logs/HEAD"]) {
        println!("cargo:rerun-if-changed={path}");
    }
    let version = env!("CARGO_PKG_VERSION");
    let version = match git(&["rev-parse", "--short=12", "HEAD"]) {
        Some(commit) => format!("{version} ({commit}{})", changed()),
        None => version.to_string(),
    };
    println!("cargo:rustc-env=EGRETFOLD_VERSION={version}");
    // The crate egretfold tells it, by the record beside the archive.
    let kit = env::var("DEP_EGRETFOLD_KIT").unwrap_or_default();
    let kit = match kit.as_str() {
        "" => "a kit that was not recorded",
        kit => kit,
    };
    println!("cargo:rustc-env=EGRETFOLD_PROVED_WITH={kit}");
    let archive = env::var("DEP_EGRETFOLD_SHA256").unwrap_or_default();
    println!("cargo:rustc-env=EGRETFOLD_ARCHIVE_SHA256={archive}");
}

fn changed() -> &'static str {
    let sources = [
        "status",
        "--porcelain",
        "--",
        "../../crates",
        "..",
        "../../include",
    ];
    match git(&sources) {
        Some(_) => "+",
        None => "",
    }
}

/// What git says, if it says anything.
fn git(arguments: &[&str]) -> Option<String> {
    let output = Command::new("git").args(arguments).output().ok()?;
    let text = String::from_utf8(output.stdout).ok()?;
    let text = text.trim().to_string();
    (output.status.success() && !text.is_empty()).then_some(text)
}
