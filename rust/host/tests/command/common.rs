//! Runs the command `egretfold` from the repository's root, as a user would.

use compare::records::{record, MIDNIGHT, WORD};
use serde_json::Value;
use std::fs;
use std::io::Write;
use std::path::{Path, PathBuf};
use std::process::{Command, Output, Stdio};
use std::sync::atomic::{AtomicU32, Ordering};

/// The repository's root, so that samples/ is named as a user names it.
pub fn root() -> PathBuf {
    Path::new(env!("CARGO_MANIFEST_DIR")).join("../..")
}

/// Runs the command with these arguments, parted by blanks, and this input.
pub fn egretfold(arguments: &str, input: &[u8]) -> Output {
    let mut command = Command::new(env!("CARGO_BIN_EXE_egretfold"));
    command.args(arguments.split_whitespace());
    with_input(command, input)
}

/// Runs a line of the shell, where `egretfold` is this build's.
pub fn shell(line: &str) -> Output {
    let built = Path::new(env!("CARGO_BIN_EXE_egretfold")).parent();
    let built = built.expect("it stands in a folder").display();
    let path = std::env::var("PATH").unwrap_or_default();
    let mut shell = Command::new("sh");
    shell
        .args(["-c", line])
        .env("PATH", format!("{built}:{path}"));
    with_input(shell, b"")
}

pub fn with_input(mut command: Command, input: &[u8]) -> Output {
    command
        .current_dir(root())
        .stdin(Stdio::piped())
        .stdout(Stdio::piped())
        .stderr(Stdio::piped());
    let mut child = command.spawn().expect("the command runs");
    let mut stdin = child.stdin.take().expect("it has an input");
    let input = input.to_vec();
    // Apart from the reading, so that long output can't hold up long input. One
    // that ends before its input does closes it: that is no fault here.
    let writer = std::thread::spawn(move || drop(stdin.write_all(&input)));
    let output = child.wait_with_output().expect("the command ends");
    writer.join().expect("the input is written");
    output
}

/// Runs the command on these pieces of input. Gives its output, and the most
/// kilobytes that it had by Linux's own account, read while it waits for more.
pub fn peak_on(arguments: &str, pieces: impl Iterator<Item = Vec<u8>>) -> (Output, u64) {
    let mut child = Command::new(env!("CARGO_BIN_EXE_egretfold"))
        .args(arguments.split_whitespace())
        .stdin(Stdio::piped())
        .stdout(Stdio::piped())
        .spawn()
        .expect("the command runs");
    let mut stdin = child.stdin.take().expect("it has an input");
    for piece in pieces {
        stdin.write_all(&piece).expect("the input is taken");
    }
    let status = fs::read_to_string(format!("/proc/{}/status", child.id())).expect("Linux tells");
    drop(stdin);
    let output = child.wait_with_output().expect("the command ends");
    (output, peak(&status).expect("the account has the peak"))
}

fn peak(status: &str) -> Option<u64> {
    let line = status.lines().find(|line| line.starts_with("VmHWM:"))?;
    line.split_whitespace().nth(1)?.parse().ok()
}

/// What stands on standard output.
pub fn told(output: &Output) -> String {
    String::from_utf8(output.stdout.clone()).expect("text")
}

/// What stands on standard error.
pub fn complained(output: &Output) -> String {
    String::from_utf8(output.stderr.clone()).expect("text")
}

/// What no stored file can know: the commit that the command is built from, and the archive that it is linked with.
pub struct Unknown {
    version: String,
    archive: String,
}

impl Unknown {
    pub fn now() -> Unknown {
        let version = told(&egretfold("-V", b""));
        Unknown {
            version: version.trim().trim_start_matches("egretfold ").to_string(),
            archive: archive(),
        }
    }

    /// The text with a word in the place of each.
    pub fn taken_from(&self, text: &str) -> String {
        let text = text.replace(&self.version, "VERSION");
        text.replace(&self.archive, "ARCHIVE")
    }
}

/// The SHA-256 of the archive, as `--version` tells it.
pub fn archive() -> String {
    let version = told(&egretfold("--version", b""));
    let digest = version.trim().rsplit(": ").next();
    digest.expect("the last line has it").to_string()
}

/// The last line, which is JSON.
pub fn last_line(text: &str) -> Value {
    let line = text.lines().last().expect("a line");
    serde_json::from_str(line).expect("JSON")
}

/// The bytes of a file in samples/.
pub fn sample(name: &str) -> Vec<u8> {
    fs::read(root().join("samples").join(name)).expect("the sample is there")
}

pub fn words(words: &[u32]) -> Vec<u8> {
    words.iter().flat_map(|word| record(WORD, *word)).collect()
}

pub fn midnights(days: std::ops::Range<u32>) -> Vec<u8> {
    days.flat_map(|day| record(MIDNIGHT, day)).collect()
}

/// A folder of a test's own, gone when the test is over.
pub struct Folder(pub PathBuf);

impl Folder {
    pub fn new(name: &str) -> Folder {
        // Several tests may ask for one name at once.
        static MADE: AtomicU32 = AtomicU32::new(0);
        let number = MADE.fetch_add(1, Ordering::Relaxed);
        let name = format!("egretfold-{name}-{}-{number}", std::process::id());
        let folder = std::env::temp_dir().join(name);
        fs::create_dir_all(&folder).expect("a folder to write in");
        Folder(folder)
    }

    /// Writes a file and gives its name.
    pub fn write(&self, name: &str, bytes: &[u8]) -> String {
        let file = self.0.join(name);
        fs::write(&file, bytes).expect("the file is written");
        file.display().to_string()
    }
}

impl Drop for Folder {
    fn drop(&mut self) {
        let _ = fs::remove_dir_all(&self.0);
    }
}
