//! A file that is named now and opened where it is read, so that a log may have more files
//! than a process may hold open.

use std::fs::{File, Metadata};
use std::io::{self, Read};
use std::os::unix::fs::MetadataExt;
use std::path::{Path, PathBuf};

pub struct Later {
    path: PathBuf,
    /// Device and number of the file that was meant.
    mark: (u64, u64),
    state: State,
}

enum State {
    Named,
    Open(File),
    Ended,
}

fn mark(about: &Metadata) -> (u64, u64) {
    (about.dev(), about.ino())
}

impl Later {
    pub fn new(path: &Path, about: &Metadata) -> Later {
        Later {
            path: path.to_path_buf(),
            mark: mark(about),
            state: State::Named,
        }
    }

    fn opened(&self) -> io::Result<File> {
        let file = File::open(&self.path)?;
        if mark(&file.metadata()?) == self.mark {
            Ok(file)
        } else {
            let told = "another file stands there since it was named";
            Err(io::Error::new(io::ErrorKind::Other, told))
        }
    }
}

impl Read for Later {
    fn read(&mut self, room: &mut [u8]) -> io::Result<usize> {
        if let State::Named = self.state {
            self.state = State::Open(self.opened()?);
        }
        let count = match &mut self.state {
            State::Open(file) => file.read(room)?,
            _ => 0,
        };
        if count == 0 && !room.is_empty() {
            self.state = State::Ended;
        }
        Ok(count)
    }
}
