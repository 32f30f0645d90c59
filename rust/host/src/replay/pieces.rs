//! The inputs of a log, known by their bytes: one that is given twice, by whatever name, packed or not, would count twice.

use crate::common::digest::Finished;
use crate::common::text;
use crate::replay::kept::Piece;
use crate::replay::resumed::Resumed;
use clap::Args;
use std::collections::HashMap;

#[derive(Args)]
pub struct RepeatOption {
    /// Take inputs that have the same bytes as another one of the same log: where a station really sent them twice
    #[arg(long)]
    pub repeated_pieces: bool,
}

/// The inputs read so far, and those that the state tells of which the log goes on from.
pub struct Pieces {
    names: HashMap<Finished, String>,
}

impl Pieces {
    pub fn of(resumed: Option<&Resumed>) -> Pieces {
        let mut names = HashMap::new();
        if let Some(resumed) = resumed {
            let name = format!("a file that came before {} was saved", resumed.name);
            let files = resumed.files.iter().filter(|piece| piece.bytes > 0);
            names.extend(files.map(|piece| (piece.digest, name.clone())));
        }
        Pieces { names }
    }

    pub fn is_empty(&self) -> bool {
        self.names.is_empty()
    }

    /// Takes in an input, and tells where its bytes came before. Empty ones add nothing.
    pub fn meet(&mut self, piece: Piece, name: &str) -> Option<String> {
        if piece.bytes == 0 {
            return None;
        }
        match self.names.get(&piece.digest) {
            None => {
                self.names.insert(piece.digest, name.to_string());
                None
            }
            Some(earlier) => Some(format!(
                "{name}: has the same {} as {earlier}, so that what they claim would count twice\n  \
                 give them once; where the station really sent them twice, take --repeated-pieces",
                text::count(piece.bytes, "byte")
            )),
        }
    }
}
