//! State files of version 1, which are read and no longer written: they keep all midnights, and
//! the SHA-256 of all bytes that ever came. Their head, with all numbers low byte first:
//!
//!     32    8  how many bytes of the log were consumed
//!     40   32  their SHA-256
//!     72   32  the same under way, which nothing needs any more
//!    104    8  the state's length
//!    112    8  how many of the last bytes consumed stand here, 2,025 or all
//!    120    8  the length of the first refused word's cause, 0 where none was refused
//!    128       the state, these last bytes, and the cause

use crate::common::digest::LENGTH;
use crate::replay::kept::{going_on, parts, Kept, Piece, Reader, BEGIN};
use crate::replay::wrong::Wrong;

const HEAD: usize = 128;

/// What the file of these bytes holds, which is whole: all that came is one file.
pub fn read(bytes: &[u8]) -> Result<Kept, Wrong> {
    if bytes.len() < HEAD + LENGTH {
        return Err(Wrong::Contradicted);
    }
    let mut head = Reader {
        left: &bytes[BEGIN..],
    };
    let consumed = head.long();
    let finished = head.digest();
    head.digest();
    let lengths = [(); 3].map(|()| head.long());
    let [state, last, cause] = parts(&bytes[HEAD..bytes.len() - LENGTH], lengths)?;
    let replay = going_on(state)?;
    let cause = String::from_utf8(cause.to_vec()).map_err(|_| Wrong::Contradicted)?;
    // Nothing was forgotten by that version.
    let word = replay.status().refused;
    let record = word.and_then(|word| word.record_after(0));
    if record.is_some() == cause.is_empty() {
        return Err(Wrong::Contradicted);
    }
    let month = Piece {
        bytes: consumed,
        digest: finished,
    };
    Ok(Kept {
        forgotten: 0,
        consumed,
        began: None,
        files: vec![month.clone()],
        month,
        version: "0.1.0".to_string(),
        station: None,
        date: None,
        last: last.to_vec(),
        refused: record.map(|record| (record, cause)),
        replay,
    })
}
