//! The SHA-256 of bytes that come in pieces.

use sha2::{Digest as _, Sha256};

/// The bytes of a finished digest.
pub const LENGTH: usize = 32;

#[derive(Clone)]
pub struct Digest {
    so_far: Sha256,
    length: u64,
}

impl Digest {
    pub fn new() -> Digest {
        Digest {
            so_far: Sha256::new(),
            length: 0,
        }
    }

    /// How many bytes came so far.
    pub fn length(&self) -> u64 {
        self.length
    }

    pub fn update(&mut self, bytes: &[u8]) {
        self.length += bytes.len() as u64;
        self.so_far.update(bytes);
    }

    /// The digest of the bytes so far.
    pub fn finished(&self) -> Finished {
        self.so_far.clone().finalize().into()
    }
}

pub type Finished = [u8; LENGTH];

/// A digest that was written by `hex`.
pub fn of_hex(text: &str) -> Option<Finished> {
    let mut digest = [0; LENGTH];
    for (place, byte) in digest.iter_mut().enumerate() {
        *byte = u8::from_str_radix(text.get(2 * place..2 * place + 2)?, 16).ok()?;
    }
    (hex(digest) == text).then_some(digest)
}

/// A digest in hex.
pub fn hex(digest: Finished) -> String {
    digest.iter().map(|byte| format!("{byte:02x}")).collect()
}

#[cfg(test)]
mod tests {
    use super::*;

    #[test]
    fn hex_is_read_back() {
        let digest = Digest::new().finished();
        let text = hex(digest);
        assert_eq!(of_hex(&text), Some(digest));
        for wrong in [
            "",
            &text[2..],
            &(text.clone() + "00"),
            &text.to_uppercase(),
            &text.replace('e', "é"),
        ] {
            assert_eq!(of_hex(wrong), None, "{wrong}");
        }
    }
}
