//! SHA-256, as `sha256sum` writes it.

use std::fs::File;
use std::io::{self, Read};

use sha2::{Digest, Sha256};

/// The hash of these octets, in hexadecimal.
pub fn of(octets: &[u8]) -> String {
    lower_hex(&Sha256::digest(octets))
}

/// How many octets a file has from here to its end, and their hash.
pub fn of_rest(file: File) -> io::Result<(u64, String)> {
    let mut hashing = Hashing::of(file);
    let octets = io::copy(&mut hashing, &mut io::sink())?;
    Ok((octets, hashing.whole().unwrap_or_default()))
}

/// Hashes what is read through it.
pub struct Hashing<R> {
    source: R,
    hasher: Sha256,
    ended: bool,
}

impl<R: Read> Hashing<R> {
    /// Nothing is read yet.
    pub fn of(source: R) -> Self {
        Hashing { source, hasher: Sha256::new(), ended: false }
    }

    /// The hash of all that the source has, if it was read to its end.
    pub fn whole(self) -> Option<String> {
        self.ended.then(|| lower_hex(&self.hasher.finalize()))
    }
}

impl<R: Read> Read for Hashing<R> {
    fn read(&mut self, room: &mut [u8]) -> io::Result<usize> {
        let read = self.source.read(room)?;
        self.hasher.update(&room[..read]);
        self.ended |= read == 0 && !room.is_empty();
        Ok(read)
    }
}

/// Octets in hexadecimal, with small letters.
pub fn lower_hex(octets: &[u8]) -> String {
    const DIGITS: &[u8; 16] = b"0123456789abcdef";
    let digits = octets.iter().flat_map(|octet| [octet >> 4, octet & 15]);
    digits.map(|digit| DIGITS[usize::from(digit)] as char).collect()
}

#[cfg(test)]
mod tests {
    use super::*;

    const ABC: &str = "ba7816bf8f01cfea414140de5dae2223b00361a396177a9cb410ff61f20015ad";

    #[test]
    fn as_the_standard_has_it() {
        assert_eq!(of(b"abc"), ABC);
    }

    #[test]
    fn only_what_was_read_to_its_end_has_a_hash() {
        let mut all = Hashing::of(&b"abc"[..]);
        all.read_to_end(&mut Vec::new()).unwrap();
        assert_eq!(all.whole().as_deref(), Some(ABC));
        let mut some = Hashing::of(&b"abc"[..]);
        some.read_exact(&mut [0; 3]).unwrap();
        assert_eq!(some.whole(), None);
    }
}
