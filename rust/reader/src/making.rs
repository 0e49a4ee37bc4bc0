//! Making a letter of entries (W-208): an empty profile, then for each entry a block with its one portion and a text unit
//! with the text.

use std::collections::HashSet;

use crate::answers::Written;
use crate::names::{is_identifier, portion_key};
use crate::{MOST_ELEMENTS, STREAM_LIMIT};

/// The numbers of one entry: first and past of its identifier, of its portion and of its text.
pub const ENTRY_WIDTH: usize = 6;
/// The most bytes of a unit identifier.
const LONGEST_UNIT_IDENTIFIER: usize = 64;

/// What an entry says.
struct Entry<'a> {
    identifier: &'a [u8],
    portion: &'a [u8],
    text: &'a [u8],
}

impl Entry<'_> {
    /// "the element's identifier, one space, the portion"
    fn unit_identifier(&self) -> Vec<u8> {
        [self.identifier, b" ", self.portion].concat()
    }

    fn block(&self) -> Vec<u8> {
        let portions = item(0xA1, &item(0x12, self.portion));
        let named = [item(0x41, self.identifier), portions].concat();
        item(0xA2, &[item(0x02, &[4]), item(0x31, &named)].concat())
    }

    fn unit(&self) -> Vec<u8> {
        let named = item(0x31, &item(0x40, &self.unit_identifier()));
        item(0xA3, &[named, item(0x04, self.text)].concat())
    }

    /// How long block and unit are, without writing them.
    fn size(&self) -> usize {
        let bare = Entry { text: &[], ..*self };
        let named = item(0x31, &item(0x40, &self.unit_identifier())).len();
        bare.block().len() + item_size(named + item_size(self.text.len()))
    }
}

/// Makes a letter of the entries, or says which entry is refused and why. An incomplete last entry isn't used.
pub fn make(buffer: &[u8], numbers: &[u32], out: &mut [u8]) -> Written {
    let refused = |number, place| Written { number, place, length: 0 };
    let entries = match judge(buffer, numbers) {
        Ok(entries) => entries,
        Err((number, place)) => return refused(number, place as u32),
    };
    let size = 2 + entries.iter().map(Entry::size).sum::<usize>();
    if size > STREAM_LIMIT {
        return refused(17, 0);
    }
    if out.len() < size {
        return refused(18, 0);
    }
    let mut letter = vec![0xA0, 0x00];
    for entry in &entries {
        letter.extend(entry.block());
        letter.extend(entry.unit());
    }
    out[..size].copy_from_slice(&letter);
    Written { number: 0, place: 0, length: size as u32 }
}

/// The entries, or the number and place of the first refusal.
fn judge<'a>(buffer: &'a [u8], numbers: &[u32]) -> Result<Vec<Entry<'a>>, (u32, usize)> {
    let mut used = HashSet::new();
    let mut entries = Vec::new();
    for (place, numbers) in numbers.chunks_exact(ENTRY_WIDTH).enumerate() {
        let part = |at: usize| buffer.get(numbers[at] as usize..numbers[at + 1] as usize);
        let (Some(identifier), Some(portion), Some(text)) = (part(0), part(2), part(4)) else {
            return Err((27, place));
        };
        let entry = Entry { identifier, portion, text };
        let spelt = is_identifier(identifier) && portion_key(portion).is_some();
        if !spelt || entry.unit_identifier().len() > LONGEST_UNIT_IDENTIFIER {
            return Err((14, place));
        }
        if !used.insert(identifier) {
            return Err((15, place));
        }
        if 1 + 2 * (place + 1) > MOST_ELEMENTS {
            return Err((9, place));
        }
        entries.push(entry);
    }
    Ok(entries)
}

/// An item with the fewest length octets.
fn item(octet: u8, value: &[u8]) -> Vec<u8> {
    let mut octets = vec![octet];
    if value.len() < 0x80 {
        octets.push(value.len() as u8);
    } else {
        let length = value.len().to_be_bytes();
        let length: Vec<u8> = length.into_iter().skip_while(|&digit| digit == 0).collect();
        octets.push(0x80 + length.len() as u8);
        octets.extend(length);
    }
    octets.extend_from_slice(value);
    octets
}

/// How long an item with a value of so many octets is.
fn item_size(length: usize) -> usize {
    let further = if length < 0x80 { 0 } else { (1..).find(|&count| length >> (8 * count) == 0).expect("at most 8") };
    2 + further + length
}

#[cfg(test)]
mod tests {
    use super::*;

    #[test]
    fn the_letter_of_document_01() {
        let mut out = [0; 40];
        let answer = make(b"1 0 20Hi", &[0, 5, 5, 6, 6, 8], &mut out);
        assert_eq!(answer, Written { number: 0, place: 0, length: 38 });
        let wanted = b"\xA0\x00\xA2\x11\x02\x01\x04\x31\x0C\x41\x051 0 2\xA1\x03\x12\x010\
            \xA3\x0F\x31\x09\x40\x071 0 2 0\x04\x02Hi\0\0";
        assert_eq!(&out, wanted);
    }

    #[test]
    fn sizes() {
        for length in [0, 1, 127, 128, 255, 256, 65_535, 65_536, 1_048_576] {
            assert_eq!(item_size(length), item(0x04, &vec![0; length]).len(), "{length}");
        }
    }
}
