//! Making a letter of texts.

use crate::raw;
use crate::refusal::Refusal;
use crate::{MOST_ENTRIES, STREAM_LIMIT};

/// So many octets tell of an identifier or a portion that it is too long.
const NAME_KEPT: usize = 65;
/// No entry has more octets besides its text and twice its names.
const FRAME: usize = 32;

/// Makes a letter of entries, each with an identifier, a portion and a text.
///
/// The letter has an empty profile, and for each entry a block with that identifier and that one portion, and a text unit
/// with the text. It is accepted, its layout list has the entries in their order and no others, and it is its own normal
/// form. Nothing is judged before [`Builder::make`].
///
/// ```
/// # fn main() -> Result<(), odif::Refusal> {
/// let stream = odif::Builder::new().entry("1 0 0", "0", "Dear Sir,\n").entry("1 0 1", "0", b"caf\xC2e\n").make()?;
/// let letter = odif::Letter::read(&stream)?;
/// assert_eq!(letter.text(odif::Side::Layout)?.octets(), b"Dear Sir,\ncaf\xC2e\n");
/// # Ok(())
/// # }
/// ```
#[derive(Clone, Debug, Default)]
pub struct Builder {
    buffer: Vec<u8>,
    entries: Vec<u32>,
    /// The octets of the texts, all told.
    texts: usize,
}

impl Builder {
    /// No entries yet. The letter of none is A0 00.
    pub fn new() -> Self {
        Builder::default()
    }

    /// Adds an entry. No two may have the same identifier.
    pub fn entry(
        &mut self,
        identifier: impl AsRef<[u8]>,
        portion: impl AsRef<[u8]>,
        text: impl AsRef<[u8]>,
    ) -> &mut Self {
        // What is beyond the entry that is refused by 9 changes nothing; nor does text beyond what 17 refuses.
        if self.entries.len() < (MOST_ENTRIES + 1) * 6 {
            let room = (STREAM_LIMIT + 1).saturating_sub(self.texts);
            self.texts = self.texts.saturating_add(text.as_ref().len());
            self.part(identifier.as_ref(), NAME_KEPT);
            self.part(portion.as_ref(), NAME_KEPT);
            self.part(text.as_ref(), room);
        }
        self
    }

    /// Keeps a part, up to so many octets of it.
    fn part(&mut self, octets: &[u8], most: usize) {
        let first = self.buffer.len() as u32;
        self.buffer.extend_from_slice(&octets[..octets.len().min(most)]);
        self.entries.extend([first, self.buffer.len() as u32]);
    }

    /// Makes the letter. The place of a refusal is the number of the entry, from 0; it is 0 where the letter is too long.
    pub fn make(&self) -> Result<Vec<u8>, Refusal> {
        let longest = 2 + 2 * self.buffer.len() + FRAME * (self.entries.len() / 6);
        let mut out = vec![0; longest.min(STREAM_LIMIT)];
        let answer = raw::make(&self.buffer, &self.entries, &mut out);
        Refusal::unless_accepted(answer.number, answer.place)?;
        out.truncate(answer.length as usize);
        Ok(out)
    }
}

#[cfg(test)]
mod tests {
    use super::*;
    use crate::{Letter, Rule, Side};

    fn refused(builder: &Builder) -> (Rule, usize) {
        let refusal = builder.make().unwrap_err();
        (refusal.rule, refusal.place)
    }

    #[test]
    fn no_entries() {
        assert_eq!(Builder::new().make().unwrap(), [0xA0, 0x00]);
    }

    #[test]
    fn texts_come_back() {
        let texts: Vec<Vec<u8>> = vec![(0..=255).collect(), vec![], vec![b'x'; 70_000], b"Hi".to_vec()];
        let mut builder = Builder::new();
        for (number, text) in texts.iter().enumerate() {
            builder.entry(format!("1 {number}"), "0123456789012345", text);
        }
        let stream = builder.make().unwrap();
        let letter = Letter::read(&stream).unwrap();
        assert_eq!(letter.text(Side::Layout).unwrap().units().collect::<Vec<_>>(), texts);
        assert!(letter.reading_list(Side::Logical).unwrap().is_empty());
    }

    #[test]
    fn refusals() {
        let mut builder = Builder::new();
        builder.entry("1 0", "0", "a");
        assert_eq!(refused(builder.clone().entry("1 ", "0", "b")), (Rule::Misspelt, 1));
        assert_eq!(refused(builder.clone().entry("1", "0 1", "b")), (Rule::Misspelt, 1));
        assert_eq!(refused(builder.clone().entry("9".repeat(65), "0", "b")), (Rule::Misspelt, 1));
        assert_eq!(refused(builder.clone().entry("1", "9".repeat(80), "b")), (Rule::Misspelt, 1));
        assert_eq!(refused(builder.clone().entry("1 0", "1", "b")), (Rule::Repeated, 1));
    }

    #[test]
    fn too_long_only_after_all_entries() {
        let mut builder = Builder::new();
        builder.entry("1 0", "0", vec![0; 3 * STREAM_LIMIT]).entry("1 1", "0", vec![0; 3 * STREAM_LIMIT]);
        assert_eq!(refused(&builder), (Rule::NormalFormTooLong, 0));
        assert_eq!(refused(builder.entry("1 1", "0", "")), (Rule::Repeated, 2));
    }

    #[test]
    fn too_many() {
        let mut builder = Builder::new();
        for number in 0..MOST_ENTRIES {
            builder.entry(number.to_string(), "0", "");
        }
        let stream = builder.make().unwrap();
        assert_eq!(Letter::read(&stream).unwrap().elements().len(), 4_095);
        for number in 0..3 {
            builder.entry(format!("1 {number}"), "0", "");
            assert_eq!(refused(&builder), (Rule::TooManyElements, MOST_ENTRIES));
        }
    }
}
