//! The normal form, from its end to its beginning: going backwards, an item's length is known when it is met.

use crate::items::{Item, Tree};
use crate::octets::DEEPEST;

/// The number of octets of the normal form.
pub(crate) fn size(tree: &Tree) -> usize {
    backwards(tree, |_, _| {})
}

/// Writes the normal form; `out` is exactly as long as it.
pub(crate) fn write(stream: &[u8], tree: &Tree, out: &mut [u8]) {
    let mut at = out.len();
    let mut put = |octets: &[u8]| {
        let past = at;
        at -= octets.len();
        out[at..past].copy_from_slice(octets);
    };
    backwards(tree, |item, length| {
        if !item.is_constructed() {
            put(&stream[item.value()]);
        }
        let octets = (length as u32).to_be_bytes();
        let fewest = length_octets(length);
        put(&octets[octets.len() - fewest.max(1)..]);
        if fewest > 0 {
            put(&[0x80 + fewest as u8]);
        }
        put(&stream[item.first()..][..item.type_length()]);
    });
}

/// Meets the items from the last to the first, each with its length in normal form; the size of the whole.
fn backwards(tree: &Tree, mut meet: impl FnMut(&Item, usize)) -> usize {
    // What has been met at each level since the last item one level up; level 0 is the stream.
    let mut met = [0; DEEPEST as usize + 2];
    for item in tree.items().iter().rev() {
        let level = usize::from(item.level());
        let inside = std::mem::take(&mut met[level + 1]);
        let length = if item.is_constructed() { inside } else { item.value().len() };
        met[level] += item.type_length() + 1 + length_octets(length) + length;
        meet(item, length);
    }
    met[1]
}

/// How many octets follow the first length octet: none up to 7F, else as few as hold the length.
fn length_octets(length: usize) -> usize {
    if length < 0x80 { 0 } else { (usize::BITS - length.leading_zeros()).div_ceil(8) as usize }
}

#[cfg(test)]
mod tests {
    use super::*;

    #[test]
    fn fewest_length_octets() {
        let steps = [(0, 0), (0x7F, 0), (0x80, 1), (0xFF, 1), (0x100, 2), (0xFFFF, 2), (0x10000, 3), (0xFFFFFF, 3)];
        for (length, fewest) in steps {
            assert_eq!(length_octets(length), fewest, "{length}");
        }
    }
}
