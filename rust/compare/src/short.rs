//! All short streams, and all that differ in one octet from document 01's letter.

use crate::examples;

/// The groups of streams, one for each octet.
pub const GROUPS: usize = 256;

/// The streams of one group: those of one or two octets that begin with the octet, the profiles of four octets whose
/// value begins with it, and the changes of the letter at the place of that number.
pub fn group(octet: u8) -> Vec<Vec<u8>> {
    let mut streams = vec![vec![octet]];
    for next in 0..=255 {
        streams.push(vec![octet, next]);
        streams.push(vec![0xA0, 0x02, octet, next]);
        streams.push(vec![0xA0, 0x80, octet, next, 0x00, 0x00]);
    }
    if let Some((_, letter, _)) = examples::listed().next() {
        streams.extend(changed(&letter, usize::from(octet)));
    }
    streams
}

/// The letter with another octet at a place, with any octet put in before it, without it, and cut off there.
fn changed(letter: &[u8], place: usize) -> Vec<Vec<u8>> {
    let Some((front, [_, back @ ..])) = letter.split_at_checked(place) else { return Vec::new() };
    let mut streams = vec![front.to_vec(), [front, back].concat()];
    for octet in 0..=255 {
        streams.push([front, &[octet], back].concat());
        streams.push([front, &[octet], &letter[place..]].concat());
    }
    streams
}
