//! The characters of a text: the library and the reader are given the same octets and outputs.

use odif::raw;

use crate::lent::{self, Lent};
use crate::rng::Rng;
use crate::tally::{Tally, hex};

/// The sets, and numbers that are taken as ISO 6937.
const SETS: [u32; 5] = [0, 1, 2, 3, u32::MAX];
/// Octets that stand beside others in pairs, and between them.
const HOSTILE: &[u8] = b"\xC0\xC1\xC2\xC8\xC8\xC8\xC9\xCB\xCC\xCF\xD0 \x20AuUezZq@[`{;\r\r\n\n\t\x0C\
    \x1B\x00\x7F\x80\x9F\xA0\xA4\xA6$#\xE0\xE2\xE5\xFB\xFF";

/// Every octet alone, every two octets, and no octets.
pub fn hold_fixed(tally: &mut Tally) {
    for set in SETS {
        hold(set, &[], tally);
        for first in 0..=0xFF {
            hold(set, &[first], tally);
            for second in 0..=0xFF {
                hold(set, &[first, second], tally);
            }
        }
    }
}

/// Octets at random: any, or mostly those of accents, letters and controls, or of a text.
pub fn hold_seeded(seed: u64, number: u64, tally: &mut Tally) {
    let mut rng = Rng::of_stream(seed, number);
    let count = *rng.pick(&[3, 8, 40, 40, 400]);
    let length = rng.below(count);
    let kind = rng.below(3);
    let octets: Vec<u8> = (0..length)
        .map(|_| match kind {
            0 => rng.octet(),
            1 => *rng.pick(HOSTILE),
            _ if rng.one_in(12) => *rng.pick(HOSTILE),
            _ => rng.between(0x20, 0x7E) as u8,
        })
        .collect();
    hold(*rng.pick(&SETS), &octets, tally);
}

/// With outputs that are long enough, exact, and one short.
fn hold(set: u32, octets: &[u8], tally: &mut Tally) {
    tally.streams += 1;
    let most = 8 * octets.len();
    let size = ask(set, octets, most, tally) as usize;
    ask(set, octets, size, tally);
    if size > 0 {
        ask(set, octets, size - 1, tally);
    }
}

/// The length of the text.
fn ask(set: u32, octets: &[u8], length: usize, tally: &mut Tally) -> u32 {
    let before = Lent::new(length, lent::octets);
    let (mut ours, mut theirs) = (before.clone(), before.clone());
    let answer = raw::utf8(set, octets, ours.lend());
    let wanted = reader::utf8(set, octets, theirs.lend());
    let numbers = [answer.number, answer.place, answer.length, answer.numbers];
    let same = numbers == [wanted.number, wanted.place, wanted.length, wanted.numbers] && ours == theirs;
    let kept = ours.is_untouched_past(answer.length as usize, &before);
    let valid = std::str::from_utf8(&ours.cells()[..answer.length as usize]).is_ok();
    tally.expect(same && kept && valid, || {
        format!("characters of set {set}, output of {length}: {answer:?}, not {wanted:?}\n  {}", hex(octets))
    });
    answer.length
}
