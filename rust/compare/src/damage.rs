//! Damaged copies of streams, and noise.

use crate::rng::Rng;

/// Octets at which readers stumble: closing marks, lengths at their edges, the octets of both editions.
const TELLING: [u8; 41] = [
    0x00, 0x01, 0x02, 0x03, 0x04, 0x05, 0x0A, 0x12, 0x1F, 0x20, 0x23, 0x24, 0x30, 0x31, 0x40, 0x41, 0x45, 0x47, 0x60,
    0x61, 0x65, 0x67, 0x7F, 0x80, 0x81, 0x82, 0x83, 0x84, 0x85, 0xA0, 0xA1, 0xA2, 0xA3, 0xA4, 0xA6, 0xA7, 0xA9, 0xAA,
    0xAC, 0xAD, 0xFF,
];

/// Damages a stream in one to four places.
pub fn damage(stream: &mut Vec<u8>, rng: &mut Rng) {
    for _ in 0..*rng.pick(&[1, 1, 1, 2, 4]) {
        damage_once(stream, rng);
    }
}

fn damage_once(stream: &mut Vec<u8>, rng: &mut Rng) {
    if stream.is_empty() {
        stream.push(rng.octet());
        return;
    }
    let place = rng.below(stream.len());
    match rng.below(10) {
        0 => stream[place] ^= 1 << rng.below(8),
        1 => stream[place] = rng.octet(),
        2 | 3 => stream[place] = *rng.pick(&TELLING),
        4 => stream[place] = stream[place].wrapping_add(*rng.pick(&[1, 255])),
        5 => stream.insert(place, *rng.pick(&TELLING)),
        6 => {
            stream.remove(place);
        }
        7 => stream.truncate(place),
        8 => {
            let past = (place + rng.between(1, 12)).min(stream.len());
            let part = stream[place..past].to_vec();
            let to = rng.below(stream.len() + 1);
            stream.splice(to..to, part);
        }
        _ => {
            let past = (place + rng.between(1, 12)).min(stream.len());
            stream.drain(place..past);
        }
    }
}

/// The front of one stream with the back of another.
pub fn spliced(one: &[u8], other: &[u8], rng: &mut Rng) -> Vec<u8> {
    let front = &one[..rng.below(one.len() + 1)];
    let back = &other[rng.below(other.len() + 1)..];
    [front, back].concat()
}

/// Octets that no one wrote: some of them telling, some in the shape of headers, behind a profile or not.
pub fn noise(rng: &mut Rng) -> Vec<u8> {
    let mut stream =
        rng.pick(&[&[][..], &[0xA0, 0x00], &[0xA0, 0x80], &[0xA0, 0x10], &[0xA0, 0x80, 0x31, 0x80]]).to_vec();
    let telling = rng.between(0, 4);
    for _ in 0..rng.below(40) {
        match rng.below(6) {
            sort if sort < telling => stream.push(*rng.pick(&TELLING)),
            4 => stream.extend([rng.octet() & 0xBF | 0x20, rng.below(12) as u8]),
            5 => stream.extend([0, 0]),
            _ => stream.push(rng.octet()),
        }
    }
    stream
}
