//! The generated streams of a seed.

use odif::Edition;

use crate::damage;
use crate::letters;
use crate::rng::Rng;

/// The stream with this number among those of the seed, and the numbers with which it is compared.
pub fn stream(seed: u64, number: u64) -> (Vec<u8>, Rng) {
    let mut rng = Rng::of_stream(seed, number);
    let edition = *rng.pick(&Edition::ALL);
    let stream = match rng.below(16) {
        0..4 => letters::good(edition, &mut rng),
        4..8 => letters::slipped(edition, &mut rng),
        8..13 => {
            let mut stream = letters::good(edition, &mut rng);
            damage::damage(&mut stream, &mut rng);
            stream
        }
        13 => {
            let [one, other] = Edition::ALL.map(|edition| letters::good(edition, &mut rng));
            damage::spliced(&one, &other, &mut rng)
        }
        _ => damage::noise(&mut rng),
    };
    (stream, rng)
}

#[cfg(test)]
mod tests {
    use super::*;
    use crate::editions::to_reader;

    #[test]
    fn a_stream_comes_again() {
        for number in 0..200 {
            assert_eq!(stream(7, number).0, stream(7, number).0);
        }
        assert_ne!(stream(7, 1).0, stream(8, 1).0);
    }

    #[test]
    fn good_letters_are_good() {
        for number in 0..2_000 {
            for edition in Edition::ALL {
                let letter = letters::good(edition, &mut Rng::of_stream(1, number));
                let reading = reader::Reading::by(to_reader(edition), &letter);
                assert_eq!(reading.refusal(), None, "letter {number} of {edition}");
            }
        }
    }
}
