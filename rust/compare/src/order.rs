//! Letters in the order of class A or class B, or nearly so, and the vectors of the order.

mod letters;

use odif::{Class, Edition, raw};
use reader::Reading;
use second::one::One;

pub use self::letters::{letter, stream};
use crate::examples::{lines, octets};
use crate::hold::Holder;
use crate::rng::Rng;
use crate::tally::Origin;

const VECTORS: &str = include_str!("../../../vectors/order.txt");

/// Holds the library to the vectors.
pub fn hold_vectors(holder: &mut Holder) {
    for fields in lines(VECTORS) {
        let [name, hex, answers @ ..] = &fields[..] else { panic!("a line of six fields: {fields:?}") };
        let stream = octets(hex);
        holder.hold(&stream, Origin::Fixed((*name).into()), &mut Rng::new(1));
        let asked = Edition::ALL.into_iter().flat_map(|edition| Class::ALL.map(|class| (edition, class)));
        for ((edition, class), wanted) in asked.zip(answers) {
            let answer = raw::order_in(edition, class, &stream);
            let given = format!("{} {}", answer.number, answer.place);
            let tell = || format!("{name}: class {class} by {edition}: {given}, not {wanted}");
            holder.tally.expect(given == *wanted, tell);
        }
    }
}

/// One letter in order, or nearly so: what is asked of the order and of the pages, and for one in sixteen all else too.
pub fn hold_seeded(seed: u64, number: u64, holder: &mut Holder) {
    let (stream, mut rng) = stream(seed, number);
    let origin = Origin::Ordered { seed, stream: number };
    if number.is_multiple_of(16) {
        return holder.hold(&stream, origin, &mut rng);
    }
    holder.tally.streams += 1;
    for edition in Edition::ALL {
        let reading = Reading::by(crate::editions::to_reader(edition), &stream);
        let (reading, origin, tally) = (&reading, &origin, &mut holder.tally);
        let mut one = One { edition, stream: &stream, reading, origin, tally };
        second::order::hold(&mut one);
        second::pages::hold(&mut one, &mut rng);
    }
}
