//! Pages with dimensions, and the verdicts of the PM1 desk: the library against the vectors, and the reader against the table
//! of pairs as T.502 prints it.

use odif::{Edition, ROW_WIDTH, raw};

use crate::coding::Item;
use crate::examples::{lines, octets};
use crate::hold::Holder;
use crate::rng::Rng;
use crate::tally::Origin;

const VECTORS: &str = include_str!("../../../vectors/pm1.txt");

/// T.502, table 10: horizontal and vertical, in the order of the print. The first two are essential.
pub const PRINTED: [[i64; 2]; 8] = [
    [9_240, 12_400],
    [12_400, 9_240],
    [9_920, 14_030],
    [14_030, 9_920],
    [10_200, 13_200],
    [13_200, 10_200],
    [14_030, 19_840],
    [19_840, 14_030],
];

/// The shortest octets of a number, two's complement.
pub fn shortest(number: i64) -> Vec<u8> {
    let octets = number.to_be_bytes();
    let is_needed = |&from: &usize| i64::from(octets[from] as i8) == number >> (8 * (7 - from));
    let from = (0..8).rev().find(is_needed).unwrap_or(0);
    octets[from..].to_vec()
}

/// The item of dimensions with two fixed numbers.
pub fn pair(horizontal: i64, vertical: i64) -> Item {
    Item::run(0xA4, [horizontal, vertical].map(|number| Item::value(0x80, shortest(number))).into())
}

/// Dimensions of a page or of another element, mostly two fixed numbers next to a bound.
pub fn dimensions(rng: &mut Rng) -> Vec<Item> {
    let number = |rng: &mut Rng| match rng.below(8) {
        0 => *rng.pick(&[-1, 0, 1, 127, 128, 255, 256, 32_767, 32_768, 65_536, 1 << 31, -40_000]),
        1 => rng.below(20_000) as i64,
        _ => rng.pick(&PRINTED)[0] + *rng.pick(&[-1, 0, 0, 1]),
    };
    let fixed = |rng: &mut Rng| {
        let mut value = shortest(number(rng));
        if rng.one_in(12) {
            value.insert(0, 0);
        }
        Item::value(0x80, value)
    };
    let mut items: Vec<Item> = (0..*rng.pick(&[2, 2, 2, 2, 2, 1, 3, 0])).map(|_| fixed(rng)).collect();
    if rng.one_in(10) && !items.is_empty() {
        let place = rng.below(items.len());
        items[place] = match rng.below(3) {
            0 => Item::value(*rng.pick(&[0x81, 0x84, 0x02]), *b"\x26\xC0"),
            1 => Item::run(0xA0, vec![]),
            _ => Item::value(0x80, vec![]),
        };
    }
    let count = if rng.one_in(10) { 2 } else { 1 };
    vec![Item::run(0xA4, items); count]
}

/// Holds the library to the vectors.
pub fn hold_vectors(holder: &mut Holder) {
    for fields in lines(VECTORS) {
        let [name, hex, wanted, pages] = fields[..] else { panic!("a line of four fields: {fields:?}") };
        let stream = octets(hex);
        holder.hold(&stream, Origin::Fixed(name.into()), &mut Rng::new(1));
        for edition in Edition::ALL {
            let (mut table, mut list) = (vec![0; 16 * ROW_WIDTH], vec![raw::pm1::Page::default(); 16]);
            let answer = raw::pm1::pages_in(edition, &stream, &mut table, &mut list);
            let given = format!("{} {} {} {}", answer.number, answer.place, answer.elements, answer.pages);
            holder.tally.expect(given == wanted, || format!("{name}, by {edition}: {given}, not {wanted}"));
            let told = list[..answer.pages as usize].iter().map(|page| format!("{}:{}", page.element, page.verdict));
            let told = told.collect::<Vec<_>>().join(" ");
            let same = told == pages || told.is_empty() && pages == "-";
            holder.tally.expect(same, || format!("{name}, by {edition}: {told}, not {pages}"));
        }
    }
}

#[cfg(test)]
mod tests {
    use reader::Reading;

    use super::*;
    use crate::coding::Form;

    /// The verdict of two fixed numbers, by the print.
    fn printed(horizontal: i64, vertical: i64) -> u32 {
        let is_within = |pair: &[i64; 2]| horizontal <= pair[0] && vertical <= pair[1];
        match PRINTED.iter().position(is_within) {
            _ if horizontal < 1 || vertical < 1 => 3,
            Some(0 | 1) => 1,
            Some(_) => 2,
            None => 3,
        }
    }

    #[test]
    fn shortest_octets() {
        for (number, octets) in [
            (0, &[0][..]),
            (127, &[127]),
            (128, &[0, 128]),
            (-128, &[128]),
            (-129, &[255, 127]),
            (32_767, &[0x7F, 0xFF]),
            (32_768, &[0, 0x80, 0]),
            (9_920, &[0x26, 0xC0]),
            (1 << 31, &[0, 0x80, 0, 0, 0]),
        ] {
            assert_eq!(shortest(number), octets, "{number}");
        }
    }

    /// The reader says of every pair next to a bound what the print says.
    #[test]
    fn verdicts_as_printed() {
        let near = |bound: i64| [bound - 1, bound, bound + 1];
        let bounds = [0, 1, 127, 9_240, 9_920, 10_200, 12_400, 13_200, 14_030, 19_840, 32_767].map(near);
        let numbers: Vec<i64> = bounds.into_iter().flatten().chain([-1, -32_768, i64::from(i32::MAX)]).collect();
        let mut met = [0; 5];
        for &horizontal in &numbers {
            for &vertical in &numbers {
                let body = Item::run(0x31, vec![pair(horizontal, vertical)]);
                let page = Item::run(0xA2, vec![Item::value(0x02, [2]), body]).write(&mut |_| Form::Shortest);
                let stream = [&[0xA0, 0x00], &page[..]].concat();
                let pages = Reading::of(&stream).page_list();
                let verdict = printed(horizontal, vertical);
                assert_eq!(pages, [reader::Page { element: 1, verdict }], "{horizontal} by {vertical}");
                met[verdict as usize] += 1;
            }
        }
        assert!(met[1..4].iter().all(|&count| count > 50), "{met:?}");
    }
}
