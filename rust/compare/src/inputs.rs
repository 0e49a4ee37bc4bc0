//! The inputs of the benchmark.

use crate::coding::{indefinite, item};
use crate::examples;

/// An input with its name.
pub struct Input {
    /// The name in the table of results.
    pub name: &'static str,
    /// The stream.
    pub stream: Vec<u8>,
    /// A text unit to fetch, or an element that is none.
    pub asked: u32,
}

/// All inputs, the small ones first.
pub fn all() -> Vec<Input> {
    let annex_d: Vec<Vec<u8>> = examples::listed().skip(1).map(|(_, stream, _)| stream).collect();
    vec![
        Input { name: "small letter", stream: letter(item), asked: 2 },
        Input { name: "small letter, indefinite", stream: letter(indefinite), asked: 2 },
        Input { name: "Annex D, layout", stream: annex_d[0].clone(), asked: 4 },
        Input { name: "Annex D, logical", stream: annex_d[1].clone(), asked: 25 },
        Input { name: "2,000 objects, 32 portions, 2,000 units", stream: many(), asked: 2_001 },
        Input { name: "4,096 empty elements", stream: empty(), asked: 1 },
        Input { name: "1 MiB at depth 16", stream: deep(), asked: 1 },
    ]
}

fn name(number: usize) -> String {
    format!("{} 0 {number}", number % 7)
}

/// How constructed items are written: `item` or `indefinite`.
type Constructed = fn(u8, &[u8]) -> Vec<u8>;

fn object(constructed: Constructed, number: usize, portions: usize) -> Vec<u8> {
    let portions: Vec<u8> = (0..portions).flat_map(|portion| item(0x12, portion.to_string().as_bytes())).collect();
    let descriptor = [item(0x41, name(number).as_bytes()), constructed(0xA1, &portions)].concat();
    constructed(0xA2, &[item(0x02, &[4]), constructed(0x31, &descriptor)].concat())
}

fn unit(constructed: Constructed, number: usize, portion: usize, text: &str) -> Vec<u8> {
    let name = format!("{} {portion}", name(number));
    constructed(0xA3, &[constructed(0x31, &item(0x40, name.as_bytes())), item(0x04, text.as_bytes())].concat())
}

/// Twenty blocks of one portion, each followed by its unit.
fn letter(constructed: Constructed) -> Vec<u8> {
    let text = "Your claim of the 4th. ".repeat(4);
    let blocks =
        (0..20).flat_map(|number| [object(constructed, number, 1), unit(constructed, number, 0, &text)].concat());
    constructed(0xA0, &[]).into_iter().chain(blocks).collect()
}

fn many() -> Vec<u8> {
    let objects = (0..2_000).flat_map(|number| object(item, number, 32));
    let units = (0..2_000).flat_map(|number| unit(item, number, 31, "Dear Sir"));
    [0xA0, 0x00].into_iter().chain(objects).chain(units).collect()
}

fn empty() -> Vec<u8> {
    let objects = [0xA2, 0x00].repeat(odif::MOST_ELEMENTS - 1);
    [vec![0xA0, 0x00], objects].concat()
}

/// Half a million items at level 16, in indefinite items.
fn deep() -> Vec<u8> {
    let inner = (0..14).fold([0x05, 0x00].repeat(500_000), |inner, _| indefinite(0xA1, &inner));
    indefinite(0xA0, &inner)
}

#[cfg(test)]
mod tests {
    use super::*;

    #[test]
    fn the_inputs_are_accepted() {
        for input in all() {
            assert_eq!(reader::Reading::of(&input.stream).refusal(), None, "{}", input.name);
        }
    }
}
