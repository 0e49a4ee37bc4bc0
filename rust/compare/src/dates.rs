//! Profiles with a date of the document, and nearly so.

use crate::coding::Item;
use crate::rng::Rng;

/// A profile with these items, and mostly with management attributes of which some have a date.
pub fn profile(mut items: Vec<Item>, rng: &mut Rng) -> Item {
    for _ in 0..*rng.pick(&[0, 1, 1, 1, 1, 2]) {
        let attributes = Item::run(*rng.pick(&[0xA3, 0xA3, 0xA3, 0xA2]), times(rng));
        let place = rng.below(items.len() + 1);
        items.insert(place, attributes);
    }
    Item::run(0xA0, items)
}

fn times(rng: &mut Rng) -> Vec<Item> {
    let count = *rng.pick(&[0, 1, 1, 1, 1, 2]);
    (0..count).map(|_| Item::run(*rng.pick(&[0xA0, 0xA0, 0xA0, 0xA1]), dates(rng))).collect()
}

fn dates(rng: &mut Rng) -> Vec<Item> {
    let count = *rng.pick(&[0, 1, 1, 1, 1, 1, 2]);
    let date = |rng: &mut Rng| match rng.below(12) {
        0 => Item::run(0xA0, vec![Item::value(0x44, text(rng))]),
        1 => Item::value(0x81, text(rng)),
        _ => Item::value(0x80, text(rng)),
    };
    (0..count).map(|_| date(rng)).collect()
}

/// The spelling of a day, of one that does not exist, or of none.
fn text(rng: &mut Rng) -> Vec<u8> {
    let year = *rng.pick(&[0, 1, 4, 100, 400, 1900, 1988, 1991, 2000, 2100, 9999]);
    let (month, day) = (*rng.pick(&[0, 1, 2, 2, 2, 4, 6, 9, 11, 12, 13]), *rng.pick(&[0, 1, 28, 29, 30, 31, 32]));
    let mut text = format!("{year:04}-{month:02}-{day:02}").into_bytes();
    match rng.below(8) {
        0 => text.extend(b"T09:30"),
        1 => text.truncate(rng.below(10)),
        2 => {
            let place = rng.below(text.len());
            text[place] = *rng.pick(b"-/ :0A\xFF\x00");
        }
        _ => {}
    }
    text
}
