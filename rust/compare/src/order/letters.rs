//! Letters in the order of class A or of class B, and such letters with elements swapped, dropped, doubled and renamed. Some
//! of their layout elements are pages.

use odif::{Class, Edition};

use crate::coding::{Item, any_form};
use crate::pages;
use crate::rng::Rng;

/// The letter with this number among those of the seed, and the numbers with which it is compared.
pub fn stream(seed: u64, number: u64) -> (Vec<u8>, Rng) {
    let mut rng = Rng::of_stream(seed ^ 0x0BDE, number);
    let edition = *rng.pick(&Edition::ALL);
    let class = *rng.pick(&Class::ALL);
    let mut elements = letter(edition, class, &mut rng);
    for _ in 0..*rng.pick(&[0, 1, 1, 1, 2, 3]) {
        change(&mut elements, &mut rng);
    }
    (written(&elements, &mut rng), rng)
}

fn written(elements: &[Element], rng: &mut Rng) -> Vec<u8> {
    let mut choose = any_form(rng);
    elements.iter().flat_map(|element| element.item().write(&mut choose)).collect()
}

/// An element that is not yet written.
#[derive(Clone, Debug)]
pub struct Element {
    octet: u8,
    object_type: Option<u8>,
    identifier: Option<String>,
    logical: Option<String>,
    portions: Vec<String>,
    /// The dimensions of a page, and what else is in its descriptor.
    more: Vec<Item>,
}

impl Element {
    fn plain(octet: u8) -> Element {
        Element { octet, object_type: None, identifier: None, logical: None, portions: vec![], more: vec![] }
    }

    fn item(&self) -> Item {
        let run = match self.octet {
            0xA0 => vec![],
            0xA3 => vec![Item::run(0x31, self.descriptor(0x40)), Item::value(0x04, *b"text")],
            0xA7 | 0xA8 => self.descriptor(0x45),
            0xA9 => vec![Item::value(0x47, *b"1"), Item::value(0x03, *b"\x07\x80")],
            0xAA.. => vec![Item::value(0x47, *b"1"), Item::value(0x04, *b"x")],
            _ => {
                let object_type = self.object_type.map(|number| Item::value(0x02, [number]));
                object_type.into_iter().chain([Item::run(0x31, self.descriptor(0x41))]).collect()
            }
        };
        Item::run(self.octet, run)
    }

    fn descriptor(&self, octet: u8) -> Vec<Item> {
        let mut items: Vec<Item> = self.identifier.iter().map(|name| Item::value(octet, name.as_bytes())).collect();
        items.extend(self.logical.iter().map(|name| Item::value(0x84, name.as_bytes())));
        if !self.portions.is_empty() {
            let portions = self.portions.iter().map(|portion| Item::value(0x12, portion.as_bytes()));
            items.push(Item::run(0xA1, portions.collect()));
        }
        items.extend(self.more.iter().cloned());
        items
    }

    /// The names of the units that answer its portions, on its side.
    fn unit_names(&self) -> Vec<String> {
        let name = self.identifier.as_deref().unwrap_or_default();
        self.portions.iter().map(|portion| format!("{name} {portion}")).collect()
    }
}

/// A class or object with a name of its own.
fn lister(octet: u8, number: &mut usize, rng: &mut Rng) -> Element {
    *number += 1;
    let identifier = if rng.one_in(8) { format!("{} {number}", rng.below(3)) } else { number.to_string() };
    let portions = *rng.pick(&[0, 0, 1, 1, 1, 2, 3]);
    let greatest = if octet < 0xA3 { 4 } else { 2 };
    let object_type = if octet < 0xA3 && rng.one_in(2) { 2 } else { rng.between(0, greatest) as u8 };
    let more = if rng.one_in(2) { pages::dimensions(rng) } else { vec![] };
    let mut portions: Vec<String> = (0..portions).map(|portion| portion.to_string()).collect();
    rng.shuffle(&mut portions);
    Element { octet, object_type: Some(object_type), identifier: Some(identifier), logical: None, portions, more }
}

fn some(octet: u8, most: usize, number: &mut usize, rng: &mut Rng) -> Vec<Element> {
    (0..rng.below(most + 1)).map(|_| lister(octet, number, rng)).collect()
}

fn unit(layout: Option<String>, logical: Option<String>) -> Element {
    Element { identifier: layout, logical, ..Element::plain(0xA3) }
}

fn style(octet: u8, number: &mut usize) -> Element {
    *number += 1;
    Element { identifier: Some(number.to_string()), ..Element::plain(octet) }
}

/// The units of the portions of both sides: one for each, or one for two, those of the layout side in their order.
fn units(layout: &[Element], logical: &[Element], rng: &mut Rng) -> Vec<Element> {
    let mut logical: Vec<String> = logical.iter().flat_map(Element::unit_names).collect();
    if !layout.is_empty() && rng.one_in(2) {
        rng.shuffle(&mut logical);
    }
    let mut units = Vec::new();
    for name in layout.iter().flat_map(Element::unit_names) {
        let other = (!logical.is_empty() && rng.one_in(2)).then(|| logical.remove(0));
        units.push(unit(Some(name), other));
    }
    let mut from = 0;
    for name in logical {
        // In the order of the logical side, where that counts.
        let place = if layout.is_empty() { units.len() } else { rng.between(from, units.len()) };
        units.insert(place, unit(None, Some(name)));
        from = if rng.one_in(2) { place + 1 } else { 0 };
    }
    units
}

/// A letter in the order of a class.
pub fn letter(edition: Edition, class: Class, rng: &mut Rng) -> Vec<Element> {
    let most = *rng.pick(&[1, 2, 3, 6]);
    let mut number = 0;
    let mut letter = vec![Element::plain(0xA0)];
    let mut styles =
        |octet: u8, rng: &mut Rng| -> Vec<Element> { (0..rng.below(3)).map(|_| style(octet, &mut number)).collect() };
    let (presentation, layout_styles) = (styles(0xA7, rng), styles(0xA8, rng));
    let [classes, objects] = [0xA1, 0xA2].map(|octet| some(octet, most, &mut number, rng));
    match class {
        Class::A => {
            let [logical_classes, logical_objects] = [0xA5, 0xA6].map(|octet| some(octet, most, &mut number, rng));
            let mut generic = units(&classes, &logical_classes, rng);
            rng.shuffle(&mut generic);
            let specific = units(&objects, &logical_objects, rng);
            letter.extend([classes, logical_classes, generic, presentation, layout_styles].concat());
            letter.extend([objects, logical_objects, specific].concat());
        }
        Class::B => {
            letter.extend(classes.into_iter().flat_map(|head| with_units(head, rng)));
            letter.extend(presentation);
            letter.extend(objects.into_iter().flat_map(|head| with_units(head, rng)));
        }
    }
    if edition == Edition::Of1993 {
        let octets: &[u8] = if class == Class::A { &[0xA9, 0xAA, 0xAB, 0xAC] } else { &[0xA9, 0xAA, 0xAC] };
        letter.extend(octets.iter().flat_map(|&octet| vec![Element::plain(octet); rng.below(3)]));
    }
    letter
}

/// A layout class or object and its units, in any order, some with logical identifiers that mean nothing here.
fn with_units(head: Element, rng: &mut Rng) -> Vec<Element> {
    let names = head.unit_names();
    let mut units: Vec<Element> = names
        .into_iter()
        .map(|name| {
            let logical = rng.one_in(4).then(|| format!("9 {name}"));
            unit(Some(name), logical)
        })
        .collect();
    rng.shuffle(&mut units);
    [vec![head], units].concat()
}

/// Swaps, drops, doubles, moves or renames.
fn change(elements: &mut Vec<Element>, rng: &mut Rng) {
    if elements.len() < 3 {
        return;
    }
    // The profile stays where it is.
    let last = elements.len() - 1;
    let (one, other) = (rng.between(1, last), rng.between(1, last));
    match rng.below(8) {
        0 => elements.swap(one, other),
        1 => elements.swap(one, last.min(one + 1)),
        2 => drop(elements.remove(one)),
        3 => {
            let moved = elements.remove(one);
            elements.insert(other, moved);
        }
        4 => {
            let double = elements[one].clone();
            elements.insert(other, double);
        }
        5 => {
            // That element under another name: its portions want units of their own.
            let mut double = elements[one].clone();
            double.identifier = double.identifier.map(|name| format!("8 {name}"));
            double.logical = None;
            elements.insert(other, double);
        }
        6 => rename(elements, one, rng),
        _ => elements.truncate(one + 1),
    }
}

/// Takes an identifier away, or lets a unit answer a portion of another element too.
fn rename(elements: &mut [Element], place: usize, rng: &mut Rng) {
    let names = |octets: [u8; 2]| -> Vec<String> {
        elements.iter().filter(|other| octets.contains(&other.octet)).flat_map(Element::unit_names).collect()
    };
    let (layout, logical) = (names([0xA1, 0xA2]), names([0xA5, 0xA6]));
    let element = &mut elements[place];
    match element.octet {
        0xA3 if !logical.is_empty() && rng.one_in(2) => element.logical = Some(rng.pick(&logical).clone()),
        0xA3 if !layout.is_empty() && rng.one_in(2) => element.identifier = Some(rng.pick(&layout).clone()),
        0xA2 | 0xA3 | 0xA6 => element.identifier = None,
        _ => {}
    }
}

#[cfg(test)]
mod tests {
    use super::*;
    use crate::editions::to_reader;

    #[test]
    fn letters_in_order_are_in_order() {
        for number in 0..4_000 {
            let mut rng = Rng::of_stream(3, number);
            let (edition, class) = (*rng.pick(&Edition::ALL), *rng.pick(&Class::ALL));
            let elements = letter(edition, class, &mut rng);
            let stream = written(&elements, &mut rng);
            let reading = reader::Reading::by(to_reader(edition), &stream);
            let answer = reading.order(second::order::to_reader(class));
            assert_eq!((answer.number, answer.place), (0, 0), "letter {number}, class {class:?}: {elements:?}");
        }
    }

    /// The reader and the definition say the same of letters in order and of changed ones, and all cases are met.
    #[test]
    fn the_reader_and_the_definition_agree() {
        use second::order::definition::Run;
        let mut met = [[0; 3]; 2];
        for number in 0..40_000 {
            let (stream, _) = stream(5, number);
            for edition in Edition::ALL {
                let reading = reader::Reading::by(to_reader(edition), &stream);
                let Some(run) = Run::of(&stream, &reading) else { continue };
                for class in Class::ALL {
                    let answer = reading.order(second::order::to_reader(class));
                    let is_so = run.is_answer(class, answer.number, answer.place, second::order::FEW);
                    assert!(is_so, "letter {number} by {edition}, class {class:?}: {answer:?}\n{run:?}");
                    let case = match answer.number {
                        0 => 0,
                        _ if answer.place as usize == stream.len() => 1,
                        _ => 2,
                    };
                    met[class as usize][case] += 1;
                }
            }
        }
        println!("{met:?}");
        assert!(met.as_flattened().iter().all(|&count| count > 500), "{met:?}");
    }
}
