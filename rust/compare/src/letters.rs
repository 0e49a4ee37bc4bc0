//! Generated letters of both editions: good ones with everything that they let pass, and ones with a slip or two.

use std::collections::HashSet;

use odif::Edition;

use crate::coding::{Item, any_form};
use crate::dates;
use crate::rng::Rng;

/// The universal octets whose form is in the table.
const UNIVERSAL: [u8; 37] = [
    0x01, 0x02, 0x03, 0x04, 0x05, 0x06, 0x07, 0x09, 0x0A, 0x0B, 0x12, 0x13, 0x14, 0x15, 0x16, 0x17, 0x18, 0x19, 0x1A,
    0x1B, 0x23, 0x24, 0x27, 0x28, 0x2B, 0x30, 0x31, 0x32, 0x33, 0x34, 0x35, 0x36, 0x37, 0x38, 0x39, 0x3A, 0x3B,
];
/// The octets that have a meaning in the 31 of a class or object, in that of a unit, and in a style.
const OF_OBJECT: [u8; 4] = [0x41, 0xA1, 0x61, 0x81];
const OF_UNIT: [u8; 4] = [0x40, 0x84, 0x60, 0xA4];
const OF_STYLE: [u8; 2] = [0x45, 0x65];
/// The longest identifier.
const LONGEST: usize = 64;

/// An accepted letter of an edition, its lengths in any form.
pub fn good(edition: Edition, rng: &mut Rng) -> Vec<u8> {
    let elements = elements(edition, rng);
    write(&elements, rng)
}

/// A letter with a slip or two; now and then it is accepted all the same.
pub fn slipped(edition: Edition, rng: &mut Rng) -> Vec<u8> {
    let mut elements = elements(edition, rng);
    for _ in 0..rng.between(1, 2) {
        slip(&mut elements, rng);
    }
    write(&elements, rng)
}

fn write(elements: &[Item], rng: &mut Rng) -> Vec<u8> {
    let mut choose = any_form(rng);
    elements.iter().flat_map(|element| element.write(&mut choose)).collect()
}

/// The elements of a good letter, the profile first and the others in any order.
fn elements(edition: Edition, rng: &mut Rng) -> Vec<Item> {
    let size = *rng.pick(&[1, 3, 3, 8, 8, 30]);
    let mut names = Names::default();
    let mut elements = Vec::new();
    for _ in 0..rng.below(size + 1) {
        elements.push(object(&mut names, rng));
    }
    for _ in 0..rng.below(size + 1) {
        if let Some(unit) = unit(edition, &mut names, rng) {
            elements.push(unit);
        }
    }
    if edition == Edition::Of1993 {
        elements.extend((0..rng.below(3)).map(|_| protected_part(&names, rng)));
    }
    for _ in 0..rng.below(3) {
        elements.push(style(&mut names, rng));
    }
    rng.shuffle(&mut elements);
    let profile = dates::profile(free_items(rng, 2, &[]), rng);
    elements.insert(0, profile);
    elements
}

/// The names given out so far, and those that units should meet or just miss.
#[derive(Default)]
struct Names {
    objects: HashSet<String>,
    styles: HashSet<String>,
    layout: HashSet<String>,
    logical: HashSet<String>,
    wanted: Vec<String>,
}

fn digits(rng: &mut Rng) -> String {
    match rng.below(8) {
        0 => "00".into(),
        1 => format!("0{}", rng.below(3)),
        2 => rng.below(1_000_000).to_string(),
        _ => rng.below(4).to_string(),
    }
}

fn new_name(space: &mut HashSet<String>, rng: &mut Rng) -> String {
    loop {
        let groups = if rng.one_in(30) { rng.between(10, 25) } else { rng.between(1, 4) };
        let mut name = (0..groups).map(|_| digits(rng)).collect::<Vec<_>>().join(" ");
        if rng.one_in(30) {
            name = format!("{name}{}", "7".repeat(LONGEST.saturating_sub(name.len())));
        }
        if name.len() <= LONGEST && space.insert(name.clone()) {
            return name;
        }
    }
}

fn portions(rng: &mut Rng) -> Vec<String> {
    let count = if rng.one_in(15) { 64 } else { rng.below(6) };
    let mut known = HashSet::new();
    let mut portions = Vec::new();
    while portions.len() < count {
        let portion = match rng.below(20) {
            0 => format!("{:016}", rng.below(100)),
            1 => format!("{:03}", rng.below(100)),
            _ => rng.below(2 * count).to_string(),
        };
        if known.insert(portion.clone()) {
            portions.push(portion);
        }
    }
    portions
}

fn object(names: &mut Names, rng: &mut Rng) -> Item {
    let octet = *rng.pick(&[0xA1, 0xA2, 0xA2, 0xA2, 0xA5, 0xA6, 0xA6, 0xA6]);
    let is_class = matches!(octet, 0xA1 | 0xA5);
    let mut run = Vec::new();
    if is_class || !rng.one_in(5) {
        let greatest = if octet < 0xA3 { 4 } else { 2 };
        run.push(Item::value(0x02, [rng.between(0, greatest) as u8]));
    }
    if is_class || !rng.one_in(10) {
        let mut descriptor = free_items(rng, 3, &OF_OBJECT);
        let name = (is_class || !rng.one_in(10)).then(|| new_name(&mut names.objects, rng));
        if !rng.one_in(4) {
            let portions = portions(rng);
            for portion in &portions {
                names.wanted.extend(name.iter().map(|name| format!("{name} {portion}")));
            }
            let portions = portions.into_iter().map(|portion| Item::value(0x12, portion)).collect();
            descriptor.push(Item::run(0xA1, portions));
        }
        descriptor.extend(name.map(|name| Item::value(0x41, name)));
        rng.shuffle(&mut descriptor);
        run.push(Item::run(0x31, descriptor));
    }
    Item::run(octet, run)
}

/// A unit identifier: one that meets a portion, one that just misses, or any.
fn unit_name(wanted: &[String], space: &mut HashSet<String>, rng: &mut Rng) -> Option<String> {
    if wanted.is_empty() || rng.one_in(6) {
        return Some(new_name(space, rng));
    }
    let met = rng.pick(wanted).clone();
    let name = if rng.one_in(3) { near_miss(&met, rng) } else { met };
    (name.len() <= LONGEST && space.insert(name.clone())).then_some(name)
}

fn near_miss(name: &str, rng: &mut Rng) -> String {
    let (front, last) = name.rsplit_once(' ').unwrap_or(("0", name));
    match rng.below(8) {
        0 => format!("{name} 0"),
        1 => format!("{name}0"),
        2 => front.into(),
        3 => format!("{front} 0{last}"),
        4 => format!("0{name}"),
        5 => format!("{front} 0 {last}"),
        6 => name.replacen(' ', "", 1),
        _ => format!("{front} {}", digits(rng)),
    }
}

/// A text unit; `None` where its name is taken.
fn unit(edition: Edition, names: &mut Names, rng: &mut Rng) -> Option<Item> {
    let mut run = Vec::new();
    if !rng.one_in(12) {
        let mut descriptor = free_items(rng, 3, &OF_UNIT);
        let which = rng.below(8);
        if which < 5 {
            descriptor.push(Item::value(0x40, unit_name(&names.wanted, &mut names.layout, rng)?));
        }
        if (4..7).contains(&which) {
            descriptor.push(Item::value(0x84, unit_name(&names.wanted, &mut names.logical, rng)?));
        }
        rng.shuffle(&mut descriptor);
        run.push(Item::run(0x31, descriptor));
    }
    run.extend(content(edition, rng));
    Some(Item::run(0xA3, run))
}

/// The content of a text unit: an octet string, in pieces or not, and in 1993 tiles, or none.
fn content(edition: Edition, rng: &mut Rng) -> Option<Item> {
    let sorts = if edition == Edition::Of1993 { 5 } else { 3 };
    match rng.below(sorts) {
        0 => Some(in_pieces(0x24, 0x04, rng)),
        1 | 2 => Some(text(rng)),
        3 => Some(in_pieces(0x30, 0x04, rng)),
        _ => None,
    }
}

/// A protected part of 1993: its identifier, of any spelling or that of another element, and its information, which may
/// be in pieces.
fn protected_part(names: &Names, rng: &mut Rng) -> Item {
    let octet = rng.between(0xA9, 0xAC) as u8;
    let identifier = match rng.below(4) {
        0 => misspelt_name(rng),
        1 => names.objects.iter().min().map_or(Vec::new(), |name| name.clone().into_bytes()),
        _ => digits(rng).into_bytes(),
    };
    let string = if octet == 0xA9 { 0x03 } else { 0x04 };
    let information = if rng.one_in(3) {
        in_pieces(string | 0x20, string, rng)
    } else {
        let length = *rng.pick(&[0, 1, 2, 16, 128]);
        Item::value(string, rng.octets(length))
    };
    Item::run(octet, vec![Item::value(0x47, identifier), information])
}

/// The deepest level of an item.
const DEEPEST: usize = 16;

fn text(rng: &mut Rng) -> Item {
    let length = *rng.pick(&[0, 1, 5, 30, 127, 128, 300]);
    Item::value(0x04, rng.octets(length))
}

/// A string in pieces of this octet, or tiles: a few of them, empty and nested ones among them, now and then down to the
/// deepest level.
fn in_pieces(octet: u8, string: u8, rng: &mut Rng) -> Item {
    let deepest = if rng.one_in(8) { DEEPEST } else { rng.between(3, 6) };
    Item::run(octet, pieces(string, rng, 3, deepest))
}

/// Pieces at this level. Where they are to reach a deep level, one of them leads there.
fn pieces(string: u8, rng: &mut Rng, level: usize, deepest: usize) -> Vec<Item> {
    let count = rng.below(4);
    let mut pieces: Vec<Item> = (0..count).map(|_| piece(string, rng, level, deepest)).collect();
    if deepest == DEEPEST && level < DEEPEST {
        let at = rng.below(count + 1);
        pieces.insert(at, Item::run(string | 0x20, self::pieces(string, rng, level + 1, deepest)));
    }
    pieces
}

fn piece(string: u8, rng: &mut Rng, level: usize, deepest: usize) -> Item {
    if !rng.one_in(3) {
        let length = *rng.pick(&[0, 1, 2, 3, 60]);
        return Item::value(string, rng.octets(length));
    }
    // Only one of a run goes on to a deep level, so that letters stay short.
    let inner = if level < deepest.min(6) { pieces(string, rng, level + 1, deepest.min(6)) } else { Vec::new() };
    Item::run(string | 0x20, inner)
}

fn style(names: &mut Names, rng: &mut Rng) -> Item {
    let mut run = free_items(rng, 2, &OF_STYLE);
    run.push(Item::value(0x45, new_name(&mut names.styles, rng)));
    rng.shuffle(&mut run);
    Item::run(*rng.pick(&[0xA7, 0xA8]), run)
}

/// A few items that mean nothing, the first of them at this level.
fn free_items(rng: &mut Rng, level: usize, avoid: &[u8]) -> Vec<Item> {
    let count = *rng.pick(&[0, 0, 0, 1, 1, 2, 4]);
    let deepest = if rng.one_in(10) { 16 } else { level + 2 };
    (0..count).map(|_| free_item(rng, level, deepest, avoid)).collect()
}

fn free_item(rng: &mut Rng, level: usize, deepest: usize, avoid: &[u8]) -> Item {
    let octet = loop {
        let octet = if rng.one_in(2) { *rng.pick(&UNIVERSAL) } else { rng.octet() | *rng.pick(&[0x40, 0x80, 0xC0]) };
        let wanted = deepest <= level + 2 || octet & 0x20 != 0 || rng.one_in(4);
        if octet & 0x1F != 0x1F && !avoid.contains(&octet) && wanted {
            break octet;
        }
    };
    if octet & 0x20 != 0 {
        let count = if level == deepest { 0 } else { *rng.pick(&[0, 1, 1, 2]) };
        return Item::run(octet, (0..count).map(|_| free_item(rng, level + 1, deepest, &[])).collect());
    }
    let length = match octet {
        0x01 => 1,
        0x05 => 0,
        0x02 | 0x0A => rng.between(1, 4),
        _ => *rng.pick(&[0, 1, 2, 3, 8, 127, 128]),
    };
    Item::value(octet, rng.octets(length))
}

/// One slip of a writer of letters.
fn slip(elements: &mut Vec<Item>, rng: &mut Rng) {
    match rng.below(6) {
        0 => slip_in_value(elements, rng),
        1 => slip_in_descriptor(elements, rng),
        2 => slip_in_element(elements, rng),
        3 => slip_among_pieces(elements, rng),
        4 => slip_in_protected_part(elements, rng),
        _ => slip_among_elements(elements, rng),
    }
}

/// A name or a number misspelt, taken from elsewhere, or an object type that is none.
fn slip_in_value(elements: &mut [Item], rng: &mut Rng) {
    const NAMES: [u8; 4] = [0x40, 0x41, 0x45, 0x84];
    match rng.below(4) {
        0 => set_value(elements, rng, &NAMES, misspelt_name),
        1 => set_value(elements, rng, &[0x12], misspelt_portion),
        2 => {
            let length = rng.below(3);
            set_value(elements, rng, &[0x02], |rng| rng.octets(length));
        }
        _ => {
            let name = value_of(elements, rng, &NAMES);
            set_value(elements, rng, &NAMES, |_| name.unwrap_or_default());
        }
    }
}

/// Too many portions, one twice, one that is none, or an item that is forbidden or there already.
fn slip_in_descriptor(elements: &mut [Item], rng: &mut Rng) {
    match rng.below(4) {
        0 => change_run(elements, rng, &[0xA1], |run, rng| {
            let portions = rng.between(63, 66);
            *run = (0..portions).map(|portion| Item::value(0x12, portion.to_string())).collect();
        }),
        1 => change_run(elements, rng, &[0xA1], |run, rng| {
            let portion = free_item(rng, 4, 4, &[]);
            run.insert(rng.below(run.len() + 1), portion);
        }),
        2 => change_run(elements, rng, &[0xA1], |run, rng| {
            if !run.is_empty() {
                run.push(rng.pick(run).clone());
            }
        }),
        _ => change_run(elements, rng, &[0x31, 0xA7, 0xA8], |run, rng| {
            let octet = *rng.pick(&[0x40, 0x41, 0x45, 0x60, 0x61, 0x65, 0x81, 0x84, 0xA1, 0xA4]);
            let item = if octet & 0x20 != 0 { Item::run(octet, Vec::new()) } else { Item::value(octet, *b"9 9") };
            run.insert(rng.below(run.len() + 1), item);
        }),
    }
}

/// An item too many, one too few, or another order.
fn slip_in_element(elements: &mut [Item], rng: &mut Rng) {
    let place = rng.below(elements.len());
    let Item::Constructed(_, run) = &mut elements[place] else { return };
    match rng.below(3) {
        0 => {
            let item = match rng.below(5) {
                0 => Item::value(0x02, [0]),
                1 => Item::value(0x04, *b"text"),
                2 => Item::run(0x31, Vec::new()),
                3 => Item::run(0x30, vec![Item::value(0x04, *b"tile")]),
                _ => free_item(rng, 2, 4, &[]),
            };
            run.insert(rng.below(run.len() + 1), item);
        }
        1 if !run.is_empty() => {
            run.remove(rng.below(run.len()));
        }
        _ => rng.shuffle(run),
    }
}

/// Somewhere among the pieces of a content or of a seal, at whatever level, an item that is no piece, or almost one.
fn slip_among_pieces(elements: &mut [Item], rng: &mut Rng) {
    let contents = elements.iter_mut().filter_map(|element| match element {
        Item::Constructed(0xA3 | 0xA9..=0xAC, run) => run.last_mut(),
        _ => None,
    });
    let mut in_pieces: Vec<_> = contents.filter(|content| matches!(octet_of(content), 0x23 | 0x24 | 0x30)).collect();
    if in_pieces.is_empty() {
        return;
    }
    let place = rng.below(in_pieces.len());
    let item = match rng.below(4) {
        0 => free_item(rng, DEEPEST, DEEPEST, &[]),
        1 => Item::value(*rng.pick(&[0x03, 0x04, 0x05, 0x12, 0x16, 0x44, 0x84, 0xC4]), Vec::new()),
        _ => Item::run(*rng.pick(&[0x23, 0x24, 0x30, 0x31, 0x32, 0x34, 0x64, 0xA4, 0xE4]), Vec::new()),
    };
    put_among_pieces(in_pieces.swap_remove(place), item, rng);
}

/// Puts an item into the run of a 24 or 23, or into that of one in it.
fn put_among_pieces(pieces: &mut Item, item: Item, rng: &mut Rng) {
    let Item::Constructed(_, run) = pieces else { return };
    let nested: Vec<usize> = (0..run.len()).filter(|&place| matches!(octet_of(&run[place]), 0x23 | 0x24)).collect();
    if nested.is_empty() || rng.one_in(4) {
        run.insert(rng.below(run.len() + 1), item);
    } else {
        put_among_pieces(&mut run[*rng.pick(&nested)], item, rng);
    }
}

/// A protected part whose items are of another octet or form, too many, too few, or in another order; where there is
/// none, one more.
fn slip_in_protected_part(elements: &mut Vec<Item>, rng: &mut Rng) {
    let parts: Vec<usize> =
        (0..elements.len()).filter(|&at| (0xA9..=0xAC).contains(&octet_of(&elements[at]))).collect();
    let place = match parts[..] {
        [] => elements.len(),
        _ => *rng.pick(&parts),
    };
    if parts.is_empty() {
        elements.push(protected_part(&Names::default(), rng));
    }
    let Item::Constructed(octet, run) = &mut elements[place] else { return };
    let other = |rng: &mut Rng| {
        let octet = *rng.pick(&[0x03, 0x04, 0x05, 0x23, 0x24, 0x30, 0x31, 0x41, 0x45, 0x47, 0x67]);
        if octet & 0x20 != 0 { Item::run(octet, Vec::new()) } else { Item::value(octet, Vec::new()) }
    };
    match rng.below(6) {
        // An earlier slip has been here.
        _ if run.len() != 2 => {}
        0 => run[0] = other(rng),
        1 => run[1] = other(rng),
        2 => run.insert(rng.below(3), other(rng)),
        3 => drop(run.remove(rng.below(2))),
        4 => run.swap(0, 1),
        _ => *octet = *rng.pick(&[0xA4, 0xA9, 0xAA, 0xAB, 0xAC, 0xAD, 0xA3, 0xA8, 0xA0]),
    }
}

/// An element that no letter has, a second profile, or an element twice.
fn slip_among_elements(elements: &mut Vec<Item>, rng: &mut Rng) {
    if rng.one_in(2) {
        elements.push(rng.pick(elements).clone());
    } else {
        let octet = *rng.pick(&[0xA0, 0xA0, 0xA4, 0xA9, 0xAA, 0xAD, 0x30, 0x60, 0xE2]);
        elements.insert(rng.below(elements.len() + 1), Item::run(octet, Vec::new()));
    }
}

fn misspelt_name(rng: &mut Rng) -> Vec<u8> {
    let long = "1".repeat(rng.between(64, 67));
    let bad = ["", " ", "1  0", " 1", "1 ", "1.0", "1\t0", "one", "1\0", "١", &long];
    rng.pick(&bad).as_bytes().to_vec()
}

fn misspelt_portion(rng: &mut Rng) -> Vec<u8> {
    let long = "1".repeat(rng.between(15, 18));
    let bad = ["", "0 2", " 0", "0 ", "x", "-1", "1.", &long];
    rng.pick(&bad).as_bytes().to_vec()
}

fn octet_of(item: &Item) -> u8 {
    match item {
        Item::Primitive(octet, _) | Item::Constructed(octet, _) => *octet,
    }
}

/// The items with one of these octets, below the elements.
fn gather<'t>(run: &'t mut [Item], octets: &[u8], found: &mut Vec<&'t mut Item>) {
    for item in run {
        if octets.contains(&octet_of(item)) {
            found.push(item);
        } else if let Item::Constructed(_, inner) = item {
            gather(inner, octets, found);
        }
    }
}

fn one_of<'t>(elements: &'t mut [Item], rng: &mut Rng, octets: &[u8]) -> Option<&'t mut Item> {
    let mut found = Vec::new();
    for element in elements {
        if octets.contains(&octet_of(element)) && octet_of(element) >= 0xA7 {
            found.push(element);
        } else if let Item::Constructed(_, run) = element {
            gather(run, octets, &mut found);
        }
    }
    if found.is_empty() {
        return None;
    }
    let place = rng.below(found.len());
    Some(found.swap_remove(place))
}

fn value_of(elements: &mut [Item], rng: &mut Rng, octets: &[u8]) -> Option<Vec<u8>> {
    match one_of(elements, rng, octets) {
        Some(Item::Primitive(_, value)) => Some(value.clone()),
        _ => None,
    }
}

fn set_value(elements: &mut [Item], rng: &mut Rng, octets: &[u8], make: impl FnOnce(&mut Rng) -> Vec<u8>) {
    if let Some(Item::Primitive(_, value)) = one_of(elements, rng, octets) {
        *value = make(rng);
    }
}

fn change_run(elements: &mut [Item], rng: &mut Rng, octets: &[u8], change: impl FnOnce(&mut Vec<Item>, &mut Rng)) {
    if let Some(Item::Constructed(_, run)) = one_of(elements, rng, octets) {
        change(run, rng);
    }
}
