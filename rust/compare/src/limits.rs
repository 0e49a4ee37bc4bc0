//! Every limit of document 01 from both sides, and every small choice that it and the edition of 1993 leave.

mod dates;
mod orders;
mod pages;
mod parents;
mod pieces;
mod protected;
mod texts;
mod types;

use odif::{MOST_ELEMENTS, SHORT_LIMIT, STREAM_LIMIT};

use crate::coding::{Form, indefinite, item, item_in};

/// A stream with the limit that it is about.
pub type Case = (String, Vec<u8>);

/// The octets of the elements with an identifier of their own, in a descriptor or directly.
const OBJECTS: [u8; 4] = [0xA1, 0xA2, 0xA5, 0xA6];
const STYLES: [u8; 2] = [0xA7, 0xA8];
const PROFILE: [u8; 2] = [0xA0, 0x00];

/// The groups of cases. Each group is made when it is wanted, for some are large.
pub const GROUPS: [fn() -> Vec<Case>; 50] = [
    stream_length,
    element_count,
    full_tables,
    long_names,
    portion_count,
    identifiers,
    portion_numbers,
    object_types,
    levels,
    lengths,
    first_length_octets,
    primitive_lengths,
    closing_marks,
    first_octets,
    types::numbers,
    types::cut,
    types::places,
    dates::days,
    dates::years,
    dates::spellings,
    dates::paths,
    dates::fronts,
    contents,
    pieces::short_runs,
    pieces::deep,
    pieces::many,
    pieces::most,
    pieces::tiles,
    protected::contents,
    protected::pieces,
    protected::named,
    protected::many,
    protected::before_and_after,
    descriptors,
    normal_length,
    short_length,
    name_spaces,
    parents::places,
    parents::many,
    texts::orders,
    texts::most,
    texts::long,
    orders::short_runs,
    orders::long_names,
    orders::many,
    pages::bounds,
    pages::numbers,
    pages::contents,
    pages::places,
    two_faults,
];

fn case(name: impl Into<String>, stream: Vec<u8>) -> Case {
    (name.into(), stream)
}

/// A letter with an empty profile.
fn letter(elements: &[Vec<u8>]) -> Vec<u8> {
    [&PROFILE[..], &elements.concat()].concat()
}

/// A class or object with this descriptor.
fn object(octet: u8, descriptor: &[u8]) -> Vec<u8> {
    item(octet, &[item(0x02, &[0]), item(0x31, descriptor)].concat())
}

fn portions(numbers: &[String]) -> Vec<u8> {
    item(0xA1, &numbers.iter().flat_map(|number| item(0x12, number.as_bytes())).collect::<Vec<_>>())
}

/// A text unit with this descriptor.
fn unit(descriptor: &[u8], text: &[u8]) -> Vec<u8> {
    item(0xA3, &[item(0x31, descriptor), item(0x04, text)].concat())
}

/// An accepted stream of so many octets, at least 65,546.
fn filler(length: usize) -> Vec<u8> {
    item_in(Form::Long(3), 0xA0, &item_in(Form::Long(3), 0x04, &vec![0x55; length - 10]))
}

fn stream_length() -> Vec<Case> {
    let lengths = [STREAM_LIMIT - 1, STREAM_LIMIT, STREAM_LIMIT + 1, 2 * STREAM_LIMIT];
    let mut cases: Vec<Case> =
        lengths.into_iter().map(|length| case(format!("a stream of {length} octets"), filler(length))).collect();
    for octet in [0x00, 0xA0, 0xFF] {
        cases.push(case(format!("{octet:02X} over the limit"), vec![octet; STREAM_LIMIT + 1]));
        cases.push(case(format!("{octet:02X} up to the limit"), vec![octet; STREAM_LIMIT]));
    }
    let mut late = filler(STREAM_LIMIT - 2);
    late.extend([0xA4, 0x00]);
    cases.push(case("a last element that does not exist, at the limit", late));
    cases
}

fn element_count() -> Vec<Case> {
    let elements = |count: usize| letter(&vec![vec![0xA2, 0x00]; count - 1]);
    let mut cases = Vec::new();
    for count in [MOST_ELEMENTS - 1, MOST_ELEMENTS, MOST_ELEMENTS + 1, MOST_ELEMENTS + 900] {
        cases.push(case(format!("{count} elements"), elements(count)));
    }
    for (name, last) in [
        ("unknown", [0xA4, 0x00]),
        ("a profile", [0xA0, 0x00]),
        ("without content", [0xA3, 0x00]),
        ("protected", [0xAA, 0x00]),
    ] {
        for count in [MOST_ELEMENTS, MOST_ELEMENTS + 1] {
            let stream = [elements(count - 1), last.to_vec()].concat();
            cases.push(case(format!("the last of {count} elements is {name}"), stream));
        }
    }
    cases
}

/// As many names and matches as there can be.
fn full_tables() -> Vec<Case> {
    let unit_of = |number: usize| {
        let names = [item(0x40, format!("1 {number} 0").as_bytes()), item(0x84, format!("{number} 0").as_bytes())];
        unit(&names.concat(), b"text")
    };
    let object_of =
        |octet: u8, name: String| object(octet, &[item(0x41, name.as_bytes()), portions(&["0".into()])].concat());
    let units: Vec<_> = (0..MOST_ELEMENTS - 1).map(unit_of).collect();
    let mut pairs = Vec::new();
    for number in 0..(MOST_ELEMENTS - 1) / 3 {
        pairs.push(object_of(0xA2, format!("1 {number}")));
        pairs.push(object_of(0xA6, format!("{number}")));
        pairs.push(unit_of(number));
    }
    let mut backwards = pairs.clone();
    backwards.reverse();
    let mut twice = units.clone();
    twice[MOST_ELEMENTS - 2] = twice[0].clone();
    let many = (0..1_000).map(|number| {
        let numbers: Vec<_> = (0..64).map(|portion| portion.to_string()).collect();
        object(0xA2, &[item(0x41, number.to_string().as_bytes()), portions(&numbers)].concat())
    });
    let met = (0..3_000).map(|number| {
        let name = format!("{} {}", number % 1_000, number % 67);
        unit(&item(0x40, name.as_bytes()), b"")
    });
    let mut met_once: Vec<_> = met.collect();
    met_once.sort();
    met_once.dedup();
    vec![
        case("all elements are units with two names", letter(&units)),
        case("the last of all units has the name of the first", letter(&twice)),
        case("a third of all elements are met on both sides", letter(&pairs)),
        case("the same, backwards", letter(&backwards)),
        case("64 portions in each of 1,000 objects", letter(&many.chain(met_once).collect::<Vec<_>>())),
    ]
}

/// Every unit's name begins with every name that is looked for, and is none of them.
fn long_names() -> Vec<Case> {
    let zeros: Vec<_> = (1..=16).map(|count| "0".repeat(count)).collect();
    let holder = |octet: u8, name: &[u8]| object(octet, &[item(0x41, name), portions(&zeros)].concat());
    let longer = (0..MOST_ELEMENTS - 3).map(|number| {
        let name = |first: u8| format!("{first} {}{number}", "0".repeat(17));
        unit(&[item(0x40, name(2).as_bytes()), item(0x84, name(6).as_bytes())].concat(), b"")
    });
    let elements: Vec<_> = [holder(0xA2, b"2"), holder(0xA6, b"6")].into_iter().chain(longer).collect();
    vec![case("names that begin with those looked for", letter(&elements))]
}

fn portion_count() -> Vec<Case> {
    let mut cases = Vec::new();
    for octet in OBJECTS {
        let with = |items: Vec<u8>| letter(&[object(octet, &[item(0x41, b"1"), item(0xA1, &items)].concat())]);
        let run = |count: usize| (0..count).flat_map(|number| item(0x12, format!("{number}").as_bytes()));
        for count in [0, 1, 2, 63, 64, 65, 66, 200] {
            cases.push(case(format!("{count} portions in {octet:02X}"), with(run(count).collect())));
        }
        for count in [1, 63, 64, 65] {
            for (name, last) in [
                ("no 12", item(0x13, b"9")),
                ("a constructed 12", item(0x32, &[])),
                ("the first again", item(0x12, b"0")),
                ("misspelt", item(0x12, b"")),
            ] {
                let stream = with(run(count).chain(last).collect());
                cases.push(case(format!("{count} portions in {octet:02X}, then {name}"), stream));
            }
        }
    }
    cases
}

/// Every place of an identifier, with its octet.
fn with_identifier(name: &[u8]) -> Vec<Case> {
    let mut cases: Vec<Case> =
        OBJECTS.map(|octet| case(format!("{octet:02X}"), letter(&[object(octet, &item(0x41, name))]))).into();
    cases.extend(STYLES.map(|octet| case(format!("{octet:02X}"), letter(&[item(octet, &item(0x45, name))]))));
    for octet in [0x40, 0x84] {
        cases.push(case(format!("A3 with {octet:02X}"), letter(&[unit(&item(octet, name), b"")])));
    }
    cases
}

fn identifiers() -> Vec<Case> {
    let mut names: Vec<Vec<u8>> = [0, 1, 2, 62, 63, 64, 65, 66, 127, 128, 300].map(|length| vec![b'7'; length]).into();
    names.extend([62, 63, 64, 65, 66].map(|length| (0..length).map(|place| b"1 "[place % 2]).collect()));
    names.extend(
        ["0", " ", "  ", " 0", "0 ", "0  0", "0 0", "0 0 0", "a", "0a", "0\n", "0\0", "0,0", "0\u{a0}0", "/", ":", "!"]
            .map(|name| name.as_bytes().to_vec()),
    );
    names.extend((0..=255).map(|octet| vec![b'1', octet, b'2']));
    let places = |name: &Vec<u8>| {
        let shown = String::from_utf8_lossy(name).escape_debug().to_string();
        with_identifier(name).into_iter().map(move |(place, stream)| case(format!("\"{shown}\" in {place}"), stream))
    };
    names.iter().flat_map(places).collect()
}

fn portion_numbers() -> Vec<Case> {
    let mut numbers: Vec<Vec<u8>> = [0, 1, 2, 15, 16, 17, 18, 64, 65].map(|length| vec![b'7'; length]).into();
    numbers.extend([" ", "0 ", " 0", "0 2", "x", "00", "0x", "-0"].map(|number| number.as_bytes().to_vec()));
    numbers.extend((0..=255).map(|octet| vec![octet]));
    let mut cases = Vec::new();
    for number in &numbers {
        for octet in OBJECTS {
            let list = item(0xA1, &[item(0x12, b"1"), item(0x12, number)].concat());
            let stream = letter(&[object(octet, &[list, item(0x41, b"5")].concat())]);
            cases.push(case(format!("portion {number:?} in {octet:02X}"), stream));
        }
    }
    for pair in [["0", "00"], ["00", "0"], ["1", "1"], ["01", "1"], ["10", "1"], ["0000000000000000", "0"]] {
        let list = portions(&pair.map(String::from));
        let stream = letter(&[object(0xA2, &list), unit(&[], b"")]);
        cases.push(case(format!("portions {pair:?}"), stream));
    }
    cases
}

fn object_types() -> Vec<Case> {
    let mut cases = Vec::new();
    for octet in OBJECTS {
        for form in [Form::Shortest, Form::Long(1), Form::Long(4)] {
            let mut values: Vec<Vec<u8>> = (0..=255).map(|number| vec![number]).collect();
            values.extend([vec![], vec![0, 0], vec![0, 4], vec![0, 0, 0, 0]]);
            for value in values {
                let contents = [item_in(form, 0x02, &value), item(0x31, &item(0x41, b"1"))].concat();
                cases.push(case(format!("object type {value:?} in {octet:02X}"), letter(&[item(octet, &contents)])));
            }
        }
    }
    cases
}

fn levels() -> Vec<Case> {
    let inner: [(&str, Vec<u8>); 9] = [
        ("nothing", vec![]),
        ("a primitive", vec![0x05, 0x00]),
        ("a constructed", vec![0x30, 0x00]),
        ("an indefinite", vec![0x30, 0x80, 0x00, 0x00]),
        ("00", vec![0x00]),
        ("00 00", vec![0x00, 0x00]),
        ("00 01", vec![0x00, 0x01]),
        ("11111", vec![0x1F, 0x00]),
        ("a primitive of 80", vec![0x04, 0x80]),
    ];
    let mut cases = Vec::new();
    for depth in [14, 15, 16, 17] {
        for (name, inner) in &inner {
            // One bit for each level: which of them are indefinite.
            for forms in [0x00000, 0xFFFFF, 0x55555, 0xAAAAA, 0x0FFFF, 0x10000, 0x08000] {
                let mut stream = inner.clone();
                for level in (1..=depth).rev() {
                    let octet = if level == 1 { 0xA0 } else { 0x30 };
                    stream = if forms >> level & 1 == 1 { indefinite(octet, &stream) } else { item(octet, &stream) };
                }
                cases.push(case(format!("{name} in {depth} levels, forms {forms:05X}"), stream));
            }
        }
    }
    cases
}

fn lengths() -> Vec<Case> {
    let mut cases = Vec::new();
    for length in [0, 1, 0x7F, 0x80, 0xFF, 0x100, 0xFFFF, 0x10000] {
        for form in [Form::Shortest, Form::Long(1), Form::Long(2), Form::Long(3), Form::Long(4)] {
            let inner = item_in(form, 0x04, &vec![0x41; length]);
            let more = |name: &str, stream| case(format!("a value of {length}, {form:?}, {name}"), stream);
            cases.extend(cut_short(&inner).into_iter().map(|(name, stream)| more(&name, stream)));
            cases.push(more("exact", item(0xA0, &inner)));
            cases.push(more("in an indefinite item", indefinite(0xA0, &inner)));
        }
    }
    cases
}

/// An item in a profile, ended one or more octets early: by the limit around, and by the end of the stream.
fn cut_short(inner: &[u8]) -> Vec<Case> {
    let fronts = (1..inner.len()).filter(|&length| length < 7 || length + 7 >= inner.len());
    let cut = |length: usize| {
        let front = &inner[..length];
        let limited = [item(0xA0, front), [0xA2, 0x00].repeat(4)].concat();
        [
            case(format!("its first {length} octets"), item(0xA0, front)),
            case(format!("its first {length} octets, then more"), limited),
            case(format!("its first {length} octets in an indefinite item"), [&[0xA0, 0x80], front].concat()),
        ]
    };
    fronts.flat_map(cut).collect()
}

fn first_length_octets() -> Vec<Case> {
    let rests: [&[u8]; 6] = [&[], &[0x00], &[0x00, 0x00], &[0x00; 6], &[0xFF; 6], &[0x80; 6]];
    let mut cases = Vec::new();
    for length in 0x80..=0xFF {
        for octet in [0x04, 0x24, 0x30, 0x80, 0xA0] {
            for rest in rests {
                let stream = item(0xA0, &[&[octet, length], rest].concat());
                cases.push(case(format!("{octet:02X} {length:02X}, then {rest:02X?}"), stream));
            }
        }
    }
    cases
}

fn primitive_lengths() -> Vec<Case> {
    let mut cases = Vec::new();
    for octet in [0x01, 0x02, 0x05, 0x0A, 0x41, 0x81, 0xC5, 0x21, 0x22, 0x25, 0x2A] {
        for length in 0..=3 {
            for form in [Form::Shortest, Form::Long(1), Form::Long(4)] {
                let stream = item(0xA0, &item_in(form, octet, &vec![0; length]));
                cases.push(case(format!("{octet:02X} of {length} octets, {form:?}"), stream));
            }
        }
    }
    cases
}

fn closing_marks() -> Vec<Case> {
    // Runs of small parts: what may follow what, inside and outside of indefinite items.
    let parts: [&[u8]; 9] = [
        &[0x00],
        &[0x00, 0x00],
        &[0x00, 0x05],
        &[0x05, 0x00],
        &[0x30, 0x80],
        &[0x30, 0x02],
        &[0xA2, 0x80],
        &[0xA0, 0x80],
        &[0x30, 0x00],
    ];
    let mut runs = vec![Vec::new()];
    for _ in 0..4 {
        let longer = |run: &Vec<&'static [u8]>| {
            parts.map(|part| run.iter().copied().chain([part]).collect::<Vec<&'static [u8]>>())
        };
        let next: Vec<_> = runs.iter().flat_map(longer).collect();
        runs.extend(next);
        runs.sort();
        runs.dedup();
    }
    let fronts: [&[u8]; 4] = [&[0xA0, 0x00], &[0xA0, 0x80], &[0xA0, 0x04], &[0xA0, 0x06, 0x30, 0x80]];
    let streams = fronts.into_iter().flat_map(|front| runs.iter().map(move |run| [front, &run.concat()].concat()));
    streams.map(|stream| case("closing marks", stream)).collect()
}

fn first_octets() -> Vec<Case> {
    let mut cases = Vec::new();
    for octet in 0..=255 {
        for value in [&[0x00][..], &[0x01, 0x05], &[0x02, 0x05, 0x00], &[0x80, 0x00, 0x00], &[0x81, 0x00]] {
            let one = [&[octet], value].concat();
            cases.push(case(format!("{octet:02X} alone"), one.clone()));
            cases.push(case(format!("{octet:02X} in the profile"), item(0xA0, &one)));
            cases.push(case(format!("{octet:02X} in an indefinite profile"), indefinite(0xA0, &one)));
            cases.push(case(format!("{octet:02X} as the second element"), letter(&[one])));
        }
    }
    cases
}

/// All runs of up to `most` of these items.
fn runs_of(items: &[Vec<u8>], most: usize) -> Vec<Vec<u8>> {
    let mut runs = vec![Vec::new()];
    let mut last = runs.clone();
    for _ in 0..most {
        last = last.iter().flat_map(|run| items.iter().map(move |item| [run.as_slice(), item].concat())).collect();
        runs.extend(last.iter().cloned());
    }
    runs
}

fn contents() -> Vec<Case> {
    let named = item(0x31, &[item(0x41, b"1"), portions(&["0".into()])].concat());
    let unit_named = item(0x31, &[item(0x40, b"1 0"), item(0x84, b"1 0")].concat());
    let mut items = vec![item(0x02, &[1]), item(0x31, &[]), named, unit_named, item(0x04, b"t"), item(0x24, &[])];
    items.extend([item(0x30, &item(0x04, b"t")), item(0x45, b"1"), item(0x47, b"1")]);
    let mut cases = Vec::new();
    for run in runs_of(&items, 3) {
        for octet in 0xA0..=0xA8 {
            cases.push(case(format!("contents of {octet:02X}"), letter(&[item(octet, &run)])));
        }
        cases.push(case("contents of an indefinite A3", letter(&[indefinite(0xA3, &run)])));
        cases.push(case("contents of a first A0", item(0xA0, &run)));
    }
    cases
}

fn descriptors() -> Vec<Case> {
    let mut items: Vec<Vec<u8>> = [0x40, 0x41, 0x45, 0x84].map(|octet| item(octet, b"1 2")).into();
    items.extend([0x60, 0x61, 0x65, 0x81, 0xA1, 0xA4, 0x05].map(|octet| item(octet, &[])));
    items.push(indefinite(0xA1, &item(0x12, b"3")));
    items.push(item(0x31, &item(0x61, &[])));
    let mut cases = Vec::new();
    for run in runs_of(&items, 2) {
        for octet in OBJECTS {
            cases.push(case(format!("descriptor of {octet:02X}"), letter(&[object(octet, &run)])));
        }
        for octet in STYLES {
            cases.push(case(format!("items of {octet:02X}"), letter(&[item(octet, &run)])));
        }
        cases.push(case("descriptor of a unit", letter(&[unit(&run, b"text")])));
        let marked = indefinite(0xA3, &[indefinite(0x31, &run), item(0x04, b"")].concat());
        cases.push(case("indefinite descriptor of a unit", letter(&[marked])));
    }
    cases
}

/// The normal form of an indefinite item of over 65,535 octets is one octet longer than the item.
fn normal_length() -> Vec<Case> {
    let mut cases = Vec::new();
    for depth in [1, 2, 14, 15] {
        let over = STREAM_LIMIT - depth;
        for length in [over - 1, over, over + 1, STREAM_LIMIT] {
            let mut stream = item_in(Form::Long(3), 0x04, &vec![0x11; length - 5 - 4 * depth]);
            for level in (1..=depth).rev() {
                stream = indefinite(if level == 1 { 0xA0 } else { 0xA5 }, &stream);
            }
            cases.push(case(format!("{depth} indefinite levels of {length} octets"), stream));
        }
    }
    for length in [0x7D, 0x7E, 0x7F, 0x80, 0xFC, 0xFD, 0xFE, 0xFF, 0x100, 0xFFFB, 0xFFFC, 0xFFFF, 0x10000] {
        let inner = item_in(Form::Long(4), 0x04, &vec![0x11; length]);
        cases.push(case(format!("a value of {length} in two levels"), indefinite(0xA0, &indefinite(0x24, &inner))));
    }
    cases
}

/// Streams about as long as the mailroom's question takes, with items of every kind of length around all the rest.
fn short_length() -> Vec<Case> {
    let mut cases = Vec::new();
    for length in [SHORT_LIMIT - 1, SHORT_LIMIT, SHORT_LIMIT + 1] {
        for depth in [0, 1, 2, 14] {
            // Two octets before and after each indefinite level, the profile among them, and five before the value.
            let value = vec![0x11; length - 5 - 4 * (depth + 1)];
            let mut stream = item_in(Form::Long(3), 0x04, &value);
            for _ in 0..depth {
                stream = indefinite(0xA5, &stream);
            }
            cases.push(case(format!("{depth} indefinite levels in {length} octets"), indefinite(0xA0, &stream)));
        }
        cases.push(case(format!("a profile of {length} octets"), item(0xA0, &item(0x04, &vec![0x11; length - 8]))));
        let spare = length - 2 - 4_095 * 16;
        let text = |place: usize| vec![b'x'; 10 + if place == 0 { spare } else { 0 }];
        let units: Vec<Vec<u8>> = (0..4_095).map(|place| unit(&[], &text(place))).collect();
        cases.push(case(format!("4,095 units in {length} octets"), letter(&units)));
    }
    cases
}

/// The same name at two places: "no two classes or objects share an identifier, no two styles, ..".
fn name_spaces() -> Vec<Case> {
    let elements = |name: &[u8]| {
        let mut elements: Vec<Vec<u8>> = OBJECTS.map(|octet| object(octet, &item(0x41, name))).into();
        elements.extend(STYLES.map(|octet| item(octet, &item(0x45, name))));
        elements.extend([0x40, 0x84].map(|octet| unit(&item(octet, name), b"")));
        elements.push(unit(&[item(0x40, name), item(0x84, name)].concat(), b""));
        elements
    };
    let mut cases = Vec::new();
    for (one, other) in [("1 0", "1 0"), ("0", "00"), ("1 0", "1 00"), ("1 0", "1 0 "), ("10", "1 0")] {
        for first in elements(one.as_bytes()) {
            for second in elements(other.as_bytes()) {
                cases.push(case(format!("\"{one}\" and \"{other}\""), letter(&[first.clone(), second])));
            }
        }
    }
    for (name, portion, unit_name) in [
        ("1 0", "2 0", "1 0 2 0"),
        ("1 0", "0", "1 0 2 0"),
        ("1 0", "2", "1 0 2"),
        ("1", "0", "1 0 2"),
        ("1 0", "02", "1 0 2"),
        ("1 0", "2", "1 0 02"),
        ("1", "2", "12"),
        ("1", "2", "1 2"),
    ] {
        for (object_octet, unit_octet) in [(0xA1, 0x40), (0xA2, 0x40), (0xA2, 0x84), (0xA5, 0x84), (0xA6, 0x40)] {
            let holder = object(object_octet, &[item(0x41, name.as_bytes()), portions(&[portion.into()])].concat());
            let met = unit(&item(unit_octet, unit_name.as_bytes()), b"text");
            let name = format!("\"{name}\" with \"{portion}\" and \"{unit_name}\"");
            cases.push(case(name.clone(), letter(&[holder.clone(), met.clone()])));
            cases.push(case(name, letter(&[met, holder])));
        }
    }
    cases
}

/// Two faults in one stream, in either order, and several in one element: which one counts?
fn two_faults() -> Vec<Case> {
    let faulty = [
        vec![0xA2, 0x02, 0x01, 0x00],
        vec![0xA2, 0x02, 0x05, 0x05],
        vec![0xA2, 0x80, 0x1F],
        vec![0xA4, 0x00],
        vec![0xA0, 0x00],
        vec![0xA3, 0x00],
        object(0xA2, &item(0x61, &[])),
        item(0xA2, &item(0x02, &[9])),
        object(0xA2, &item(0x41, b"x")),
        object(0xA2, &item(0x41, b"1")),
        item(0xA5, &[item(0x02, &[3]), item(0x31, &[])].concat()),
        item(0xA6, &[item(0x02, &[3]), item(0x31, &item(0x41, b""))].concat()),
        object(0xA2, &[item(0x41, b"1"), portions(&["1".into(), "".into(), "1".into()])].concat()),
        object(0xA2, &[item(0x41, b"1"), portions(&["1".into(), "1".into()])].concat()),
        unit(&[item(0x40, b"1"), item(0x84, b"")].concat(), b""),
        unit(&[item(0x40, b"1"), item(0x40, b"")].concat(), b""),
    ];
    let mut cases = Vec::new();
    for one in &faulty {
        cases.push(case("a fault first of all", one.clone()));
        for other in &faulty {
            cases.push(case("two faults", letter(&[object(0xA1, &item(0x41, b"1")), one.clone(), other.clone()])));
            cases.push(case("two faults, then a stray 00", letter(&[one.clone(), other.clone(), vec![0x00]])));
        }
    }
    cases
}
