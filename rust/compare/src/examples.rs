//! The examples of document 01, of the two editions, of type numbers above 30, X.209 and Annex D: each with what is said of
//! it in `vectors/`.

use odif::{Edition, ROW_WIDTH, raw};

use crate::coding::{indefinite, item};
use crate::hold::Holder;
use crate::rng::Rng;
use crate::tally::Origin;

const DOCUMENT_01: &str = include_str!("../../../vectors/document-01.txt");
const EDITIONS: &str = include_str!("../../../vectors/editions-more.txt");
const TYPES: &str = include_str!("../../../vectors/types.txt");
const X209: &str = include_str!("../../../vectors/x209.txt");
const LISTED: [(&str, &str, &str); 4] = [
    ("the lister's example", include_str!("../../../vectors/lister.hex"), include_str!("../../../vectors/lister.out")),
    ("annex D, 1", include_str!("../../../vectors/annex-d-1.hex"), include_str!("../../../vectors/annex-d-1.out")),
    ("annex D, 2", include_str!("../../../vectors/annex-d-2.hex"), include_str!("../../../vectors/annex-d-2.out")),
    ("a letter with a date", include_str!("../../../vectors/dated.hex"), include_str!("../../../vectors/dated.out")),
];

/// Octets from pairs of hexadecimal digits; white space is left out.
pub fn octets(text: &str) -> Vec<u8> {
    let digits: Vec<u32> = text.chars().filter_map(|digit| digit.to_digit(16)).collect();
    digits.chunks_exact(2).map(|pair| (pair[0] << 4 | pair[1]) as u8).collect()
}

/// The streams with what a lister writes of them.
pub fn listed() -> impl Iterator<Item = (&'static str, Vec<u8>, &'static str)> {
    LISTED.into_iter().map(|(name, hex, out)| (name, octets(hex), out))
}

/// The lines of a table whose fields stand between semicolons.
pub fn lines(table: &str) -> impl Iterator<Item = Vec<&str>> {
    table.lines().filter(|line| !line.starts_with('#')).map(|line| line.split(';').map(str::trim).collect())
}

/// Holds both readers to the examples.
pub fn hold(holder: &mut Holder) {
    for fields in lines(DOCUMENT_01).chain(lines(TYPES)) {
        let [name, hex, answer, normal, joined] = fields[..] else { panic!("a line of five fields: {fields:?}") };
        let stream = octets(hex);
        let normal = (normal != "-").then(|| octets(normal));
        example(holder, name, &stream, answer, normal.as_deref());
        if let Some((element, content)) = joined.split_once(' ') {
            let element = element.parse().expect("an element's number");
            joined_example(holder, name, &stream, element, &octets(content));
        }
    }
    for fields in lines(EDITIONS) {
        edition_example(holder, &fields);
    }
    for fields in lines(X209) {
        let [name, hex, alone, within, normal] = fields[..] else { panic!("a line of five fields: {fields:?}") };
        let (value, normal) = (octets(hex), octets(normal));
        example(holder, &format!("{name}, alone"), &value, alone, None);
        example(holder, &format!("{name}, in a profile"), &item(0xA0, &value), within, None);
        example(holder, &format!("{name}, in an indefinite profile"), &indefinite(0xA0, &value), within, Some(&normal));
    }
    for (name, stream, out) in listed() {
        holder.hold_and_cut(&stream, Origin::Fixed(name.into()), &mut Rng::new(1));
        let written = lister(&stream);
        holder.tally.expect(written == out, || format!("{name}: listed as\n{written}"));
    }
}

/// Holds the library to one example; the reader is held to the library as for any stream.
fn example(holder: &mut Holder, name: &str, stream: &[u8], answer: &str, normal: Option<&[u8]>) {
    holder.hold_and_cut(stream, Origin::Fixed(name.into()), &mut Rng::new(1));
    let mut table = [0; 16 * ROW_WIDTH];
    let checked = raw::check(stream, &mut table);
    let given = format!("{} {} {}", checked.number, checked.place, checked.headers);
    holder.tally.expect(given == answer, || format!("{name}: {given}, not {answer}"));
    if let Some(normal) = normal {
        let mut out = vec![0; normal.len()];
        let written = raw::normal(stream, &mut out);
        holder.tally.expect(written.number == 0 && out == normal, || format!("{name}: the normal form is {out:02X?}"));
    }
}

/// Holds the library to one example by both editions: its answers, and by 1993 the last row and its content.
fn edition_example(holder: &mut Holder, fields: &[&str]) {
    let [name, hex, by_1988, by_1993, last, part, joined] = fields[..] else {
        panic!("a line of seven fields: {fields:?}")
    };
    let stream = octets(hex);
    holder.hold_and_cut(&stream, Origin::Fixed(name.into()), &mut Rng::new(1));
    let mut table = [0; 4 * ROW_WIDTH];
    let given = Edition::ALL.map(|edition| {
        let checked = raw::check_in(edition, &stream, &mut table);
        (checked.elements, format!("{} {} {}", checked.number, checked.place, checked.headers))
    });
    let [(_, old), (elements, new)] = given;
    let mut rows = table.chunks_exact(ROW_WIDTH).take(elements as usize);
    let row = rows.next_back().map_or("-".into(), |row| format!("{} {} {} {}", row[0], row[1], row[10], row[11]));
    let element = elements.saturating_sub(1);
    let found = raw::content_in(Edition::Of1993, &stream, element).number.to_string();
    let mut out = vec![0; stream.len()];
    let copied = raw::joined_in(Edition::Of1993, &stream, element, &mut out);
    let content: String = out[..copied.length as usize].iter().map(|octet| format!("{octet:02X}")).collect();
    let copied = format!("{} {content}", copied.number).trim_end().to_string();
    for (given, wanted) in [(old, by_1988), (new, by_1993), (row, last), (found, part), (copied, joined)] {
        holder.tally.expect(given == wanted, || format!("{name}: {given}, not {wanted}"));
    }
}

/// Holds the library to the joined content of an example.
fn joined_example(holder: &mut Holder, name: &str, stream: &[u8], element: u32, content: &[u8]) {
    let mut out = vec![0; content.len()];
    let copied = raw::joined(stream, element, &mut out);
    holder.tally.expect(copied.number == 0 && out == content, || format!("{name}: the joined content is {out:02X?}"));
}

/// What the lister of document 01 writes of a stream.
fn lister(stream: &[u8]) -> String {
    let mut table = vec![0; 1_024 * ROW_WIDTH];
    let mut list = vec![raw::Match::default(); 1_024];
    let checked = raw::check(stream, &mut table);
    let mut text = format!("accepted {} {}\n", checked.elements, checked.headers);
    for (number, row) in table.chunks_exact(ROW_WIDTH).take(checked.elements as usize).enumerate() {
        text += &format!("{number} {} {} {}\n", row[2], row[3], row[0]);
    }
    let layout = raw::layout(stream, &mut table, &mut list);
    text += &match_lines("layout", &list[..layout.matches as usize]);
    let logical = raw::logical(stream, &mut table, &mut list);
    text += &match_lines("logical", &list[..logical.matches as usize]);
    text
}

fn match_lines(side: &str, list: &[raw::Match]) -> String {
    list.iter().map(|found| format!("{side} {} {} {}\n", found.element, found.portion, found.unit)).collect()
}
