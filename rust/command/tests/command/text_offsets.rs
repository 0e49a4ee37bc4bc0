//! `odif text --offsets`

use std::fs;

use serde_json::Value;

use super::support::{CLAIM, CUT_SHORT, IN_PIECES, Scratch, WITH_DATE, item, letter, odif, odif_with, repository};

fn json(run: &str) -> Value {
    serde_json::from_str(run).unwrap_or_else(|_| panic!("{run}"))
}

/// The octets of a file at places as `38..39,41..42`.
fn at_places(stream: &[u8], places: &str) -> Vec<u8> {
    let place = |place: &str| {
        let (first, past) = place.split_once("..").unwrap();
        stream[first.parse().unwrap()..past.parse().unwrap()].to_vec()
    };
    places.split(',').flat_map(place).collect()
}

#[test]
fn each_line_is_what_stands_at_its_places() {
    for file in [CLAIM, WITH_DATE, IN_PIECES, "samples/letters/annex-d-1.odif", "samples/letters/annex-d-2.odif"] {
        let stream = fs::read(repository().join(file)).unwrap();
        let run = odif(&["text", "--offsets", file]);
        let (mut lines, mut octets) = (String::new(), Vec::new());
        for line in run.text().split_inclusive('\n') {
            let (places, text) = line.split_once('\t').unwrap();
            let there = at_places(&stream, places);
            assert_eq!(there.strip_suffix(b"\n").unwrap_or(&there), text.trim_end_matches('\n').as_bytes(), "{file}");
            lines += text;
            octets.extend(there);
        }
        assert_eq!(lines, odif(&["text", file]).text(), "{file}");
        assert_eq!(octets, odif(&["text", "--raw", file]).stdout, "{file}: no octet is left out");
    }
}

#[test]
fn pieces_and_several_units() {
    assert_eq!(odif(&["text", "--offsets", IN_PIECES]).text(), "38..39,41..42\tHi\n");
    // A block with two portions: the first unit does not end its line.
    let portions = item(0xA1, &[item(0x12, b"0"), item(0x12, b"1")].concat());
    let block = item(0xA2, &[vec![0x02, 0x01, 0x04], item(0x31, &[item(0x41, b"1"), portions].concat())].concat());
    let unit = |name: &[u8], text: &[u8]| item(0xA3, &[item(0x31, &item(0x40, name)), item(0x04, text)].concat());
    let stream = [item(0xA0, b""), block, unit(b"1 0", b"one\nt"), unit(b"1 1", b"wo\n\nthree")].concat();
    let run = odif_with(&["text", "--offsets", "-"], &stream);
    let first = stream.windows(5).position(|window| window == b"one\nt").unwrap();
    let next = stream.windows(3).position(|window| window == b"wo\n").unwrap();
    let wanted = format!(
        "{first}..{}\tone\n{}..{},{next}..{}\ttwo\n{}..{}\t\n{}..{}\tthree\n",
        first + 4,
        first + 4,
        first + 5,
        next + 3,
        next + 3,
        next + 4,
        next + 4,
        next + 9
    );
    assert_eq!(run.text(), wanted);
}

/// A line for each of very many pieces: none is looked for among all of them.
#[test]
fn very_many_pieces() {
    let (count, piece) = (100_000, item(0x04, b"\n"));
    let block = item(0xA2, &item(0x31, &[item(0x41, b"1"), item(0xA1, &item(0x12, b"0"))].concat()));
    let unit = item(0xA3, &[item(0x31, &item(0x40, b"1 0")), item(0x24, &piece.repeat(count))].concat());
    let run = odif_with(&["text", "--offsets", "-"], &[item(0xA0, b""), block, unit].concat());
    assert_eq!((run.status, run.text().lines().count()), (0, count));
    let first: usize = run.text().split("..").next().unwrap().parse().unwrap();
    let last = first + 3 * (count - 1);
    assert!(run.text().ends_with(&format!("\n{last}..{}\t\n", last + 1)));
}

#[test]
fn as_json() {
    let run = odif(&["text", "--offsets", "--json", IN_PIECES]);
    let told = json(run.text());
    let wanted = serde_json::json!({
        "file": IN_PIECES, "outcome": "accepted", "number": 0, "place": 0, "side": "layout", "not_shown": [],
        "lines": [{"page": null, "element": 1, "block": "1 0 2", "unit": 2, "text": "Hi", "text_hex": "4869",
            "sources": [{"first": 38, "past": 39}, {"first": 41, "past": 42}]}],
    });
    assert_eq!((run.status, told), (0, wanted));
    let run = odif(&["text", "--offsets", "--json", CUT_SHORT, "none"]);
    let lines: Vec<Value> = run.text().lines().map(json).collect();
    assert_eq!((run.status, &lines[0]["number"], &lines[1]["outcome"]), (2, &7.into(), &"unreadable".into()));
    assert_eq!(lines[0]["lines"], Value::Array(Vec::new()));
}

#[test]
fn characters_and_pages() {
    let (stream, words) = (letter(b"M\xC8uller\nend"), ["text", "--offsets", "--utf8=iso6937"]);
    let run = odif_with(&[&words[..], &["-"]].concat(), &stream);
    assert_eq!(run.text(), "36..44\tMüller\n44..47\tend\n");
    let run = odif_with(&[&words[..], &["--json", "-"]].concat(), &stream);
    let line = &json(run.text())["lines"][0];
    assert_eq!((&line["text"], &line["text_hex"]), (&"Müller\n".into(), &"4DC8756C6C65720A".into()));
    let escaped = odif_with(&["text", "--offsets", "--escape", "-"], &letter(b"a\x1Bb"));
    assert_eq!(escaped.text(), "36..39\ta\\x1Bb\n");
    let all = odif(&["text", "--offsets", "samples/letters/annex-d-1.odif"]);
    let page = odif(&["text", "--offsets", "--page", "2", "samples/letters/annex-d-1.odif"]);
    assert!(!page.text().is_empty() && all.text().contains(page.text()) && page.text().len() < all.text().len());
    let scratch = Scratch::new("offsets-several");
    let (one, two) = (scratch.write("one", &letter(b"1")), scratch.write("two", &letter(b"2\n")));
    let several = odif(&["text", "--offsets", &one, &two]);
    assert_eq!(several.text(), format!("==> {one} <==\n36..37\t1\n==> {two} <==\n36..38\t2\n"));
}
