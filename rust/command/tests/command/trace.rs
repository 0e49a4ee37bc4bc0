//! `odif trace`

use std::fs;

use serde_json::Value;

use super::support::{
    CLAIM, CUT_SHORT, IN_PIECES, Scratch, WITH_DATE, assert_unreadable_json, item, letter, letter_of_1993, odif,
    odif_with, repository, two_sided,
};

const SAMPLES: [&str; 5] =
    [CLAIM, WITH_DATE, IN_PIECES, "samples/letters/annex-d-1.odif", "samples/letters/annex-d-2.odif"];

fn json(words: &[&str]) -> Value {
    let run = odif(words);
    serde_json::from_str(run.text()).unwrap_or_else(|_| panic!("{words:?}: {}{}", run.text(), run.stderr))
}

fn number(value: &Value) -> usize {
    value.as_u64().expect("a number") as usize
}

/// The SHA-256 of the library, as `odif --version` names it.
fn library() -> String {
    let run = odif(&["--version"]);
    let line = run.text().lines().nth(1).unwrap();
    line.split_once("sha256 ").unwrap().1[..64].into()
}

#[test]
fn every_place_is_that_of_an_item_and_has_the_text() {
    for (file, side) in SAMPLES.into_iter().flat_map(|file| [(file, "layout"), (file, "logical")]) {
        let stream = fs::read(repository().join(file)).unwrap();
        let (traced, listed) =
            (json(&["trace", "--json", "--side", side, file]), json(&["list", "--json", "--side", side, file]));
        // The independent reader's octet strings.
        let tree = json(&["tree", "--json", file]);
        let is_string = |item: &&Value| item["type"] == "OCTET STRING" && item["constructed"] == false;
        let strings: Vec<(usize, usize)> = tree["items"]
            .as_array()
            .unwrap()
            .iter()
            .filter(is_string)
            .map(|item| (number(&item["offset"]) + number(&item["header"]), number(&item["length"])))
            .map(|(first, length)| (first, first + length))
            .collect();
        let (lines, matches) = (traced["lines"].as_array().unwrap(), listed["matches"].as_array().unwrap());
        assert_eq!(lines.len(), matches.len(), "{file}, {side}");
        for (line, found) in lines.iter().zip(matches) {
            let places: Vec<(usize, usize)> = line["sources"]
                .as_array()
                .unwrap()
                .iter()
                .map(|source| (number(&source["first"]), number(&source["past"])))
                .collect();
            assert!(places.iter().all(|place| strings.contains(place)), "{file}, {side}: {places:?}");
            let octets: Vec<u8> = places.iter().flat_map(|&(first, past)| &stream[first..past]).copied().collect();
            let hex: String = octets.iter().map(|octet| format!("{octet:02X}")).collect();
            assert_eq!(found["content_hex"], hex, "{file}, {side}");
            assert_eq!((&line["element"], &line["unit"]), (&found["element"], &found["unit"]));
        }
        assert_eq!(traced["not_shown"], listed["not_shown"]);
    }
}

#[test]
fn pieces_and_what_is_told_of_the_file() {
    let run = odif(&["trace", IN_PIECES]);
    let wanted = format!(
        "{IN_PIECES}: accepted by the edition of 1988
octets   42
sha256   ..
library  libodif.a, sha256 {}

no date of the document, number 23: the profile does not have exactly one date of the document, or that is constructed

line 1: block 1 0 2 (element 1), portion 0, unit 2, in 2 pieces
          38..39  48                                               |H|
          41..42  69                                               |i|
",
        library()
    );
    let without = |text: &str| text.lines().filter(|line| !line.starts_with("sha256")).collect::<Vec<_>>().join("\n");
    assert_eq!((run.status, without(run.text())), (0, without(&wanted)));
    let sum = std::process::Command::new("sha256sum").arg(repository().join(IN_PIECES)).output().unwrap().stdout;
    let sum = String::from_utf8(sum).unwrap();
    assert!(run.text().contains(&format!("\nsha256   {}\n", sum.split(' ').next().unwrap())), "{}", run.text());
}

#[test]
fn some_lines() {
    let run = odif(&["trace", "--line", "2", WITH_DATE]);
    let below: Vec<&str> = run.text().lines().skip(5).collect();
    assert_eq!(run.status, 0);
    assert_eq!(below[0], "line 2: page 1, block 1 0 0 (element 3), portion 1, unit 5");
    assert_eq!(
        below[1..],
        ["        199..214  0A 38 20 41 70 72 69 6C 20 31 39 39 31 0A 0A     |\\n8 April 1991\\n\\n|"]
    );
    let lines = &json(&["trace", "--json", "--line", "3,1", WITH_DATE])["lines"];
    assert_eq!((&lines[0]["line"], &lines[1]["line"], lines[2].is_null()), (&1.into(), &3.into(), true));
    let run = odif(&["trace", "--line", "3,4,9", WITH_DATE]);
    let told = format!("odif: {WITH_DATE}: the layout side has 3 lines, and no line 4, 9\n");
    assert_eq!((run.status, run.stderr), (1, told));
}

#[test]
fn what_stands_at_an_octet() {
    let told = |at: &str| {
        let run = odif(&["trace", "--at", at, WITH_DATE]);
        assert_eq!(run.status, 0, "{}", run.stderr);
        run.text().lines().skip(5).map(String::from).collect::<Vec<_>>().join("\n")
    };
    assert_eq!(
        told("33"),
        "octet 33: 31\n  in element 0, a document profile, at 0..43\n  in none of the fields that its row tells\n  in the date of the document\n  on no line of the layout side"
    );
    assert_eq!(
        told("200"),
        "octet 200: 38\n  in element 5, a text unit, at 184..214\n  in its content, at 199..214\n  on line 2 of the layout side, octet 1 of it, counted from 0"
    );
    assert!(told("190").contains("  in its identifier, at 190..197\n"), "{}", told("190"));
    assert!(told("0,341").contains("\n\noctet 341: 0A\n"), "two of them");
    let run = odif(&["trace", "--at", "342", WITH_DATE]);
    let message = format!("odif: {WITH_DATE}: it has 342 octets, counted from 0, and none at 342\n");
    assert_eq!((run.status, run.stderr), (1, message));
}

#[test]
fn an_octet_of_the_other_side() {
    let scratch = Scratch::new("trace-sides");
    let stream = two_sided(b"layout", b"logical");
    let file = scratch.write("two", &stream);
    let at = |text: &[u8]| stream.windows(text.len()).position(|window| window == text).unwrap();
    let run = odif(&["trace", "--at", &at(b"logical").to_string(), &file]);
    assert!(run.text().ends_with(
        "  on no line of the layout side\n  on line 1 of the logical side, octet 0 of it, counted from 0\n"
    ));
    let at = &json(&["trace", "--json", "--at", &at(b"layout").to_string(), &file])["at"][0];
    assert_eq!(
        (&at["lines"][0]["side"], &at["field"]["name"], at["lines"][1].is_null()),
        (&"layout".into(), &"content".into(), true)
    );
    let run = odif(&["trace", &file]);
    assert!(run.text().contains("\nnot shown by the layout side: text unit 4 at octet "), "{}", run.text());
}

#[test]
fn the_file_is_read_once_more() {
    let run = odif(&["trace", "--check", WITH_DATE]);
    let last = run.text().lines().last().unwrap();
    let wanted = "check: the file, read once more, has the 152 octets of 3 lines, and the date, at these 3 places";
    assert_eq!((run.status, last), (0, wanted));
    assert_eq!(json(&["trace", "--json", "--check", IN_PIECES])["check"]["places"], 2);
    // A pipe is empty when it is read once more.
    let run = odif_with(&["trace", "--check", "/dev/stdin"], &letter(b"Hi"));
    assert_eq!(run.status, 3, "{}", run.stderr);
    assert!(
        run.text().ends_with("\ncheck: line 1 is not what the file, read once more, has at 36..38\n"),
        "{}",
        run.text()
    );
    let run = odif_with(&["trace", "--check", "-"], &letter(b"Hi"));
    assert_eq!((run.status, run.text()), (2, ""));
    assert!(run.stderr.contains("`--check` needs a file"), "{}", run.stderr);
}

/// An accent and its letter are one character also where a row ends between them, and what is no character is marked.
#[test]
fn characters_over_rows() {
    let text = b"fifteen octets:\xC8u\x1B[1m\\";
    let run = odif_with(&["trace", "--utf8=iso6937", "-"], &letter(text));
    let rows: Vec<&str> = run.text().lines().filter(|line| line.starts_with("   ")).collect();
    assert!(rows[0].ends_with(" C8  |fifteen octets:ü|") && rows[1].ends_with("  |⟦1B⟧[1m\\\\|"), "{rows:?}");
    let run = odif_with(&["trace", "-"], &letter(text));
    assert!(run.stderr.contains("the letter declares no character set, so ISO 6937 is taken"), "{}", run.stderr);
    let run = odif_with(&["trace", "--json", "--utf8=latin1", "-"], &letter(b"\xFC"));
    let traced: Value = serde_json::from_str(run.text()).unwrap();
    let source = &traced["lines"][0]["sources"][0];
    assert_eq!((&source["text"], &source["value"], &source["value_hex"]), (&"ü".into(), &Value::Null, &"FC".into()));
}

#[test]
fn empty_content_and_tiles() {
    let run = odif_with(&["trace", "-"], &letter(b""));
    assert!(run.text().ends_with("line 1: block 1 0 2 (element 1), portion 0, unit 2: no octets\n"), "{}", run.text());
    let scratch = Scratch::new("trace-tiles");
    let file = scratch.write("tiled", &letter_of_1993(b"Hi"));
    assert_eq!(odif(&["trace", &file]).status, 1);
    let run = odif(&["trace", "--edition", "1993", &file]);
    assert!(run.status == 0 && run.text().contains(": accepted by the edition of 1993\n"), "{}", run.text());
    let unit = odif_with(&["trace", "--json", "-"], &[letter(b"Hi"), item(0xA3, &item(0x04, b"lost"))].concat());
    assert!(
        unit.text().contains("\"not_shown\":[{\"unit\":3,\"place\":38,\"first\":42,\"past\":46}]"),
        "{}",
        unit.text()
    );
}

#[test]
fn refused_huge_and_unreadable_files() {
    let run = odif(&["trace", CUT_SHORT]);
    assert_eq!(run.status, 1);
    assert!(run.text().starts_with(&format!("{CUT_SHORT}: refused by the edition of 1988\noctets   890\n")));
    assert!(run.stderr.contains("refused, number 7 at octet 887: "), "{}", run.stderr);
    let refused = json(&["trace", "--json", CUT_SHORT]);
    assert_eq!(
        (&refused["outcome"], &refused["octets"], refused["lines"].is_null()),
        (&"refused".into(), &890.into(), true)
    );
    let scratch = Scratch::new("trace-huge");
    let run = odif(&["trace", &scratch.write_huge("huge")]);
    assert!(run.status == 1 && run.text().contains("sha256   not known: not all octets were read\n"), "{}", run.text());
    assert_unreadable_json("trace");
}

/// The wrong programs that docs/EVIDENCE.md names are there, and wrong as it says.
#[test]
fn the_wrong_programs_for_the_regulator_are_there() {
    let page = fs::read_to_string(repository().join("docs/EVIDENCE.md")).unwrap();
    let rows: Vec<&str> = page.lines().filter(|line| line.starts_with("| `")).collect();
    assert!(rows.len() >= 5, "{rows:?}");
    for row in rows {
        let (program, wrong) = row.trim_matches(['|', ' ']).split_once(" | ").unwrap();
        let (name, label) = program.trim_matches('`').split_once('/').unwrap();
        let edit = fs::read_to_string(repository().join(format!("crates/{name}/wrong/{label}.edit"))).unwrap();
        assert_eq!(edit.lines().next().unwrap(), format!("# {wrong}"), "{program}");
    }
}

/// What docs/EVIDENCE.md prints behind `$ odif ..` is what the command writes, but for the library's hash.
#[test]
fn the_page_for_the_regulator_is_true() {
    let page = fs::read_to_string(repository().join("docs/EVIDENCE.md")).unwrap();
    let blocks: Vec<&str> = page.split("```\n").filter(|block| block.starts_with("$ odif ")).collect();
    assert!(blocks.len() >= 3, "{blocks:?}");
    for block in blocks {
        let (words, wanted) = block.split_once('\n').unwrap();
        let words: Vec<&str> = words.split(' ').skip(2).collect();
        let run = odif(&words);
        assert_eq!(run.text().replace(&library(), ".."), wanted, "{words:?}: {}", run.stderr);
    }
}
