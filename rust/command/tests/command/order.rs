//! `odif order`, and the order in a survey

use super::support::{CUT_SHORT, Scratch, assert_unreadable_json, letter, odif, odif_with};

const BLOCK: &[u8] = b"\xA2\x0F\x02\x01\x04\x31\x0A\x41\x031 0\xA1\x03\x12\x010";
const OTHER_BLOCK: &[u8] = b"\xA2\x0F\x02\x01\x04\x31\x0A\x41\x031 1\xA1\x03\x12\x010";
const UNIT: &[u8] = b"\xA3\x0C\x31\x07\x40\x051 0 0\x04\x01x";
const OTHER_UNIT: &[u8] = b"\xA3\x0C\x31\x07\x40\x051 1 0\x04\x01x";

/// An empty profile and these.
fn stream(elements: &[&[u8]]) -> Vec<u8> {
    [b"\xA0\x00", &elements.concat()[..]].concat()
}

/// Letters in both orders, in one, in the other, and in neither: at an element, and at the end.
fn letters(scratch: &Scratch) -> [String; 5] {
    [
        scratch.write("in/both.odif", &stream(&[BLOCK, UNIT])),
        scratch.write("in/a.odif", &stream(&[BLOCK, OTHER_BLOCK, UNIT, OTHER_UNIT])),
        scratch.write("in/b.odif", &stream(&[BLOCK, UNIT, OTHER_BLOCK, OTHER_UNIT])),
        scratch.write("in/early.odif", &stream(&[UNIT, BLOCK])),
        scratch.write("in/short.odif", &stream(&[BLOCK])),
    ]
}

#[test]
fn both_one_or_neither_and_where_each_fails() {
    let scratch = Scratch::new("order");
    let [both, a, b, early, short] = letters(&scratch);
    let run = odif(&["order", &both, &a, &b]);
    assert_eq!((run.status, run.stderr.as_str()), (0, ""));
    let wanted = format!(
        "{both}: in the order of class A and of class B\n\
         {a}: in the order of class A; class B fails at octet 19: element 2, a layout object\n\
         {b}: in the order of class B; class A fails at octet 33: element 3, a layout object\n"
    );
    assert_eq!(run.text(), wanted);
    let run = odif(&["order", &early, &short]);
    assert_eq!(run.status, 1);
    let end = "the end, where text units are missing";
    let wanted = format!(
        "{early}: in neither order; class A fails at octet 2: element 1, a text unit; class B fails at octet 2: element 1, a \
         text unit\n{short}: in neither order; class A fails at octet 19: {end}; class B fails at octet 19: {end}\n"
    );
    assert_eq!(run.text(), wanted);
}

#[test]
fn only_one_class_counts() {
    let scratch = Scratch::new("order-class");
    let [both, a, b, early, _] = letters(&scratch);
    for (file, by_a, by_b, by_either) in [(both, 0, 0, 0), (a, 0, 1, 0), (b, 1, 0, 0), (early, 1, 1, 1)] {
        assert_eq!(odif(&["order", "--class", "A", &file]).status, by_a, "{file}");
        assert_eq!(odif(&["order", "--class", "b", &file]).status, by_b, "{file}");
        assert_eq!(odif(&["order", &file]).status, by_either, "{file}");
    }
    assert_eq!(odif(&["order", "--class", "C", "none"]).status, 2);
}

#[test]
fn protected_parts_have_their_places_in_1993() {
    let parts = b"A000 A907470131 03020780 AB06470132040100 AC06470133040100";
    let run = odif_with(&["order", "--hex", "--edition", "1993", "-"], parts);
    let wanted =
        "standard input: in the order of class A; class B fails at octet 11: element 2, a pre-enciphered body part\n";
    assert_eq!((run.status, run.text()), (0, wanted));
    let run = odif_with(&["order", "--hex", "-"], parts);
    assert_eq!(run.status, 1);
    assert!(run.text().starts_with("standard input: refused, number 10 at octet 2: "), "{}", run.text());
}

#[test]
fn json() {
    let scratch = Scratch::new("order-json");
    let [both, a, _, _, short] = letters(&scratch);
    let begun = |file: &str| format!("{{\"file\":\"{file}\",\"outcome\":\"accepted\",\"number\":0,\"place\":0,");
    let zero = "{\"number\":0,\"place\":0}";
    let lines = [
        format!("{}\"classes\":[\"A\",\"B\"],\"class_a\":{zero},\"class_b\":{zero}}}\n", begun(&both)),
        format!(
            "{}\"classes\":[\"A\"],\"class_a\":{zero},\
             \"class_b\":{{\"number\":26,\"place\":19,\"element\":2,\"kind\":\"layout object\"}}}}\n",
            begun(&a)
        ),
        format!(
            "{}\"classes\":[],\"class_a\":{{\"number\":26,\"place\":19}},\"class_b\":{{\"number\":26,\"place\":19}}}}\n",
            begun(&short)
        ),
    ];
    let run = odif(&["order", "--json", &both, &a, &short]);
    assert_eq!((run.status, run.text()), (1, &*lines.concat()));
    let run = odif(&["order", "--json", CUT_SHORT]);
    assert_eq!(run.status, 1);
    assert!(run.text().contains("\"outcome\":\"refused\",\"number\":7,\"place\":887,"), "{}", run.text());
    assert_unreadable_json("order");
}

#[test]
fn in_a_survey_by_a_flag() {
    let scratch = Scratch::new("order-survey");
    letters(&scratch);
    scratch.write("in/cut.odif", &letter(b"text")[..20]);
    let folder = scratch.word("in");
    let run = odif(&["survey", &folder, "--order", "--csv", "-"]);
    let orders: Vec<&str> = run.text().lines().map(|line| line.rsplit(',').nth(1).unwrap()).collect();
    assert_eq!(orders, ["order", "A", "B", "both", "", "neither", "neither"], "{}", run.text());
    assert!(run.stderr.ends_with("\nletters by order: 1 A, 1 B, 1 both, 2 neither\n"), "{}", run.stderr);
    let plain = odif(&["survey", &folder, "--csv", "-"]);
    assert!(
        plain.text().lines().next().is_some_and(|names| names.ends_with(",first_date,file_octets")),
        "{}",
        plain.text()
    );
    let run = odif(&["survey", &folder, "--order", "--json"]);
    assert!(run.text().contains("\"orders\":{\"A\":1,\"B\":1,\"both\":1,\"neither\":2}"), "{}", run.text());
    // What one of several surveys was asked is kept, and empty where it was not asked.
    let (asked, plain) = (scratch.word("asked.csv"), scratch.word("plain.csv"));
    odif(&["survey", &scratch.word("in/a.odif"), "--order", "--csv", &asked]);
    odif(&["survey", &scratch.word("in/b.odif"), "--csv", &plain]);
    let merged = odif(&["survey", "--merge", &plain, &asked, "--csv", "-"]);
    let orders: Vec<&str> = merged.text().lines().map(|line| line.rsplit(',').nth(1).unwrap()).collect();
    assert_eq!(orders, ["order", "", "A"], "{}", merged.text());
    assert!(merged.stderr.ends_with("\nletters by order: 1 A\n"), "{}", merged.stderr);
}
