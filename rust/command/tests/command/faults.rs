//! Refusals with their facts: the cause first, and the rule after it.

use super::support::odif_with;

/// The first line of what is said of a stream in hexadecimal, behind the name.
fn told(hex: &str) -> String {
    let run = odif_with(&["check", "--hex", "-"], hex.as_bytes());
    assert_eq!(run.status, 1);
    run.text().lines().next().unwrap().replace("standard input: refused, ", "")
}

#[test]
fn universal_numbers_with_their_forms() {
    assert_eq!(
        told("A0 02 0C 00"),
        "number 5 at octet 2: universal 12 (UTF8String) stands in primitive form, which it never has"
    );
    assert_eq!(
        told("A0 02 11 00"),
        "number 5 at octet 2: universal 17 (SET) stands in primitive form, which it never has"
    );
    assert_eq!(
        told("A0 02 22 00"),
        "number 5 at octet 2: universal 2 (INTEGER) stands in constructed form, which it never has"
    );
}

#[test]
fn lengths_and_what_is_left() {
    let past = "number 7 at octet 2: the item 04 says that its value has";
    assert_eq!(
        told("A0 03 04 05 00 00 00 00 00"),
        format!("{past} 5 octets; up to the end of the item around it, at octet 0, there is room for 1")
    );
    assert_eq!(
        told("A0 80 04 82 12 34 00"),
        format!("{past} 4,660 octets; up to the end of the stream there is room for 1")
    );
    assert_eq!(told("A0 02 04 9A"), "number 6 at octet 2: the first length octet is 9A; 85 to FF are none");
    let unclosed = "number 7 at octet 6: the item around it ends before the indefinite item 30, at octet 2, is closed";
    assert_eq!(told("A0 04 30 80 05 00 05 00"), unclosed);
    assert_eq!(
        told("A0 03 01 02 00 00"),
        "number 7 at octet 2: the item 01 says that its value has 2 octets; up to the end of the item around it, at octet 0, there is room for 1"
    );
    assert_eq!(told("A0 04 01 02 00 00"), "number 8 at octet 2: a boolean is 2 octets long, and not one");
}

#[test]
fn the_misspelt_name() {
    let object = "number 14 at octet 2: element 1 (counted from 0), a layout object:";
    assert_eq!(told("A000 A2 07 31 05 41 03 312E32"), format!("{object} the identifier \"1.2\" is misspelt"));
    assert_eq!(told("A000 A2 07 31 05 A1 03 12 01 78"), format!("{object} the portion number \"x\" is misspelt"));
    assert_eq!(
        told("A000 A3 07 31 03 84 01 2D 04 00"),
        "number 14 at octet 2: element 1 (counted from 0), a text unit: the logical identifier \"-\" is misspelt"
    );
}

#[test]
fn the_earlier_element() {
    let again = "number 15 at octet 9: element 2 (counted from 0), a logical object: the identifier \"7\" is that of element 1, a layout object, already";
    assert_eq!(told("A000 A2 05 31 03 41 01 37 A6 05 31 03 41 01 37"), again);
    let unit = "the layout identifier \"7\" is that of element 1, a text unit, already";
    assert!(told("A000 A3 07 31 03 40 01 37 04 00 A3 07 31 03 40 01 37 04 00").ends_with(unit));
    let style = "the identifier \"7\" is that of element 2, a presentation style, already";
    assert!(told("A000 A2 05 31 03 41 01 37 A7 03 45 01 37 A8 03 45 01 37").ends_with(style));
    assert!(told("A000 A2 0A 31 08 A1 06 12 01 30 12 01 30").ends_with("the element lists the portion \"0\" twice"));
}

#[test]
fn elements_and_object_types() {
    assert_eq!(told("A000 A4 00"), "number 10 at octet 2: element 1 (counted from 0): no element begins with octet A4");
    assert!(told("A000 A2 03 02 01 05").ends_with("a layout object: the object type is outside its range: 05"));
    assert!(told("A000 A2 04 02 02 00 01").ends_with("the object type is not one octet: 0001"));
}

#[test]
fn what_is_no_letter() {
    let run = odif_with(&["check", "-"], b"%PDF-1.4\n");
    assert!(run.text().contains("\n  this is a PDF document, and no letter\n"), "{}", run.text());
    let run = odif_with(&["check", "--json", "-"], b"%PDF-1.4\n");
    assert!(run.text().contains(",\"foreign\":\"a PDF document\","), "{}", run.text());
}
