//! `odif profile`

use super::support::{CLAIM, CUT_SHORT, Scratch, WITH_DATE, assert_unreadable_json, item, odif};

/// A letter whose profile has all that is asked for.
fn full() -> Vec<u8> {
    let sets = item(0xA2, &item(0x85, b"\x1B-A"));
    let characteristics = item(0xA2, &[vec![0x81, 1, 2], sets, vec![0x86, 1, 0]].concat());
    let dates = item(0xA0, &item(0x80, b"1988-06-05"));
    let person = [item(0x80, b"M\xFCller"), item(0x81, b"James"), item(0x82, b"K.")].concat();
    let author = item(0x31, &[item(0xA0, &person), item(0x81, b"Audits")].concat());
    let company = item(0x31, &item(0x81, b"Dewey & Howe"));
    let originators = item(0xA1, &item(0xA3, &[author, company].concat()));
    let content = item(0xA5, &item(0xA4, &[item(0x43, b"US English"), item(0x43, b"Deutsch")].concat()));
    let description = item(0xA7, &item(0x80, b"May, a\r\nreport f\xFCr all"));
    let management = item(0xA3, &[dates, originators, content, description].concat());
    item(0xA0, &[characteristics, management].concat())
}

#[test]
fn one_line_a_file() {
    let scratch = Scratch::new("profile");
    let file = scratch.write("full.odif", &full());
    let run = odif(&["profile", &file, WITH_DATE, CLAIM, CUT_SHORT]);
    assert_eq!(run.status, 1);
    let line = "\"May, a\\r\\nreport für all\"; by James K. Müller, Audits; by Dewey & Howe; 1988-06-05; \
        formatted-processable; if-a; profile in latin1; US English; Deutsch";
    let lines: Vec<&str> = run.text().lines().collect();
    assert_eq!(lines[0], format!("{file}: {line}"));
    assert!(lines[1].starts_with("samples/letters/dated.odif: ") && lines[1].contains("1991-04-08"), "{}", lines[1]);
    assert!(lines[3].contains("refused, number 7"), "{}", run.text());
}

#[test]
fn json_has_the_octets_of_the_title() {
    let scratch = Scratch::new("profile-json");
    let file = scratch.write("full.odif", &full());
    let run = odif(&["profile", "--json", &file, CUT_SHORT]);
    let lines: Vec<serde_json::Value> = run.text().lines().map(|line| serde_json::from_str(line).unwrap()).collect();
    assert_eq!(lines[0]["title"], "May, a\r\nreport für all");
    assert_eq!(lines[0]["title_hex"], "4D61792C20610D0A7265706F72742066FC7220616C6C");
    assert_eq!(lines[0]["authors"], serde_json::json!(["James K. Müller, Audits", "Dewey & Howe"]));
    assert_eq!((&lines[0]["date"], &lines[0]["class"]), (&"1988-06-05".into(), &"formatted-processable".into()));
    assert_eq!((&lines[0]["profile_set"], &lines[0]["text_set"]), (&"latin1".into(), &serde_json::Value::Null));
    assert_eq!(lines[0]["languages"], serde_json::json!(["US English", "Deutsch"]));
    assert_eq!((&lines[1]["outcome"], &lines[1]["title"]), (&"refused".into(), &serde_json::Value::Null));
    assert_unreadable_json("profile");
}

#[test]
fn a_profile_with_nothing_of_these() {
    let scratch = Scratch::new("profile-empty");
    let file = scratch.write("empty.odif", &item(0xA0, b""));
    assert_eq!(odif(&["profile", &file]).text(), format!("{file}: nothing of these in its profile\n"));
    // What stands in a later element is no part of the profile.
    let later = [item(0xA0, b""), item(0xA7, &item(0x45, b"5 0"))].concat();
    assert!(odif(&["profile", &scratch.write("later.odif", &later)]).text().contains("nothing of these"));
}
