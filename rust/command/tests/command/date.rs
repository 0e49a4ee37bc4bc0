//! `odif date`, and the date in the other subcommands

use std::fs;

use super::support::{CLAIM, Scratch, WITH_DATE, assert_unreadable_json, odif, odif_with};

/// A letter with the date 1988-06-05 and a time.
const DATED: &[u8] = b"\xA0\x16\xA3\x14\xA0\x12\x80\x101988-06-05T09:30\xA2\x00";

#[test]
fn a_date_or_why_there_is_none() {
    let scratch = Scratch::new("date");
    let dated = scratch.write("dated.odif", DATED);
    let run = odif(&["date", &dated]);
    assert_eq!((run.status, run.stderr.as_str()), (0, ""));
    assert_eq!(run.text(), format!("{dated}: 1988-06-05\n"));
    let none = "no date, number 23: the profile has no date of the document";
    let run = odif(&["date", &dated, CLAIM]);
    assert_eq!(run.status, 1);
    assert_eq!(run.text(), format!("{dated}: 1988-06-05\n{CLAIM}: {none}\n"));
    let basic = odif_with(&["date", "--hex", "-"], b"A00E A30C A00A 8008 3139383830363035");
    let words = "no date, number 24: the date of the document, \"19880605\" at octet 8, does not begin with a day as in \
        1988-06-05";
    let around = "  000000  A0 0E A3 0C A0 0A 80 08[31]39 38 38 30 36 30 35 ........19880605";
    assert_eq!((basic.status, basic.text()), (1, &*format!("standard input: {words}\n{around}\n")));
}

/// The first line that is said of dates in hexadecimal, behind the name.
fn told(profile: &[u8]) -> String {
    let run = odif_with(&["date", "--hex", "-"], profile);
    assert_eq!(run.status, 1);
    run.text().lines().next().unwrap().replace("standard input: no date, number ", "")
}

#[test]
fn what_stands_in_the_place_of_a_date() {
    let day = "the date of the document, \"1991-02-30\" at octet 8, is no day of the calendar";
    assert_eq!(told(b"A010 A30E A00C 800A 313939312D30322D3330"), format!("24: {day}"));
    let odd = "the date of the document, \"1991\\xFF\" at octet 8, does not begin with a day as in 1988-06-05";
    assert_eq!(told(b"A00B A309 A007 8005 31393931FF"), format!("24: {odd}"));
    let two = "the profile has 2 dates of the document: \"a\" at octet 8, \"b\" at octet 11";
    assert_eq!(told(b"A00A A308 A006 800161 800162"), format!("23: {two}"));
    assert_eq!(told(b"A006 A304 A002 A000"), "23: the date of the document, at octet 6, is constructed");
    assert_eq!(told(b"A005 A303 800161"), "23: the profile has no date of the document");
    let run = odif_with(&["date", "--json", "--hex", "-"], b"A00B A309 A007 8005 31393931FF");
    let found = r#","date":null,"dates":[{"place":6,"first":8,"past":13,"constructed":false,"value":null,"value_hex":"31393931FF"}],"#;
    assert!(run.text().contains(found) && run.text().contains("\"outcome\":\"undated\",\"number\":24,\"place\":0,"));
}

/// The octets behind the day are not judged, and not altered.
#[test]
fn the_octets_of_a_date_are_exact() {
    let run = odif_with(&["date", "--json", "--hex", "-"], b"A013 A311 A00F 800D 313939312D30342D3038 FFE90A");
    let wanted = r#""value":null,"value_hex":"313939312D30342D3038FFE90A","unread":false}"#;
    assert!(run.text().contains(wanted), "{}", run.text());
    let run = odif_with(&["date", "--json", "--hex", "-"], b"A011 A30F A00D 800B 313939312D30342D3038 0A");
    assert!(run.text().contains(r#""value":"1991-04-08\n","value_hex":"313939312D30342D30380A""#), "{}", run.text());
}

#[test]
fn the_first_element_alone() {
    let scratch = Scratch::new("date-first");
    let cut = scratch.write("cut.odif", &[DATED, &[0xA2, 0x05]].concat());
    let run = odif(&["date", &cut]);
    assert_eq!(run.status, 1);
    assert!(run.text().starts_with(&format!("{cut}: refused, number 7 at octet 26: ")), "{}", run.text());
    assert!(
        run.text().contains("\n  000010  30 35 54 30 39 3A 33 30 A2 00[A2]05"),
        "the octets around it: {}",
        run.text()
    );
    let unread = "(by the first element alone; the rest is unread)";
    let run = odif(&["date", "--first", &cut]);
    assert_eq!((run.status, run.text()), (0, &*format!("{cut}: 1988-06-05 {unread}\n")));
    let run = odif_with(&["date", "--first", "--hex", "-"], b"A000 FF");
    assert_eq!(
        run.text(),
        format!("standard input: no date, number 23: the profile has no date of the document {unread}\n")
    );
    let run = odif_with(&["date", "--first", "--hex", "-"], b"A005 FF");
    assert!(run.text().ends_with(&format!("\n  {unread}\n")), "{}", run.text());
    // A profile that is longer than what is read at first, and a file that no letter can be as long as.
    let filler = [&[0x82, 0x83, 0x01, 0x00, 0x00][..], &[b'x'; 65_536]].concat();
    let long = [&[0xA0, 0x80][..], &filler, &DATED[2..24], &[0x00, 0x00, 0xFF]].concat();
    let long = scratch.write("long.odif", &long);
    assert_eq!(odif(&["date", "--first", &long]).text(), format!("{long}: 1988-06-05 {unread}\n"));
    let huge = scratch.write_huge("huge.odif");
    assert!(odif(&["date", "--first", &huge]).text().contains("refused, number 1 at octet 0: "));
}

#[test]
fn json() {
    let scratch = Scratch::new("date-json");
    let dated = scratch.write("dated.odif", DATED);
    let wanted = format!(
        "{{\"file\":\"{dated}\",\"outcome\":\"dated\",\"number\":0,\"place\":0,\"date\":\"1988-06-05\",\"first\":8,\"past\":24,\
         \"value\":\"1988-06-05T09:30\",\"value_hex\":\"313938382D30362D30355430393A3330\",\"unread\":false}}\n"
    );
    assert_eq!(odif(&["date", "--json", &dated]).text(), wanted);
    assert_eq!(odif(&["date", WITH_DATE]).text(), format!("{WITH_DATE}: 1991-04-08\n"));
    let first = odif(&["date", "--json", "--first", &dated]);
    assert_eq!(first.text(), wanted.replace("\"unread\":false", "\"unread\":true"));
    let run = odif(&["date", "--json", CLAIM]);
    assert!(
        run.text().contains("\"outcome\":\"undated\",\"number\":23,\"place\":0,\"sentence\":\"the profile"),
        "{}",
        run.text()
    );
    assert_unreadable_json("date");
}

#[test]
fn in_check_survey_and_export() {
    let scratch = Scratch::new("date-elsewhere");
    let dated = scratch.write("inbox/dated.odif", DATED);
    let run = odif(&["check", &dated]);
    assert_eq!(run.text(), format!("{dated}: accepted, 2 elements, 5 items, 26 octets, dated 1988-06-05\n"));
    assert!(odif(&["check", "--json", &dated]).text().contains(",\"date\":\"1988-06-05\""));
    assert!(odif(&["check", "--json", CLAIM]).text().contains(",\"date\":null"));
    scratch.write("inbox/cut.odif", &[DATED, &[0xA2, 0x05]].concat());
    scratch.write("inbox/plain.odif", &[0xA0, 0x00]);
    let run = odif(&["survey", &scratch.word("inbox"), "--csv", "-"]);
    let lines: Vec<&str> = run.text().lines().collect();
    let dates: Vec<&str> = lines.iter().map(|line| line.rsplit(',').nth(1).unwrap()).collect();
    assert_eq!(dates, ["first_date", "", "1988-06-05", ""], "of a refused file there is none: {}", run.text());
    let run = odif(&["survey", &scratch.word("inbox"), "--csv", "-", "--first-dates"]);
    let dates: Vec<&str> = run.text().lines().map(|line| line.rsplit(',').nth(1).unwrap()).collect();
    assert_eq!(dates, ["first_date", "1988-06-05", "1988-06-05", ""], "unless it is asked for: {}", run.text());
    // A survey of before has the column as `date`, of refused files too.
    let old = scratch.write("old.csv", run.text().replace("first_date", "date").as_bytes());
    let merged = odif(&["survey", "--merge", &old, "--csv", "-"]);
    let dates: Vec<&str> = merged.text().lines().map(|line| line.rsplit(',').nth(1).unwrap()).collect();
    assert_eq!(dates, ["first_date", "", "1988-06-05", ""], "{}", merged.text());
    assert_eq!(odif(&["survey", "--merge", &old, "--first-dates", "--csv", "-"]).text(), run.text());
    assert_eq!(odif(&["export", &scratch.word("inbox"), &scratch.word("texts")]).status, 1);
    let manifest = fs::read_to_string(scratch.word("texts/manifest.csv")).unwrap();
    let dates: Vec<&str> = manifest.lines().map(|line| line.rsplit(',').nth(1).unwrap()).collect();
    assert_eq!(dates, ["date", "", "1988-06-05", ""], "{manifest}");
}
