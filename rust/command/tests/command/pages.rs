//! `odif pages`, and the pages in a survey

use super::support::{CLAIM, CUT_SHORT, Scratch, assert_unreadable_json, odif, odif_with};

/// A page of 9240 by 12400, one of 9920 by 14030, a frame without dimensions, and a page without them.
const WITHIN: &str = "A000 \
    A2 14 020102 31 0F 4103312030 A408 80022418 80023070 \
    A2 0F 020102 31 0A A408 800226C0 800236CE \
    A2 03 020103 \
    A2 03 020102";
/// A page class of 30000 by 30000, and a page with one number.
const OUTSIDE: &str = "A000 \
    A1 12 020102 31 0D 410130 A408 80027530 80027530 \
    A2 0B 020102 31 06 A404 800226C0";

fn octets(text: &str) -> Vec<u8> {
    let digits: Vec<u32> = text.chars().filter_map(|digit| digit.to_digit(16)).collect();
    digits.chunks_exact(2).map(|pair| (pair[0] << 4 | pair[1]) as u8).collect()
}

#[test]
fn pages_with_their_verdicts() {
    let run = odif_with(&["pages", "--hex", "-"], WITHIN.as_bytes());
    let wanted = "\
element  kind           identifier  verdict          width   height  at octet
      1  layout object  1 0         essential         9240    12400        14
      2  layout object              non-essential     9920    14030        31
      4  layout object              none                 -        -         -
";
    assert_eq!((run.status, run.text(), run.stderr.as_str()), (0, wanted, ""));
    let run = odif_with(&["pages", "--hex", "-"], OUTSIDE.as_bytes());
    let wanted = "\
element  kind           identifier  verdict          width   height  at octet
      1  layout class   0           outside          30000    30000        12
      2  layout object              not fixed            -        -        29  the dimensions have 1 item, and not two
";
    assert_eq!((run.status, run.text()), (1, wanted));
    let run = odif(&["pages", "--hex", "vectors/annex-d-1.hex", "vectors/annex-d-2.hex"]);
    assert_eq!(run.status, 0);
    assert_eq!(run.text().matches("non-essential ").count(), 3, "{}", run.text());
    assert!(run.text().starts_with("==> vectors/annex-d-1.hex <==\nelement  kind"), "{}", run.text());
    let run = odif(&["pages", CUT_SHORT]);
    assert_eq!((run.status, run.text()), (1, ""));
    assert!(run.stderr.contains("refused, number 7 at octet 887: "), "{}", run.stderr);
}

#[test]
fn json() {
    let run = odif_with(&["pages", "--json", "--hex", "-"], OUTSIDE.as_bytes());
    let wanted = "{\"file\":\"-\",\"outcome\":\"accepted\",\"number\":0,\"place\":0,\"pages\":[\
        {\"element\":1,\"kind\":\"layout class\",\"identifier\":\"0\",\"first\":2,\"past\":22,\"verdict\":\"outside\",\"width\":30000,\"height\":30000,\"dimensions\":12},\
        {\"element\":2,\"kind\":\"layout object\",\"identifier\":null,\"first\":22,\"past\":35,\"verdict\":\"not fixed\",\"width\":null,\"height\":null,\"dimensions\":29,\"why\":\"the dimensions have 1 item, and not two\"}]}\n";
    assert_eq!((run.status, run.text()), (1, wanted));
    let run = odif(&["pages", "--json", CUT_SHORT]);
    assert!(run.text().contains("\"outcome\":\"refused\",\"number\":7,\"place\":887,"), "{}", run.text());
    assert!(run.text().ends_with(",\"pages\":[]}\n"), "as `jq .pages[]` wants it: {}", run.text());
    assert!(odif(&["pages", "--json", CLAIM]).text().contains("\"verdict\":\"none\",\"width\":null,"));
    assert_unreadable_json("pages");
}

/// What is said behind `not fixed` of a page with these dimensions.
fn why(dimensions: &str) -> String {
    let length = |octets: &str| octets.chars().filter(char::is_ascii_hexdigit).count() / 2;
    let body = format!("31 {:02X} {dimensions}", length(dimensions));
    let page = format!("A2 {:02X} 020102 {body}", 3 + length(&body));
    let run = odif_with(&["pages", "--hex", "-"], format!("A000 {page}").as_bytes());
    assert_eq!(run.status, 1, "{}", run.stderr);
    run.text().lines().nth(1).unwrap().split_once("not fixed            -        -         9  ").unwrap().1.into()
}

#[test]
fn why_dimensions_are_not_fixed() {
    assert_eq!(why("A409 8003002418 80023070"), "the width, at octet 11, is 002418, and not in the fewest octets");
    assert_eq!(why("A409 80022418 8003FF8000"), "the height, at octet 15, is FF8000, and not in the fewest octets");
    assert_eq!(why("A408 80022418 81023070"), "the height, at octet 15, is an item 81, and not a fixed dimension, 80");
    assert_eq!(why("A406 8000 80023070"), "the width, at octet 11, is empty");
    assert_eq!(why("A40B 80050100000000 80023070"), "the width, at octet 11, has 5 octets, more than 4");
    assert_eq!(why("A40C 80022418 80023070 80023070"), "the dimensions have 3 items, and not two");
    assert_eq!(why("A408 80022418 80023070 A400"), "dimensions stand there 2 times, at octets 9, 19");
    assert_eq!(why("A400"), "the dimensions have 0 items, and not two");
}

#[test]
fn in_a_survey_by_a_flag() {
    let scratch = Scratch::new("pages-survey");
    scratch.write("in/outside.odif", &octets(OUTSIDE));
    scratch.write("in/plain.odif", b"\xA0\x00");
    scratch.write("in/within.odif", &octets(WITHIN));
    let folder = scratch.word("in");
    let csv = scratch.word("pages.csv");
    let run = odif(&["survey", &folder, "--pages", "--order", "--csv", &csv]);
    assert_eq!(run.status, 0);
    let pages = "pages by PM1: 1 essential, 1 non-essential, 1 none, 1 not fixed, 1 outside\n";
    assert!(run.text().ends_with(&format!("letters by order: 3 both\n{pages}")), "{}", run.text());
    let lines = std::fs::read_to_string(&csv).unwrap();
    let ends = [
        ",first_date,order,pages,file_octets",
        ",,both,\"1 outside, 1 not fixed\",",
        ",,both,,",
        ",,both,\"1 none, 1 essential, 1 non-essential\",",
    ];
    assert!(lines.lines().zip(ends).all(|(line, end)| line.ends_with(end)), "{lines}");
    let merged = odif(&["survey", "--merge", &csv, "--csv", "-"]);
    assert_eq!(merged.text(), lines);
    assert!(merged.stderr.ends_with(pages), "{}", merged.stderr);
    let run = odif(&["survey", &folder, "--pages", "--json"]);
    let wanted = "\"pages\":{\"essential\":1,\"non-essential\":1,\"none\":1,\"not fixed\":1,\"outside\":1}";
    assert!(run.text().contains(wanted) && !run.text().contains("\"orders\""), "{}", run.text());
}
