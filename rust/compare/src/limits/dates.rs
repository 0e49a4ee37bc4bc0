//! Dates of documents: every day of every month, every spelling, the path and what is just off it, and fronts of letters.

use super::{Case, case};
use crate::coding::{indefinite, item};

/// A profile in which one A3 has one A0 with these items.
fn profile(dates: &[u8]) -> Vec<u8> {
    item(0xA0, &item(0xA3, &item(0xA0, dates)))
}

fn dated(text: &[u8]) -> Vec<u8> {
    profile(&item(0x80, text))
}

/// Every month, those that do not exist too, with every day up to 32.
pub fn days() -> Vec<Case> {
    let mut cases = Vec::new();
    for year in [1900, 2000] {
        for month in 0..=13 {
            for day in 0..=32 {
                let text = format!("{year:04}-{month:02}-{day:02}");
                cases.push(case(format!("the date {text}"), dated(text.as_bytes())));
            }
        }
    }
    cases
}

/// The leap rule, and the first and the last days of years.
pub fn years() -> Vec<Case> {
    let mut cases = Vec::new();
    for year in (0..=9)
        .chain([99, 100, 101, 104, 200, 300, 400, 1600, 1700, 1800, 1899, 1900])
        .chain([1901, 1904, 1988, 1989, 1996, 1999, 2000, 2001, 2004, 2024, 2100, 2200, 2300, 2400, 9996, 9998, 9999])
    {
        for day in ["01-01", "02-28", "02-29", "02-30", "03-01", "12-31", "12-32"] {
            let text = format!("{year:04}-{day}");
            cases.push(case(format!("the date {text}"), dated(text.as_bytes())));
        }
    }
    cases
}

/// Every octet in each of the ten places; every length; and what may follow the ten.
pub fn spellings() -> Vec<Case> {
    let good = b"1991-03-14";
    let mut cases = Vec::new();
    for place in 0..good.len() {
        for octet in 0..=0xFF {
            let mut text = *good;
            text[place] = octet;
            cases.push(case(format!("the date {text:02X?}"), dated(&text)));
        }
    }
    for length in 0..good.len() {
        cases.push(case(format!("a date of {length} octets"), dated(&good[..length])));
    }
    for after in [&b"T09:30:00"[..], b"/1991-03-15", b"-", &[0xFF], &[0; 200]] {
        cases.push(case("octets after a date", dated(&[good, after].concat())));
    }
    for text in ["19910314", "1991-3-14", "91-03-14", "14-03-1991", "1991/03/14", " 1991-03-14", "1991-03-1 "] {
        cases.push(case(format!("the date {text}"), dated(text.as_bytes())));
    }
    cases
}

/// The path, one level off it either way, other tags on it, and more than one item at its end.
pub fn paths() -> Vec<Case> {
    let date = item(0x80, b"1991-03-14");
    let other = item(0x80, b"2000-02-29");
    let mut cases = Vec::new();
    let mut add = |name: &str, stream: Vec<u8>| cases.push(case(name, stream));
    add("a date", profile(&date));
    add("a date in indefinite items", indefinite(0xA0, &indefinite(0xA3, &indefinite(0xA0, &date))));
    add("no attributes", item(0xA0, &[]));
    add("empty attributes", item(0xA0, &item(0xA3, &[])));
    add("no date among the times", profile(&[]));
    add("two dates", profile(&[date.clone(), other.clone()].concat()));
    add("the same date twice", profile(&[date.clone(), date.clone()].concat()));
    let attributes = |dates: &[u8]| item(0xA3, &item(0xA0, dates));
    add("a date in each of two A3", item(0xA0, &[attributes(&date), attributes(&other)].concat()));
    add("a date in the second A3 alone", item(0xA0, &[attributes(&[]), attributes(&date)].concat()));
    add("a date in the first A3 alone", item(0xA0, &[attributes(&date), attributes(&[])].concat()));
    add("a date in each of two A0", item(0xA0, &item(0xA3, &[item(0xA0, &date), item(0xA0, &other)].concat())));
    add("a date in the second A0 alone", item(0xA0, &item(0xA3, &[item(0xA0, &[]), item(0xA0, &date)].concat())));
    add("a constructed date", profile(&item(0xA0, &item(0x44, b"1991-03-14"))));
    add("a constructed date of pieces", profile(&indefinite(0xA0, &[date.clone(), other.clone()].concat())));
    add("a primitive and a constructed date", profile(&[item(0xA0, &[]), date.clone()].concat()));
    add("a date that is no day beside one that is", profile(&[item(0x80, b"1991-02-30"), date.clone()].concat()));
    add("a date one level up", item(0xA0, &item(0xA3, &date)));
    add("a date two levels up", item(0xA0, &date));
    add("a date one level down", profile(&item(0x31, &date)));
    add("a date in an A0 of the profile", item(0xA0, &item(0xA0, &date)));
    add("an A3 in the A3", item(0xA0, &item(0xA3, &attributes(&date))));
    add("an A3 in another item", item(0xA0, &item(0xA2, &attributes(&date))));
    add("a primitive 83 on the way", item(0xA0, &[item(0x83, &item(0xA0, &date)), attributes(&other)].concat()));
    add("a primitive 80 on the way", item(0xA0, &item(0xA3, &[item(0x80, &date), item(0xA0, &other)].concat())));
    for octet in 0x40..=0xFF {
        if octet & 0x1F != 0x1F {
            let text = if octet & 0x20 == 0 { b"1991-03-14".to_vec() } else { date.clone() };
            add(&format!("{octet:02X} in place of the 80"), profile(&item(octet, &text)));
            add(&format!("{octet:02X} beside the 80"), profile(&[item(octet, &text), date.clone()].concat()));
            if octet & 0x20 != 0 {
                add(&format!("{octet:02X} in place of the A0"), item(0xA0, &item(0xA3, &item(octet, &date))));
                add(&format!("{octet:02X} in place of the A3"), item(0xA0, &item(octet, &item(0xA0, &date))));
                add(&format!("{octet:02X} in place of the profile"), item(octet, &attributes(&date)));
            }
        }
    }
    cases
}

/// Letters with a date cut at every octet, and with faults after the profile.
pub fn fronts() -> Vec<Case> {
    let date = item(0x80, b"1991-03-14T09:30");
    let unit = item(0xA3, &[item(0x31, &item(0x40, b"1 0 2 0")), item(0x04, b"Hi")].concat());
    let definite = [profile(&date), vec![0xA2, 0x00], unit.clone()].concat();
    let marked = [indefinite(0xA0, &indefinite(0xA3, &indefinite(0xA0, &date))), unit].concat();
    let mut cases = Vec::new();
    for whole in [definite, marked] {
        for end in 0..=whole.len() {
            cases.push(case(format!("the first {end} octets of a dated letter"), whole[..end].to_vec()));
        }
    }
    for rest in [&[0x00][..], &[0x00, 0x00], &[0xA0, 0x00], &[0xA4, 0x00], &[0x80, 0x80], &[0xA2, 0x05], &[0xFF; 64]] {
        cases.push(case(format!("a date, then {rest:02X?}"), [&profile(&date)[..], rest].concat()));
    }
    let mut long = profile(&date);
    long.resize(odif::STREAM_LIMIT, 0xFF);
    cases.push(case("a date in a stream up to the limit", long.clone()));
    long.push(0xFF);
    cases.push(case("a date in a stream over the limit", long));
    cases
}
