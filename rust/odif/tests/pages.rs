//! The PM1 desk.

use odif::pm1::{self, Verdict};
use odif::{Edition, Letter, ROW_WIDTH, Rule, raw};

/// A page within 9240 by 12400, a page class of ISO A4, a frame, a page that is too large, one with one number, one with
/// nothing.
const PAGES: &[u8] = b"\xA0\x00\
    \xA2\x0F\x02\x01\x02\x31\x0A\xA4\x08\x80\x02\x24\x18\x80\x02\x30\x70\
    \xA1\x12\x02\x01\x02\x31\x0D\x41\x010\xA4\x08\x80\x02\x26\xC0\x80\x02\x36\xCE\
    \xA2\x0F\x02\x01\x03\x31\x0A\xA4\x08\x80\x02\x26\xC0\x80\x02\x36\xCE\
    \xA2\x0F\x02\x01\x02\x31\x0A\xA4\x08\x80\x02\x7F\xFF\x80\x02\x7F\xFF\
    \xA2\x0B\x02\x01\x02\x31\x06\xA4\x04\x80\x02\x26\xC0\
    \xA2\x03\x02\x01\x02";

#[test]
fn the_pages_of_a_letter() {
    let letter = Letter::read(PAGES).unwrap();
    let pages = letter.pages();
    let told: Vec<_> = pages.iter().map(|page| (page.element, page.verdict)).collect();
    let wanted = [
        (1, Verdict::Essential),
        (2, Verdict::NonEssential),
        (4, Verdict::Outside),
        (5, Verdict::NotFixed),
        (6, Verdict::None),
    ];
    assert_eq!(told, wanted);
    assert_eq!(pm1::pages(PAGES), Ok(pages.clone()));
    assert_eq!(pm1::pages_in(Edition::Of1993, PAGES), Ok(pages));
    assert_eq!(pm1::pages(b"\xA0\x00"), Ok(vec![]));
    let words: Vec<_> = Verdict::ALL.iter().map(|verdict| verdict.to_string()).collect();
    assert_eq!(words, ["none", "essential", "non-essential", "outside", "not fixed"]);
}

#[test]
fn refusals_and_what_they_leave() {
    let refusal = pm1::pages(b"\xA0\x00\xA4\x00").unwrap_err();
    assert_eq!((refusal.rule, refusal.place), (Rule::NoSuchElement, 2));
    let one = raw::pm1::Page { element: 9, verdict: 9 };
    let (mut table, mut list) = ([9; 7 * ROW_WIDTH], [one; 5]);
    let short = raw::pm1::pages(PAGES, &mut table[1..], &mut list);
    assert_eq!(short, raw::pm1::Listed { number: 16, ..Default::default() });
    assert_eq!((table[1], list), (9, [one; 5]));
    let short = raw::pm1::pages(PAGES, &mut table, &mut list[1..]);
    assert_eq!(short, raw::pm1::Listed { number: 30, elements: 7, ..Default::default() });
    assert_eq!(Rule::from_number(30), Some(Rule::PagesTooShort));
    assert_eq!((table[0], table[ROW_WIDTH], list), (0, 2, [one; 5]));
    let whole = raw::pm1::pages(PAGES, &mut table, &mut list);
    assert_eq!(whole, raw::pm1::Listed { number: 0, place: 0, elements: 7, pages: 5 });
    assert_eq!(list[1], raw::pm1::Page { element: 2, verdict: 2 });
}
