//! The binding by both editions.

use std::borrow::Cow;

use odif::{Edition, Kind, Letter, Refusal, Rule, Side, raw};

/// A profile, a block with two portions, their units, one tiled and one without content, and two protected parts.
const OF_1993: &[u8] = b"\xA0\x00\
    \xA2\x0D\x31\x0B\x41\x011\xA1\x06\x12\x010\x12\x011\
    \xA3\x0F\x31\x05\x40\x031 0\x30\x06\x04\x01H\x04\x01i\
    \xA3\x07\x31\x05\x40\x031 1\
    \xA9\x07\x47\x011\x03\x02\x07\x80\
    \xAB\x07\x47\x011\x04\x02\xDE\xAD";

const TILED: usize = 2;
const WITHOUT_CONTENT: usize = 3;
const SEALED: usize = 4;
const ENCIPHERED: usize = 5;

fn told<T>(answer: Result<T, Refusal>) -> Option<(Rule, usize)> {
    answer.err().map(|refusal| (refusal.rule, refusal.place))
}

fn read() -> Letter<'static> {
    Letter::read_in(Edition::Of1993, OF_1993).expect("a letter of 1993")
}

#[test]
fn the_elements_of_a_letter_of_1993() {
    let letter = read();
    assert_eq!(letter.edition(), Edition::Of1993);
    let kinds: Vec<Kind> = letter.elements().iter().map(|element| element.kind).collect();
    use Kind::*;
    assert_eq!(kinds, [DocumentProfile, LayoutObject, TextUnit, TextUnit, SealedProfile, PreEncipheredPart]);
    for element in [SEALED, ENCIPHERED] {
        let part = &letter.elements()[element];
        let of_others = (&part.identifier, &part.logical_identifier, &part.portions);
        assert_eq!((part.object_type, of_others), (None, (&None, &None, &None)), "{element}");
        assert_eq!((letter.identifier(element), letter.content(element)), (None, None), "{element}");
    }
    assert_eq!(letter.elements()[SEALED].content, None);
    let enciphered = letter.elements()[ENCIPHERED].content.clone().expect("enciphered information");
    assert_eq!(OF_1993[enciphered], [0xDE, 0xAD]);
    assert_eq!(letter.elements()[WITHOUT_CONTENT].content, None);
}

#[test]
fn contents_of_1993() {
    let letter = read();
    assert_eq!(letter.content(TILED).as_deref(), Some(&b"Hi"[..]));
    assert_eq!(letter.content(WITHOUT_CONTENT), Some(Cow::Borrowed(&[][..])));
    assert_eq!(letter.text(Side::Layout).unwrap().units().collect::<Vec<_>>(), [&b"Hi"[..], b""]);
    assert_eq!(odif::content_in(Edition::Of1993, OF_1993, TILED).as_deref(), Ok(&b"Hi"[..]));
    assert_eq!(odif::content_in(Edition::Of1993, OF_1993, WITHOUT_CONTENT).as_deref(), Ok(&b""[..]));
    for element in [0, 1, SEALED, ENCIPHERED, 6, usize::MAX] {
        let content = odif::content_in(Edition::Of1993, OF_1993, element);
        assert_eq!(told(content), Some((Rule::NoTextUnit, 0)), "{element}");
    }
    assert_eq!(raw::content_in(Edition::Of1993, OF_1993, TILED as u32).number, Rule::InPieces.number());
}

#[test]
fn normal_forms_of_1993() {
    let indefinite = b"\xA0\x00\xA3\x80\x30\x80\x04\x01H\x00\x00\x00\x00\xAA\x80\x47\x00\x04\x00\x00\x00";
    let normal = b"\xA0\x00\xA3\x05\x30\x03\x04\x01H\xAA\x04\x47\x00\x04\x00".to_vec();
    assert_eq!(odif::normal_form_in(Edition::Of1993, indefinite), Ok(normal.clone()));
    assert_eq!(odif::short_normal_form_in(Edition::Of1993, indefinite), Ok(normal.clone()));
    assert_eq!(Letter::read_in(Edition::Of1993, indefinite).unwrap().normal_form(), Ok(normal));
    assert_eq!(told(odif::normal_form(indefinite)), Some((Rule::Contents, 2)));
}

/// What does not ask for an edition reads by that of 1988, and refuses what is new in 1993.
#[test]
fn what_1988_says_of_it() {
    for (stream, refusal) in [
        (&b"\xA0\x00\xA9\x07\x47\x011\x03\x02\x07\x80"[..], (Rule::NoSuchElement, 2)),
        (b"\xA0\x00\xAA\x05\x47\x011\x04\x00", (Rule::NoSuchElement, 2)),
        (b"\xA0\x00\xA3\x00", (Rule::Contents, 2)),
        (b"\xA0\x00\xA3\x02\x30\x00", (Rule::Contents, 2)),
    ] {
        let refusal = Some(refusal);
        assert_eq!(told(Letter::read(stream)), refusal);
        assert_eq!(told(Letter::read_in(Edition::Of1988, stream)), refusal);
        assert_eq!(told(odif::check(stream).verdict), refusal);
        assert_eq!(told(odif::content(stream, 1)), refusal);
        assert_eq!(told(odif::normal_form(stream)), refusal);
        assert_eq!(told(odif::short_normal_form(stream)), refusal);
        assert_eq!(odif::check_in(Edition::Of1993, stream).verdict, Ok(2));
    }
}

/// The letter of 1988 is one of 1993, and the answers are the same.
#[test]
fn a_letter_of_1988_by_both() {
    let stream = b"\xA0\x80\x00\x00\xA2\x0A\x31\x08\x41\x011\xA1\x03\x12\x010\xA3\x0B\x31\x05\x40\x031 0\x04\x02Hi";
    let [old, new] = Edition::ALL.map(|edition| Letter::read_in(edition, stream).unwrap());
    assert_eq!(old.elements(), new.elements());
    assert_eq!(old.headers(), new.headers());
    assert_eq!(old.text(Side::Layout), new.text(Side::Layout));
    assert_eq!(old.normal_form(), new.normal_form());
    assert_eq!(Edition::ALL.map(|edition| edition.to_string()), ["1988", "1993"]);
    assert_eq!(Edition::default(), Edition::Of1988);
}
