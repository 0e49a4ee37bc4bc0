//! The order of class A and of class B.

use odif::{Class, Edition, Letter, Refusal, Rule, raw};

const VECTORS: &str = include_str!("../../../vectors/order.txt");

fn octets(text: &str) -> Vec<u8> {
    let digits: Vec<u32> = text.chars().filter_map(|digit| digit.to_digit(16)).collect();
    digits.chunks_exact(2).map(|pair| (pair[0] << 4 | pair[1]) as u8).collect()
}

/// An answer as the vectors have it.
fn told(answer: Result<(), Refusal>) -> String {
    answer.map_or_else(|refusal| format!("{} {}", refusal.number(), refusal.place), |()| "0 0".into())
}

#[test]
fn as_the_vectors_say() {
    let mut met = Vec::new();
    for line in VECTORS.lines().filter(|line| !line.starts_with('#')) {
        let fields: Vec<_> = line.split(';').map(str::trim).collect();
        let [name, hex, answers @ ..] = &fields[..] else { panic!("{line}") };
        let stream = octets(hex);
        let asked = Edition::ALL.into_iter().flat_map(|edition| Class::ALL.map(|class| (edition, class)));
        for ((edition, class), wanted) in asked.zip(answers) {
            assert_eq!(told(odif::order_in(edition, class, &stream)), *wanted, "{name}: class {class} by {edition}");
            if let Ok(letter) = Letter::read_in(edition, &stream) {
                assert_eq!(told(letter.order(class)), *wanted, "{name}: class {class} by {edition}");
            }
            met.push(*wanted);
        }
    }
    assert_eq!(met.len(), 4 * 32);
    assert!(met.contains(&"0 0") && met.contains(&"26 19") && met.contains(&"11 0") && met.contains(&"10 2"));
}

#[test]
fn a_refusal_by_26_in_words() {
    let stream = octets("A000 A2080201043103410131 A7054503352030");
    let refusal = odif::order(Class::A, &stream).unwrap_err();
    assert_eq!((refusal.rule, refusal.place), (Rule::OutOfOrder, 12));
    let words = "number 26 at 12: the elements are not in the order that was asked";
    assert_eq!(refusal.to_string(), words);
    assert_eq!(raw::order(Class::B, &stream), raw::Ordered { number: 26, place: 12 });
    assert_eq!(raw::order(Class::B, &[]), raw::Ordered { number: 11, place: 0 });
    assert_eq!(Class::ALL.map(|class| class.to_string()), ["A", "B"]);
}
