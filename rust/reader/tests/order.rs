//! The streams of `vectors/order.txt`: the order of class A and of class B by both editions.

use reader::{Edition, Order, Reading};

const VECTORS: &str = include_str!("../../../vectors/order.txt");

fn octets(text: &str) -> Vec<u8> {
    let digits: Vec<u32> = text.chars().filter_map(|digit| digit.to_digit(16)).collect();
    digits.chunks_exact(2).map(|pair| (pair[0] << 4 | pair[1]) as u8).collect()
}

#[test]
fn each_class_answers_as_the_vectors_say() {
    let mut lines = 0;
    for line in VECTORS.lines().filter(|line| !line.starts_with('#')) {
        let fields: Vec<_> = line.split(';').map(str::trim).collect();
        let (name, stream) = (fields[0], octets(fields[1]));
        let asked = Edition::ALL.into_iter().flat_map(|edition| Order::ALL.map(|order| (edition, order)));
        for ((edition, order), answer) in asked.zip(&fields[2..]) {
            let given = Reading::by(edition, &stream).order(order);
            assert_eq!(format!("{} {}", given.number, given.place), *answer, "{name}: {order:?} by {edition}");
        }
        assert_eq!(fields.len(), 6, "{line}");
        lines += 1;
    }
    assert_eq!(lines, 32);
}
