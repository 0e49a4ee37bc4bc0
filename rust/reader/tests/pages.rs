//! The streams of `vectors/pm1.txt`: the pages of a letter by the PM1 desk.

use reader::{Edition, Page, ROW_WIDTH, Reading};

const VECTORS: &str = include_str!("../../../vectors/pm1.txt");

fn octets(text: &str) -> Vec<u8> {
    let digits: Vec<u32> = text.chars().filter_map(|digit| digit.to_digit(16)).collect();
    digits.chunks_exact(2).map(|pair| (pair[0] << 4 | pair[1]) as u8).collect()
}

#[test]
fn the_verdicts_are_those_of_the_vectors() {
    let mut lines = 0;
    for line in VECTORS.lines().filter(|line| !line.starts_with('#')) {
        let fields: Vec<_> = line.split(';').map(str::trim).collect();
        let [name, hex, answer, pages] = fields[..] else { panic!("four fields: {line}") };
        let stream = octets(hex);
        let (mut table, mut list) = ([0; 16 * ROW_WIDTH], [Page::default(); 16]);
        for edition in Edition::ALL {
            let given = Reading::by(edition, &stream).pages(&mut table, &mut list);
            let told = format!("{} {} {} {}", given.number, given.place, given.elements, given.pages);
            assert_eq!(told, answer, "{name}, {edition}");
            let told = list[..given.pages as usize].iter().map(|page| format!("{}:{}", page.element, page.verdict));
            let told = told.collect::<Vec<_>>().join(" ");
            assert_eq!(if told.is_empty() { "-" } else { &told }, pages, "{name}, {edition}");
        }
        lines += 1;
    }
    assert!(lines >= 50);
}
