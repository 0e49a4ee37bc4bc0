//! The streams of `vectors/editions-more.txt` by both editions.

use reader::{Edition, ROW_WIDTH, Reading};

const EDITIONS: &str = include_str!("../../../vectors/editions-more.txt");

fn octets(text: &str) -> Vec<u8> {
    let digits: Vec<u32> = text.chars().filter_map(|digit| digit.to_digit(16)).collect();
    digits.chunks_exact(2).map(|pair| (pair[0] << 4 | pair[1]) as u8).collect()
}

/// What the vectors tell of the last element: kind, object type, content's bounds; `-` where the stream is refused.
fn last_row(reading: &Reading<'_>, table: &mut [u32]) -> String {
    let elements = reading.check(table).elements as usize;
    let Some(row) = table.chunks_exact(ROW_WIDTH).take(elements).next_back() else { return "-".into() };
    [row[0], row[1], row[10], row[11]].map(|number| number.to_string()).join(" ")
}

#[test]
fn each_edition_answers_as_the_vectors_say() {
    let mut lines = 0;
    for line in EDITIONS.lines().filter(|line| !line.starts_with('#')) {
        let fields: Vec<_> = line.split(';').map(str::trim).collect();
        let [name, hex, by_1988, by_1993, row, part, joined] = fields[..] else { panic!("seven fields: {line}") };
        let stream = octets(hex);
        let mut table = [0; 4 * ROW_WIDTH];
        for (edition, answer) in Edition::ALL.into_iter().zip([by_1988, by_1993]) {
            let checked = Reading::by(edition, &stream).check(&mut table);
            assert_eq!(
                format!("{} {} {}", checked.number, checked.place, checked.headers),
                answer,
                "{name}, {edition}"
            );
        }
        let reading = Reading::by(Edition::Of1993, &stream);
        assert_eq!(last_row(&reading, &mut table), row, "{name}");
        let last = reading.element_count().saturating_sub(1) as u32;
        assert_eq!(reading.content(last).number.to_string(), part, "{name}");
        let mut out = [0; 16];
        let copied = reading.joined(last, &mut out);
        let content: String = out[..copied.length as usize].iter().map(|octet| format!("{octet:02X}")).collect();
        assert_eq!(format!("{} {content}", copied.number).trim_end(), joined, "{name}");
        lines += 1;
    }
    assert!(lines > 40);
}

/// Protected parts have no identifier and no portions in their rows, whatever their 47 holds.
#[test]
fn rows_of_protected_parts() {
    let stream = octets("A000 A907470131 03020780 AA07 470131 0402DEAD");
    let mut table = [7; 3 * ROW_WIDTH];
    assert_eq!(Reading::by(Edition::Of1993, &stream).check(&mut table).number, 0);
    assert_eq!(table[ROW_WIDTH..2 * ROW_WIDTH], [9, 255, 2, 11, 0, 0, 0, 0, 0, 0, 0, 0, 65535]);
    assert_eq!(table[2 * ROW_WIDTH..], [10, 255, 11, 20, 0, 0, 0, 0, 0, 0, 18, 20, 65535]);
}

/// A protected part that has the name a unit looks for is in no match, and neither is one that a unit would name.
#[test]
fn protected_parts_join_no_match() {
    let part = "AA05 470131 0400";
    let object = "A2 0A 31 08 410131 A103 120130";
    let unit = "A3 07 31 05 4003 312030";
    for (elements, matches) in [(format!("{part} {unit}"), 0), (format!("{part} {object} {unit}"), 1)] {
        let stream = octets(&format!("A000 {elements}"));
        let reading = Reading::by(Edition::Of1993, &stream);
        assert_eq!(reading.refusal(), None);
        assert_eq!(reading.matches(reader::Side::Layout).len(), matches, "{elements}");
    }
}
