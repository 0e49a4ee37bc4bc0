//! Pages: each bound of T.502's table 10 from both sides, the forms of a number, and where dimensions stand.

use super::{Case, case, letter};
use crate::coding::{Form, Item, indefinite, item, item_in};
use crate::pages::{PRINTED, pair, shortest};

/// An element of an object type with this descriptor.
fn typed(octet: u8, object_type: u8, descriptor: &[u8]) -> Vec<u8> {
    item(octet, &[item(0x02, &[object_type]), item(0x31, descriptor)].concat())
}

/// A page with this descriptor.
fn page(descriptor: &[u8]) -> Vec<u8> {
    typed(0xA2, 2, descriptor)
}

fn written(item: &Item) -> Vec<u8> {
    item.write(&mut |_| Form::Shortest)
}

/// The A4 with these two values.
fn dimensions(horizontal: &[u8], vertical: &[u8]) -> Vec<u8> {
    item(0xA4, &[item(0x80, horizontal), item(0x80, vertical)].concat())
}

/// Each pair of the table, and one less and one more in each direction, as page and as page class; and all bounds crossed.
pub fn bounds() -> Vec<Case> {
    let mut cases = Vec::new();
    for [horizontal, vertical] in PRINTED {
        for (across, down) in [-1, 0, 1].into_iter().flat_map(|across| [-1, 0, 1].map(|down| (across, down))) {
            let (horizontal, vertical) = (horizontal + across, vertical + down);
            let dimensions = written(&pair(horizontal, vertical));
            let class = typed(0xA1, 2, &[item(0x41, b"1"), dimensions.clone()].concat());
            let name = format!("a page of {horizontal} by {vertical}");
            cases.push(case(format!("{name}, and a class"), letter(&[page(&dimensions), class])));
        }
    }
    let near: Vec<i64> = [-1, 0, 1, 2].into_iter().chain(PRINTED.iter().flat_map(|&[one, _]| [one, one + 1])).collect();
    for &horizontal in &near {
        let pages: Vec<_> = near.iter().map(|&vertical| page(&written(&pair(horizontal, vertical)))).collect();
        cases.push(case(format!("pages of {horizontal} by other numbers"), letter(&pages)));
    }
    cases
}

/// Numbers of none to six octets, shortest and padded, negative ones too; in either place.
pub fn numbers() -> Vec<Case> {
    let mut values: Vec<Vec<u8>> = vec![vec![], vec![0; 2], vec![0; 4], vec![0, 0x7F], vec![0, 0x80], vec![0xFF, 0x80]];
    values.extend([vec![0xFF, 0x7F], vec![0xFF; 2], vec![0xFF; 4], vec![0, 0, 0x80, 0], vec![0, 0, 0, 0, 1]]);
    values.extend([vec![0, 0x7F, 0xFF], vec![0xFF, 0x80, 0], vec![0, 0x24, 0x18], vec![0, 0, 0x24, 0x18], vec![1; 5]]);
    values.extend([vec![1; 6], vec![0x7F, 0xFF, 0xFF, 0xFF], vec![0x80, 0, 0, 0], vec![0, 0x80, 0, 0, 0]]);
    let edges = [0, 1, -1, 127, 128, -128, -129, 255, 256, 32_767, 32_768, -32_768, -32_769, 8_388_607, 8_388_608];
    let far = [65_536 + 100, (1 << 24) + 100, (1 << 31) - 1, 1 << 31, -(1 << 31), -(1 << 31) - 1, (1 << 32) + 100];
    values.extend(edges.into_iter().chain(far).map(shortest));
    let mut cases = Vec::new();
    for value in &values {
        let name = format!("a page with the number {value:02X?}");
        let pages = [dimensions(value, &[100]), dimensions(&[100], value), dimensions(value, value)];
        cases.push(case(name, letter(&pages.map(|dimensions| page(&dimensions)))));
    }
    for octet in 0..=255 {
        let one = [dimensions(&[octet], &[1]), dimensions(&[octet, 0], &[1]), dimensions(&[0, octet], &[octet, 0xFF])];
        let pages = one.map(|dimensions| page(&dimensions));
        cases.push(case(format!("pages whose number begins with {octet:02X}"), letter(&pages)));
    }
    cases
}

/// What stands in the A4, and beside it.
pub fn contents() -> Vec<Case> {
    let fixed = item(0x80, &[100]);
    let (both, good) = (fixed.repeat(2), dimensions(&[100], &[100]));
    let mut cases = Vec::new();
    let mut add = |name: String, descriptor: Vec<u8>| cases.push(case(name, letter(&[page(&descriptor), page(&good)])));
    for count in 0..=4 {
        add(format!("an A4 with {count} items"), item(0xA4, &fixed.repeat(count)));
        add(format!("{count} A4"), good.repeat(count));
    }
    for octet in (0..=0xFF).filter(|octet| octet & 0x1F != 0x1F) {
        let other = item(octet, if octet & 0x20 == 0 { &[100] } else { &fixed });
        add(format!("{octet:02X} for the first number"), item(0xA4, &[&other[..], &fixed].concat()));
        add(format!("{octet:02X} for the second number"), item(0xA4, &[&fixed[..], &other].concat()));
        add(format!("{octet:02X} after the numbers"), item(0xA4, &[&both[..], &other].concat()));
        let other = item(octet, if octet & 0x20 == 0 { &[100] } else { &both });
        add(format!("{octet:02X} for the A4"), other.clone());
        add(format!("{octet:02X} before the A4"), [&other[..], &good].concat());
        add(format!("{octet:02X} after the A4"), [&good[..], &other].concat());
    }
    add("two A4, the second without items".into(), [good.clone(), item(0xA4, &[])].concat());
    add("an A4 in an A4".into(), item(0xA4, &good));
    add("an A4 in an A3".into(), item(0xA3, &good));
    add("a type above 30 for the A4".into(), [&[0xBF, 0x24, 0x06][..], &both].concat());
    add("an indefinite A4, and another".into(), [indefinite(0xA4, &both), good.clone()].concat());
    add("an empty descriptor".into(), vec![]);
    cases
}

/// Which elements are pages, with lengths in all forms, and how many there can be.
pub fn places() -> Vec<Case> {
    let good = dimensions(&[100], &[100]);
    let mut cases = Vec::new();
    let mut add = |name: &str, element: Vec<u8>| cases.push(case(name, letter(&[element, page(&good)])));
    add("a page without descriptor", item(0xA2, &item(0x02, &[2])));
    add("an object without type", item(0xA2, &item(0x31, &good)));
    add("an object without anything", item(0xA2, &[]));
    for form in [Form::Long(1), Form::Long(4), Form::Indefinite] {
        let inner = if form == Form::Indefinite { Form::Long(2) } else { form };
        let numbers = [item_in(inner, 0x80, &[100]), item_in(inner, 0x80, &[0x26, 0xC0])].concat();
        let body = item_in(form, 0x31, &[item(0x41, b"1"), item_in(form, 0xA4, &numbers)].concat());
        add(&format!("lengths as {form:?}"), item_in(form, 0xA2, &[item_in(inner, 0x02, &[2]), body].concat()));
    }
    for octet in [0xA1, 0xA2, 0xA5, 0xA6] {
        for object_type in 0..=4 {
            let named = [item(0x41, b"1"), good.clone()].concat();
            add(&format!("type {object_type} of {octet:02X}"), typed(octet, object_type, &named));
        }
    }
    cases.push(case("no pages", letter(&[typed(0xA2, 3, &good), item(0xA3, &item(0x04, b"text"))])));
    let many = (0..odif::MOST_ELEMENTS - 1).map(|at| page(&dimensions(&shortest(at as i64 * 5), &[100])));
    cases.push(case("pages to the last element", letter(&many.collect::<Vec<_>>())));
    cases
}
