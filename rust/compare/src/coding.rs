//! Writing items: as bytes with any form of the length, and as trees whose forms are chosen later.

use crate::rng::Rng;

/// The forms of a length.
#[derive(Clone, Copy, Debug, PartialEq, Eq)]
pub enum Form {
    /// The fewest octets.
    Shortest,
    /// So many further octets, 1 to 4, or as many as it needs.
    Long(usize),
    /// 80, and a closing mark; only of constructed items.
    Indefinite,
}

/// An item with its value octets, its length in some form.
pub fn item_in(form: Form, octet: u8, value: &[u8]) -> Vec<u8> {
    let mut out = vec![octet];
    let octets = (value.len() as u32).to_be_bytes();
    let needed = octets.len() - (value.len() as u32).leading_zeros() as usize / 8;
    match form {
        Form::Shortest if value.len() < 0x80 => out.push(value.len() as u8),
        Form::Indefinite => out.push(0x80),
        Form::Shortest | Form::Long(_) => {
            let asked = if let Form::Long(count) = form { count } else { 1 };
            let count = asked.max(needed).clamp(1, 4);
            out.push(0x80 + count as u8);
            out.extend_from_slice(&octets[octets.len() - count..]);
        }
    }
    out.extend_from_slice(value);
    if form == Form::Indefinite {
        out.extend_from_slice(&[0, 0]);
    }
    out
}

/// An item with the shortest length.
pub fn item(octet: u8, value: &[u8]) -> Vec<u8> {
    item_in(Form::Shortest, octet, value)
}

/// An indefinite item.
pub fn indefinite(octet: u8, value: &[u8]) -> Vec<u8> {
    item_in(Form::Indefinite, octet, value)
}

/// An item as a tree.
#[derive(Clone, Debug)]
pub enum Item {
    /// First octet and value.
    Primitive(u8, Vec<u8>),
    /// First octet and run.
    Constructed(u8, Vec<Item>),
}

impl Item {
    /// A constructed item.
    pub fn run(octet: u8, run: Vec<Item>) -> Item {
        Item::Constructed(octet, run)
    }

    /// A primitive item.
    pub fn value(octet: u8, value: impl Into<Vec<u8>>) -> Item {
        Item::Primitive(octet, value.into())
    }

    /// Writes the item, each length in a form that `choose` picks for it.
    pub fn write(&self, choose: &mut impl FnMut(bool) -> Form) -> Vec<u8> {
        match self {
            Item::Primitive(octet, value) => item_in(choose(false), *octet, value),
            Item::Constructed(octet, run) => {
                let value: Vec<u8> = run.iter().flat_map(|inner| inner.write(choose)).collect();
                item_in(choose(true), *octet, &value)
            }
        }
    }
}

/// A way to choose forms: mostly the shortest, or every form now and then.
pub fn any_form(rng: &mut Rng) -> impl FnMut(bool) -> Form {
    let mut rng = Rng::new(rng.number());
    let odd = *rng.pick(&[1, 2, 4, 100]);
    move |constructed| match rng.below(odd) {
        0 if constructed && rng.one_in(2) => Form::Indefinite,
        0 => Form::Long(rng.between(1, 4)),
        _ => Form::Shortest,
    }
}

#[cfg(test)]
mod tests {
    use super::*;

    #[test]
    fn forms() {
        assert_eq!(item(4, &[7]), [4, 1, 7]);
        assert_eq!(item(4, &[0; 0x80])[..3], [4, 0x81, 0x80]);
        assert_eq!(item(4, &[0; 0x100])[..4], [4, 0x82, 1, 0]);
        assert_eq!(item_in(Form::Long(4), 4, &[7]), [4, 0x84, 0, 0, 0, 1, 7]);
        assert_eq!(item_in(Form::Long(1), 4, &[]), [4, 0x81, 0]);
        assert_eq!(item_in(Form::Long(1), 4, &[0; 0x100])[..4], [4, 0x82, 1, 0]);
        assert_eq!(indefinite(0xA0, &[5, 0]), [0xA0, 0x80, 5, 0, 0, 0]);
    }
}
