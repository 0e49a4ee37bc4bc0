//! What it is to be in the order of a class and to begin a run in it, said as docs/ORDER.md says it: no state is carried, each
//! clause looks at the whole run, and every front is asked by itself.

use std::collections::HashMap;

use odif::{Class, ROW_WIDTH};
use reader::Reading;

/// An element as the rules look at it.
#[derive(Clone, Debug, PartialEq, Eq, Hash)]
struct Element {
    kind: u32,
    /// Where it begins in the stream.
    first: u32,
    has_identifier: bool,
    portions: usize,
    /// The portions that it answers: the element that lists each, and the portion's place there.
    answers: Vec<(usize, usize)>,
}

/// The elements of an accepted stream, or of a longer run that starts with some of them.
#[derive(Clone, Debug, PartialEq, Eq, Hash)]
pub struct Run {
    elements: Vec<Element>,
    /// The stream's length.
    length: u32,
}

const UNIT: u32 = 3;
const CLASSES: [u32; 2] = [1, 5];
const OBJECTS: [u32; 2] = [2, 6];

/// The kinds by rank.
const CLASS_A: [u32; 13] = [0, 1, 5, UNIT, 7, 8, 2, 6, UNIT, 9, 10, 11, 12];
const CLASS_B: [u32; 7] = [0, 1, 7, 2, 9, 10, 12];

impl Run {
    /// The elements by the rows of the table; `None` where the stream is refused.
    pub fn of(stream: &[u8], reading: &Reading<'_>) -> Option<Run> {
        let mut table = vec![0; reading.element_count() * ROW_WIDTH];
        if reading.check(&mut table).number != 0 {
            return None;
        }
        let part = |row: &[u32], at: usize| (row[at + 1] != 0).then(|| &stream[row[at] as usize..row[at + 1] as usize]);
        let rows: Vec<&[u32]> = table.chunks_exact(ROW_WIDTH).collect();
        let mut run = Run { elements: Vec::new(), length: stream.len() as u32 };
        // The units by their names, of the layout side and of the logical one.
        let mut units = [HashMap::new(), HashMap::new()];
        for (place, row) in rows.iter().enumerate() {
            let portions = part(row, 8).map_or(0, |value| portions(value).len());
            let has_identifier = part(row, 4).is_some();
            run.elements.push(Element { kind: row[0], first: row[2], has_identifier, portions, answers: Vec::new() });
            if row[0] == UNIT {
                for (side, at) in [(0, 4), (1, 6)] {
                    units[side].extend(part(row, at).map(|name| (name.to_vec(), place)));
                }
            }
        }
        for (place, row) in rows.iter().enumerate() {
            let side = match row[0] {
                1 | 2 => &units[0],
                5 | 6 => &units[1],
                _ => continue,
            };
            let Some(identifier) = part(row, 4) else { continue };
            for (at, portion) in part(row, 8).map_or(Vec::new(), portions).into_iter().enumerate() {
                if let Some(&unit) = side.get(&[identifier, b" ", portion].concat()) {
                    run.elements[unit].answers.push((place, at));
                }
            }
        }
        Some(run)
    }

    /// Is this the answer: 0 if the whole is in order; else 26 at the first element through which no run begins, or at the
    /// stream's length if only the end is missing? Of many elements the two fronts next to the place alone are asked: one
    /// that begins no run is not mended by more.
    pub fn is_answer(&self, class: Class, number: u32, place: u32, few: usize) -> bool {
        let count = self.elements.len();
        let begins = |through: usize| self.front(through + 1).begins(class);
        let fault = self.elements.iter().position(|element| element.first == place);
        let all_begin = |mut fronts: std::ops::Range<usize>| match count {
            _ if count <= few => fronts.all(begins),
            _ => fronts.next_back().is_none_or(begins),
        };
        let none_begins = |mut fronts: std::ops::Range<usize>| match count {
            _ if count <= few => !fronts.any(begins),
            _ => !fronts.next().is_some_and(begins),
        };
        match (number, fault) {
            (0, Some(0)) => self.is_in_order(class),
            (26, Some(fault)) => all_begin(0..fault) && none_begins(fault..count),
            (26, None) => place == self.length && all_begin(0..count) && !self.is_in_order(class),
            _ => false,
        }
    }

    /// The first elements alone: what later ones list is not known of them.
    fn front(&self, count: usize) -> Run {
        let mut elements = self.elements[..count].to_vec();
        for element in &mut elements {
            element.answers.retain(|&(by, _)| by < count);
        }
        Run { elements, length: self.length }
    }

    /// Does some run in the order start with these elements? If any does, then the one in which each portion without a unit
    /// gets one of its own, at the end, in the order of the portions. An element without identifier can get none.
    fn begins(mut self, class: Class) -> bool {
        let answered = self.all_answered();
        let missing: Vec<_> = self.all_listed().into_iter().filter(|listed| !answered.contains(listed)).collect();
        if missing.iter().any(|&(by, _)| !self.elements[by].has_identifier) {
            return false;
        }
        for listed in missing {
            let unit = Element { kind: UNIT, first: 0, has_identifier: false, portions: 0, answers: vec![listed] };
            self.elements.push(unit);
        }
        self.is_in_order(class)
    }

    fn is_in_order(&self, class: Class) -> bool {
        let is_profile_first = self.elements.iter().map(|element| element.kind == 0);
        let is_profile_first = is_profile_first.enumerate().all(|(place, is_profile)| is_profile == (place == 0));
        is_profile_first
            && match class {
                Class::A => self.is_in_order_a(),
                Class::B => self.is_in_order_b(),
            }
    }

    /// Every portion that is listed, in stream order and then in the order of the portions.
    fn all_listed(&self) -> Vec<(usize, usize)> {
        let elements = self.elements.iter().enumerate();
        elements.flat_map(|(by, element)| (0..element.portions).map(move |portion| (by, portion))).collect()
    }

    /// Every portion that a unit answers, sorted out as sets are.
    fn all_answered(&self) -> std::collections::HashSet<(usize, usize)> {
        self.elements.iter().flat_map(|element| element.answers.iter().copied()).collect()
    }

    fn answers_some(&self, unit: &Element, kinds: &[u32]) -> bool {
        unit.answers.iter().any(|&(by, _)| kinds.contains(&self.elements[by].kind))
    }

    /// The rank in the table of class A; `None` where there is no place for it.
    fn rank_a(&self, element: &Element) -> Option<usize> {
        if element.kind != UNIT {
            return CLASS_A.iter().position(|&kind| kind == element.kind);
        }
        match (self.answers_some(element, &CLASSES), self.answers_some(element, &OBJECTS)) {
            (true, false) => CLASS_A.iter().position(|&kind| kind == UNIT),
            (false, true) => CLASS_A.iter().rposition(|&kind| kind == UNIT),
            _ => None,
        }
    }

    fn is_in_order_a(&self) -> bool {
        let ranks: Option<Vec<usize>> = self.elements.iter().map(|element| self.rank_a(element)).collect();
        let Some(ranks) = ranks else { return false };
        let answered = self.all_answered();
        let is_whole = self.all_listed().iter().all(|listed| answered.contains(listed));
        // The first unit of the objects that count answers their first portion, the second the second, and so on.
        let counts = if self.elements.iter().any(|element| element.kind == 2) { 2 } else { 6 };
        let units = self.elements.iter().filter(|unit| self.answers_some(unit, &[counts]));
        let listed = self.all_listed().into_iter().filter(|&(by, _)| self.elements[by].kind == counts);
        let is_in_step = units.zip(listed).all(|(unit, listed)| unit.answers.contains(&listed));
        ranks.is_sorted() && is_whole && is_in_step
    }

    fn is_in_order_b(&self) -> bool {
        let numbered: Vec<_> = self.elements.iter().enumerate().collect();
        let groups: Vec<_> = numbered.chunk_by(|_, (_, next)| next.kind == UNIT).collect();
        let rank = |group: &[(usize, &Element)]| CLASS_B.iter().position(|&kind| kind == group[0].1.kind);
        let ranks: Option<Vec<usize>> = groups.iter().map(|group| rank(group)).collect();
        let is_together = |group: &[(usize, &Element)]| {
            let (head, units) = (group[0], &group[1..]);
            // Class B knows no logical side; the portions of a head are those of a layout class or object.
            let own = |unit: &Element| unit.answers.iter().find(|&&(by, _)| by == head.0).copied();
            let answered: Vec<_> = units.iter().map(|(_, unit)| own(unit)).collect();
            answered.iter().all(Option::is_some)
                && (0..head.1.portions).all(|portion| answered.contains(&Some((head.0, portion))))
        };
        ranks.is_some_and(|ranks| ranks.is_sorted()) && groups.into_iter().all(is_together)
    }
}

/// The portions in the value of an A1: items 12, each with a definite length.
fn portions(mut value: &[u8]) -> Vec<&[u8]> {
    let mut portions = Vec::new();
    while let [0x12, first, rest @ ..] = value {
        let further = usize::from(first.saturating_sub(0x80));
        let (length, rest) = rest.split_at(further);
        let length = match further {
            0 => usize::from(*first),
            _ => length.iter().fold(0, |sum, &octet| sum << 8 | usize::from(octet)),
        };
        let (portion, rest) = rest.split_at(length);
        portions.push(portion);
        value = rest;
    }
    portions
}

#[cfg(test)]
mod tests {
    use super::*;
    use std::collections::HashSet;

    /// Kinds with how many portions they list, and units with those that they answer, by number in this list.
    type Sort = (u32, usize, bool, &'static [(usize, usize)]);

    /// One after another of these, each at most once, in all orders; no more than this many.
    fn runs(sorts: &[Sort], most: usize) -> Vec<Vec<usize>> {
        let mut all: Vec<Vec<usize>> = vec![vec![]];
        let mut last = all.clone();
        for _ in 0..most {
            let longer = last.iter().flat_map(|run| {
                (0..sorts.len()).filter(|at| !run.contains(at)).map(|at| [&run[..], &[at]].concat()).collect::<Vec<_>>()
            });
            last = longer.collect();
            all.extend(last.clone());
        }
        all
    }

    /// The run of a profile and these.
    fn run(sorts: &[Sort], chosen: &[usize]) -> Run {
        let place = |sort: usize| chosen.iter().position(|&at| at == sort).map(|at| at + 1);
        let profile = Element { kind: 0, first: 0, has_identifier: false, portions: 0, answers: vec![] };
        let element = |&at: &usize| {
            let (kind, portions, has_identifier, answers) = sorts[at];
            let answers = answers.iter().filter_map(|&(by, portion)| Some((place(by)?, portion))).collect();
            Element { kind, first: 0, has_identifier, portions, answers }
        };
        Run { elements: std::iter::once(profile).chain(chosen.iter().map(element)).collect(), length: 0 }
    }

    /// A front begins a run exactly if it is the front of one in order, of all that there are. Rule 15 lets no two units
    /// answer one portion, so such runs are none.
    fn search(sorts: &[Sort], most: usize, fronts: usize) -> usize {
        let is_apart = |chosen: &[usize]| {
            let answered: Vec<_> = chosen.iter().flat_map(|&at| sorts[at].3).collect();
            answered.iter().enumerate().all(|(place, one)| !answered[..place].contains(one))
        };
        let mut begun = 0;
        for class in Class::ALL {
            let all: Vec<_> = runs(sorts, most).into_iter().filter(|chosen| is_apart(chosen)).collect();
            let in_order = all.iter().filter(|chosen| run(sorts, chosen).is_in_order(class));
            let starts: HashSet<&[usize]> = in_order.flat_map(|run| (0..=run.len()).map(|past| &run[..past])).collect();
            for front in all.iter().filter(|front| front.len() <= fronts) {
                let begins = run(sorts, front).begins(class);
                assert_eq!(begins, starts.contains(&front[..]), "{class:?}: {front:?} of {sorts:?}");
                begun += usize::from(begins);
            }
        }
        begun
    }

    #[test]
    fn a_front_begins_a_run_if_some_run_starts_with_it() {
        // A class, an object of each side; units of each, and of two.
        let sides: [Sort; 9] = [
            (1, 1, true, &[]),
            (2, 1, true, &[]),
            (6, 1, true, &[]),
            (3, 0, false, &[(0, 0)]),
            (3, 0, false, &[(1, 0)]),
            (3, 0, false, &[(2, 0)]),
            (3, 0, false, &[(0, 0), (2, 0)]),
            (3, 0, false, &[(1, 0), (2, 0)]),
            (7, 0, true, &[]),
        ];
        assert!(search(&sides, 6, 3) > 20);
        // Two objects of two portions, and a third that has no identifier.
        let portions: [Sort; 8] = [
            (2, 2, true, &[]),
            (2, 1, true, &[]),
            (3, 0, false, &[(0, 0)]),
            (3, 0, false, &[(0, 1)]),
            (3, 0, false, &[(1, 0)]),
            (2, 1, false, &[]),
            (12, 0, false, &[]),
            (8, 0, true, &[]),
        ];
        assert!(search(&portions, 6, 3) > 20);
        // Logical classes and objects.
        let logical: [Sort; 8] = [
            (5, 1, true, &[]),
            (6, 1, true, &[]),
            (6, 1, true, &[]),
            (3, 0, false, &[(0, 0)]),
            (3, 0, false, &[(1, 0)]),
            (3, 0, false, &[(2, 0)]),
            (9, 0, false, &[]),
            (11, 0, false, &[]),
        ];
        assert!(search(&logical, 6, 3) > 20);
    }
}
