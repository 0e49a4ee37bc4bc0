//! Order in interchange format class A and class B (W-207): the tables of docs/ORDER.md, asked in one pass. An element is
//! at fault if what stands so far begins no run in the order.

use crate::answers::{Match, Side};
use crate::elements::kind;
use crate::letter::Letter;
use crate::matches;
use crate::refusal::Refusal;

/// Whose order is asked.
#[derive(Clone, Copy, Debug, PartialEq, Eq)]
pub enum Order {
    /// That of class A: T.415 of 1993, 7.2.
    ClassA,
    /// That of class B: 7.3.
    ClassB,
}

impl Order {
    /// Both.
    pub const ALL: [Order; 2] = [Order::ClassA, Order::ClassB];
}

/// The answer about the order.
#[derive(Clone, Copy, Debug, Default, PartialEq, Eq)]
pub struct Ordered {
    /// 0, or the number of the refusal.
    pub number: u32,
    /// The place of the refusal.
    pub place: u32,
}

impl From<Refusal> for Ordered {
    fn from(refusal: Refusal) -> Self {
        Ordered { number: refusal.number(), place: refusal.place }
    }
}

/// 26 "at the first element such that the elements through it begin no run in the asked order, limits aside; at the
/// stream's length if only the end is missing".
pub(crate) fn of_letter(stream: &[u8], letter: &Letter<'_>, order: Order) -> Ordered {
    let elements = looked_at(stream, letter);
    let fault = match order {
        Order::ClassA => PassA::default().run(&elements),
        Order::ClassB => PassB::default().run(&elements),
    };
    match fault {
        None => Ordered::default(),
        Some(element) => {
            let place = letter.rows.get(element).map_or(stream.len() as u32, |row| row.element.first);
            Ordered { number: 26, place }
        }
    }
}

/// What the rules look at in one element.
#[derive(Clone, Debug, Default)]
struct Seen {
    kind: u8,
    has_identifier: bool,
    portions: usize,
    /// The portions of this kind of element that stand before it, listed by others.
    portions_before: usize,
    /// Does a text unit that stands before it answer one of its portions?
    is_late: bool,
    /// The element and the portion that a text unit answers on the layout side, and on the logical side.
    answers: [Option<(usize, usize)>; 2],
}

impl Seen {
    /// Does it list a portion that no unit can ever answer?
    fn is_hopeless(&self) -> bool {
        self.portions > 0 && !self.has_identifier
    }
}

fn looked_at(stream: &[u8], letter: &Letter<'_>) -> Vec<Seen> {
    let mut listed = [0; 32];
    let mut elements: Vec<Seen> = Vec::with_capacity(letter.rows.len());
    for row in &letter.rows {
        let before = &mut listed[usize::from(row.kind)];
        let (portions, portions_before) = (row.keys.len(), *before);
        *before += portions;
        let has_identifier = row.identifier.octets(stream).is_some();
        elements.push(Seen { kind: row.kind, has_identifier, portions, portions_before, ..Seen::default() });
    }
    for (side, name) in [Side::Layout, Side::Logical].into_iter().enumerate() {
        for Match { element, portion, unit } in matches::of_side(stream, letter, name) {
            elements[unit as usize].answers[side] = Some((element as usize, portion as usize));
            elements[element as usize].is_late |= unit < element;
        }
    }
    elements
}

/// Class B: groups of an element and its own units.
#[derive(Default)]
struct PassB {
    rank: u8,
    /// The element of the group, and how many of its portions wait for their unit.
    head: usize,
    waiting: usize,
}

impl PassB {
    /// The rows of 7.3; kinds 5, 6, 8 and 11 have none.
    fn rank(kind: u8) -> Option<u8> {
        Some(match kind {
            kind::PROFILE => 0,
            kind::LAYOUT_CLASS => 1,
            kind::PRESENTATION_STYLE => 2,
            kind::LAYOUT_OBJECT => 3,
            kind::SEALED_PROFILE => 4,
            kind::ENCIPHERED_PROFILE => 5,
            kind::POSTENCIPHERED_PART => 6,
            _ => return None,
        })
    }

    fn run(mut self, elements: &[Seen]) -> Option<usize> {
        let fault = elements.iter().enumerate().position(|(place, element)| !self.takes(place, element));
        fault.or_else(|| (self.waiting > 0).then_some(elements.len()))
    }

    fn takes(&mut self, place: usize, element: &Seen) -> bool {
        if element.kind == kind::TEXT_UNIT {
            let is_own = element.answers[0].is_some_and(|(owner, _)| owner == self.head);
            self.waiting -= usize::from(is_own);
            return is_own;
        }
        match PassB::rank(element.kind) {
            Some(rank) if rank >= self.rank && self.waiting == 0 && !element.is_hopeless() => {
                *self = PassB { rank, head: place, waiting: element.portions };
                true
            }
            _ => false,
        }
    }
}

/// Class A: ranks ascend, and units of specific portions stand as these do.
#[derive(Default)]
struct PassA {
    rank: u8,
    /// The portions of classes, and of objects, that wait for their unit.
    generic: usize,
    specific: usize,
    /// Is there a layout object, so that the layout order counts?
    by_layout: bool,
    /// How many portions of the objects that count are answered.
    answered: usize,
}

/// The ranks of text units.
const GENERIC: u8 = 3;
const SPECIFIC: u8 = 8;

impl PassA {
    /// The rows of 7.2, but for those of text units. Protected parts stand in the order of their kinds.
    fn rank(kind: u8) -> u8 {
        match kind {
            kind::PROFILE => 0,
            kind::LAYOUT_CLASS => 1,
            kind::LOGICAL_CLASS => 2,
            kind::PRESENTATION_STYLE => 4,
            kind::LAYOUT_STYLE => 5,
            kind::LAYOUT_OBJECT => 6,
            kind::LOGICAL_OBJECT => 7,
            protected => protected,
        }
    }

    fn run(mut self, elements: &[Seen]) -> Option<usize> {
        let fault = (0..elements.len()).find(|&place| !self.takes(&elements[..place], &elements[place]));
        fault.or_else(|| (self.generic + self.specific > 0).then_some(elements.len()))
    }

    fn takes(&mut self, before: &[Seen], element: &Seen) -> bool {
        match element.kind {
            kind::TEXT_UNIT => return self.takes_unit(before, element),
            kind::LAYOUT_CLASS | kind::LOGICAL_CLASS => self.generic += element.portions,
            _ => self.specific += element.portions,
        }
        self.by_layout |= element.kind == kind::LAYOUT_OBJECT;
        self.goes_to(PassA::rank(element.kind)) && !element.is_hopeless() && !element.is_late
    }

    /// Goes on to a rank. No unit may be missing that has to stand before it.
    fn goes_to(&mut self, rank: u8) -> bool {
        let is_ascending = rank >= self.rank;
        self.rank = rank;
        is_ascending && (rank <= GENERIC || self.generic == 0) && (rank <= SPECIFIC || self.specific == 0)
    }

    fn takes_unit(&mut self, before: &[Seen], unit: &Seen) -> bool {
        // Only what stands before the unit is known of it.
        let known = |(element, portion): (usize, usize)| before.get(element).map(|element| (element, portion));
        let answers = unit.answers.map(|answer| answer.and_then(known));
        let count = |kinds: [u8; 2]| answers.iter().flatten().filter(|(by, _)| kinds.contains(&by.kind)).count();
        let generic = count([kind::LAYOUT_CLASS, kind::LOGICAL_CLASS]);
        let specific = count([kind::LAYOUT_OBJECT, kind::LOGICAL_OBJECT]);
        self.generic -= generic;
        self.specific -= specific;
        match (generic, specific) {
            (1.., 0) => self.goes_to(GENERIC),
            (0, 1..) => self.goes_to(SPECIFIC) && self.is_next(answers),
            _ => false,
        }
    }

    /// Of the objects that count, the unit answers the next portion, or none.
    fn is_next(&mut self, answers: [Option<(&Seen, usize)>; 2]) -> bool {
        let counts = if self.by_layout { kind::LAYOUT_OBJECT } else { kind::LOGICAL_OBJECT };
        match answers.into_iter().flatten().find(|(by, _)| by.kind == counts) {
            Some((by, portion)) => {
                self.answered += 1;
                by.portions_before + portion + 1 == self.answered
            }
            None => true,
        }
    }
}
