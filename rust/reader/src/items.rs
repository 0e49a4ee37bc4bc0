//! The whole stream as a tree of items, kept as one list in stream order.

use crate::octets::{self, Class, Header, Length};
use crate::refusal::{Refusal, Why};

/// One item of the tree.
#[derive(Clone, Copy, Debug)]
pub struct Item {
    octet: u8,
    field: u8,
    header: u8,
    number: u16,
    level: u8,
    marked: bool,
    first: u32,
    end: u32,
    next: u32,
}

impl Item {
    /// The first octet. Where its number bits are 11111 the number is in further ones.
    pub fn octet(&self) -> u8 {
        self.octet
    }

    /// Where the item begins.
    pub fn first(&self) -> usize {
        self.first as usize
    }

    /// How many octets its header takes.
    pub fn header_length(&self) -> usize {
        usize::from(self.header)
    }

    /// 1 for an element, one more for each item around.
    pub fn level(&self) -> u8 {
        self.level
    }

    /// Class of the item.
    pub fn class(&self) -> Class {
        Class::of(self.octet)
    }

    /// The number, up to 16,383.
    pub fn number(&self) -> u16 {
        self.number
    }

    /// How many octets its type field takes: class, form and number.
    pub fn type_length(&self) -> usize {
        usize::from(self.field)
    }

    /// Does it hold a run of items?
    pub fn is_constructed(&self) -> bool {
        octets::is_constructed(self.octet)
    }

    /// The length as its header states it.
    pub fn length(&self) -> Length {
        if self.marked { Length::Indefinite } else { Length::Definite(self.end - self.start()) }
    }

    /// Where its value lies. In a refused stream an item that never ended has the rest of its limit.
    pub fn value(&self) -> std::ops::Range<usize> {
        self.start() as usize..self.end as usize
    }

    pub(crate) fn start(&self) -> u32 {
        self.first + u32::from(self.header)
    }

    pub(crate) fn end(&self) -> u32 {
        self.end
    }

    /// Past the item, with its closing mark if it has one.
    pub(crate) fn past(&self) -> u32 {
        self.end + if self.marked { 2 } else { 0 }
    }
}

/// All items of a stream that passed 2 to 8, in stream order.
#[derive(Debug, Default)]
pub struct Tree {
    items: Vec<Item>,
}

impl Tree {
    /// The items in stream order.
    pub fn items(&self) -> &[Item] {
        &self.items
    }

    /// The top items, each with its place in the list.
    pub(crate) fn elements(&self) -> Run<'_> {
        Run { items: &self.items, at: 0, past: self.items.len() }
    }

    /// All items inside the item at this place of the list, of whatever level.
    pub(crate) fn inside(&self, place: usize) -> &[Item] {
        &self.items[place + 1..self.items[place].next as usize]
    }

    /// The run of the item at this place of the list.
    pub(crate) fn run(&self, place: usize) -> Run<'_> {
        Run { items: &self.items, at: place + 1, past: self.items[place].next as usize }
    }
}

/// A walk over the items of one run, each with its place in the tree's list.
#[derive(Clone)]
pub(crate) struct Run<'t> {
    items: &'t [Item],
    at: usize,
    past: usize,
}

impl<'t> Iterator for Run<'t> {
    type Item = (usize, &'t Item);

    fn next(&mut self) -> Option<Self::Item> {
        if self.at >= self.past {
            return None;
        }
        let place = self.at;
        let item = &self.items[place];
        self.at = item.next as usize;
        Some((place, item))
    }
}

/// A run that is being read: its limit, whether a closing mark ends it, and the place of the item that holds it.
#[derive(Clone, Copy)]
struct Open {
    limit: usize,
    marked: bool,
    holder: usize,
}

/// Reads every item of the stream, as far as the first fault of 2 to 8.
pub(crate) fn read(stream: &[u8]) -> (Tree, Option<Refusal>) {
    read_elements(stream, false)
}

/// Reads the first element alone, with the end of the stream as its limit.
pub(crate) fn read_first(stream: &[u8]) -> (Tree, Option<Refusal>) {
    read_elements(stream, true)
}

fn read_elements(stream: &[u8], first_alone: bool) -> (Tree, Option<Refusal>) {
    let mut pass = Pass {
        stream,
        first_alone,
        at: 0,
        run: Open { limit: stream.len(), marked: false, holder: 0 },
        around: Vec::with_capacity(usize::from(octets::DEEPEST)),
        items: Vec::with_capacity(if first_alone { 16 } else { stream.len() / 8 + 4 }),
    };
    let fault = pass.walk().err();
    while !pass.around.is_empty() {
        pass.leave_run();
    }
    (Tree { items: pass.items }, fault)
}

/// The reading under way: where it stands, the innermost run, the runs around it, and the items so far.
struct Pass<'a> {
    stream: &'a [u8],
    first_alone: bool,
    at: usize,
    run: Open,
    around: Vec<Open>,
    items: Vec<Item>,
}

impl Pass<'_> {
    fn walk(&mut self) -> Result<(), Refusal> {
        loop {
            let room = &self.stream[self.at..self.run.limit];
            let level = self.around.len() as u8 + 1;
            if self.first_alone && level == 1 && !self.items.is_empty() {
                return Ok(());
            }
            if !room.is_empty() {
                match octets::meet(room, self.run.marked, level) {
                    Ok(Some(header)) => self.enter_item(header, level),
                    Ok(None) => self.end_run(),
                    Err(why) => return Err(Refusal { why, place: self.at as u32 }),
                }
            } else if self.run.marked {
                return Err(Refusal { why: Why::Unclosed, place: self.at as u32 });
            } else if level > 1 {
                self.end_run();
            } else {
                return Ok(());
            }
        }
    }

    /// Takes up an item and goes on in its run, or past it if it is primitive.
    fn enter_item(&mut self, header: Header, level: u8) {
        let octet = self.stream[self.at];
        let start = self.at + usize::from(header.size);
        let (end, marked) = match header.length {
            Length::Definite(length) => (start + length as usize, false),
            Length::Indefinite => (self.run.limit, true),
        };
        let place = self.items.len();
        self.items.push(Item {
            octet,
            field: header.field,
            header: header.size,
            number: header.number,
            level,
            marked,
            first: self.at as u32,
            end: end as u32,
            next: place as u32 + 1,
        });
        if octets::is_constructed(octet) {
            let inner = Open { limit: end, marked, holder: place };
            self.around.push(std::mem::replace(&mut self.run, inner));
            self.at = start;
        } else {
            self.at = end;
        }
    }

    /// Ends the innermost run here, at its definite length or at its closing mark, and goes on past its item.
    fn end_run(&mut self) {
        let holder = &mut self.items[self.run.holder];
        holder.end = self.at as u32;
        self.at = holder.past() as usize;
        self.leave_run();
    }

    /// Goes back to the run around: the items of the innermost one are all there.
    fn leave_run(&mut self) {
        self.items[self.run.holder].next = self.items.len() as u32;
        if let Some(outer) = self.around.pop() {
            self.run = outer;
        }
    }
}

#[cfg(test)]
mod tests {
    use super::*;

    fn shape(stream: &[u8]) -> Vec<(usize, u8, usize, usize)> {
        let (tree, fault) = read(stream);
        assert_eq!(fault, None);
        tree.items().iter().map(|item| (item.first(), item.level(), item.value().start, item.value().end)).collect()
    }

    #[test]
    fn an_indefinite_item_in_a_definite_one() {
        let stream = [0xA0, 0x08, 0x30, 0x80, 0x05, 0x00, 0x00, 0x00, 0x05, 0x00, 0xA2, 0x00];
        assert_eq!(shape(&stream), [(0, 1, 2, 10), (2, 2, 4, 6), (4, 3, 6, 6), (8, 2, 10, 10), (10, 1, 12, 12)]);
        let (tree, _) = read(&stream);
        assert_eq!(tree.elements().map(|(place, _)| place).collect::<Vec<_>>(), [0, 4]);
        assert_eq!(tree.run(0).map(|(place, _)| place).collect::<Vec<_>>(), [1, 3]);
        assert_eq!(tree.inside(0).iter().map(Item::first).collect::<Vec<_>>(), [2, 4, 8]);
        assert!(tree.inside(4).is_empty());
    }

    #[test]
    fn an_unclosed_item_is_found_at_its_limit() {
        let (tree, fault) = read(&[0xA0, 0x06, 0x30, 0x80, 0x05, 0x00, 0x05, 0x00, 0x05, 0x00]);
        assert_eq!(fault, Some(Refusal { why: Why::Unclosed, place: 8 }));
        assert_eq!(tree.items().len(), 4);
    }

    #[test]
    fn a_fault_inside_takes_nothing_away() {
        let (tree, fault) = read(&[0xA0, 0x02, 0x01, 0x00]);
        assert_eq!(fault, Some(Refusal { why: Why::BooleanLength, place: 2 }));
        assert_eq!(tree.items().len(), 1);
    }
}
