//! The pages of a letter with the verdicts of the PM1 desk: the library against the reader.

use odif::raw::pm1::PAGE_WIDTH;
use odif::{Edition, ROW_WIDTH, raw};

use crate::lent::{self, Lent};
use crate::one::One;
use crate::rng::Rng;
use crate::tally::Question;

/// The records that numbers are, with no incomplete last one.
fn pages_of_numbers(numbers: &[u32]) -> Vec<reader::Page> {
    numbers.chunks_exact(PAGE_WIDTH).map(|page| reader::Page { element: page[0], verdict: page[1] }).collect()
}

/// Puts the question to the library and to the reader: table and list exact, one number short, longer and empty.
pub fn hold(one: &mut One<'_>, rng: &mut Rng) {
    let wanted = one.reading.page_list();
    let rows = one.reading.element_count() * ROW_WIDTH;
    if one.reading.refusal().is_some() {
        return one.ask_pages(rng.below(4) * ROW_WIDTH, rng.below(3 * PAGE_WIDTH));
    }
    let numbers = wanted.len() * PAGE_WIDTH;
    for list in [numbers, numbers.saturating_sub(1), numbers + rng.between(1, 4 * PAGE_WIDTH), 0] {
        one.ask_pages(rows, list);
    }
    one.ask_pages(rows - 1, numbers);
    one.ask_pages(rng.below(rows), rng.below(numbers + 1));
    one.ask_pages(rows + rng.between(1, 2 * ROW_WIDTH), numbers);
    one.ask_pages_of_crate(&wanted);
}

impl One<'_> {
    fn ask_pages(&mut self, table_length: usize, list_length: usize) {
        let table_before = Lent::new(table_length, lent::numbers);
        let list_before = Lent::new(list_length, lent::numbers);
        let (mut our_table, mut their_table) = (table_before.clone(), table_before.clone());
        let (mut our_list, mut their_list) = (list_before.clone(), pages_of_numbers(list_before.cells()));
        let answer = raw::pm1::pages_numbers_in(self.edition, self.stream, our_table.lend(), our_list.lend());
        let wanted = self.reading.pages(their_table.lend(), &mut their_list);
        self.meet(Question::Pages, answer.number);
        let question = format!("pages with a table of {table_length} numbers and a list of {list_length}");
        let same = [answer.number, answer.place, answer.elements, answer.pages]
            == [wanted.number, wanted.place, wanted.elements, wanted.pages];
        self.expect(same, &question, || format!("{answer:?}, not {wanted:?}"));
        self.expect(our_table == their_table, &question, || "the tables differ".into());
        let ours = pages_of_numbers(our_list.cells());
        self.expect(ours == their_list, &question, || format!("{ours:?}, not {their_list:?}"));
        let used = answer.elements as usize * ROW_WIDTH;
        self.expect(our_table.is_untouched_past(used, &table_before), &question, || "written past the rows".into());
        let used = answer.pages as usize * PAGE_WIDTH;
        self.expect(our_list.is_untouched_past(used, &list_before), &question, || "written past the pages".into());
    }

    /// The crate's pages, and those that a check's table tells: rows of kinds 1 and 2 with the object type 2.
    fn ask_pages_of_crate(&mut self, wanted: &[reader::Page]) {
        let Ok(letter) = odif::Letter::read_in(self.edition, self.stream) else {
            return self.expect(false, "the crate's pages", || "it is refused".into());
        };
        let pages = letter.pages();
        let verdict = |page: &odif::pm1::Page| odif::pm1::Verdict::ALL.iter().position(|known| *known == page.verdict);
        let same = pages.len() == wanted.len()
            && pages.iter().zip(wanted).all(|(page, wanted)| {
                page.element == wanted.element as usize && verdict(page) == Some(wanted.verdict as usize)
            });
        self.expect(same, "the crate's pages", || format!("{pages:?}, not {wanted:?}"));
        let elements = letter.elements().iter().enumerate();
        let is_page = |element: &odif::Element| {
            matches!(element.kind, odif::Kind::LayoutClass | odif::Kind::LayoutObject) && element.object_type == Some(2)
        };
        let rows: Vec<usize> = elements.filter(|(_, element)| is_page(element)).map(|(row, _)| row).collect();
        let same = rows.iter().copied().eq(pages.iter().map(|page| page.element));
        self.expect(same, "the rows of pages", || format!("{pages:?}, not {rows:?}"));
    }
}

/// What is told of the pages: rows and verdicts.
pub fn told(edition: Edition, stream: &[u8]) -> Result<Vec<odif::pm1::Page>, odif::Refusal> {
    odif::pm1::pages_in(edition, stream)
}
