//! On which page of a letter its elements stand.

use odif::{Element, Kind};

/// The object type of a page.
const PAGE: u8 = 2;

/// The pages of a letter: its layout objects of that type, numbered from 1 in stream order. What stands on a page is below
/// it by the parents that the library tells. Classes and the logical side are on no page.
pub struct OnPages {
    numbers: Vec<Option<usize>>,
    count: usize,
}

impl OnPages {
    /// Those of these elements.
    pub fn of(elements: &[Element]) -> OnPages {
        let mut count = 0;
        let own: Vec<Option<usize>> = elements
            .iter()
            .map(|element| {
                let is_page = element.kind == Kind::LayoutObject && element.object_type == Some(PAGE);
                count += usize::from(is_page);
                is_page.then_some(count)
            })
            .collect();
        // No row is its own ancestor, so climbing ends.
        let up = |element: usize| std::iter::successors(Some(element), |&element| elements[element].parent);
        let numbers = (0..elements.len()).map(|element| up(element).find_map(|element| own[element])).collect();
        OnPages { numbers, count }
    }

    /// The page of an element.
    pub fn page(&self, element: usize) -> Option<usize> {
        self.numbers[element]
    }

    /// How many pages there are.
    pub fn count(&self) -> usize {
        self.count
    }
}
