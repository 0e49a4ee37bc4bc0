//! The order of class A and class B: the library against the reader, and both against a second reading of the clauses, which
//! asks of every front of the elements whether some run in the order starts with it.

pub mod definition;

use odif::{Class, Edition, ROW_WIDTH, raw};

use self::definition::Run;
use crate::one::One;
use crate::tally::Question;

/// Every front of a letter is looked at if it has no more elements than this; else those next to the place alone.
pub const FEW: usize = 64;

/// The reader's word for a class.
pub fn to_reader(class: Class) -> reader::Order {
    match class {
        Class::A => reader::Order::ClassA,
        Class::B => reader::Order::ClassB,
    }
}

/// Puts the question to the library, to the reader and to the definition, by both classes.
pub fn hold(one: &mut One<'_>) {
    let run = Run::of(one.stream, one.reading);
    for class in Class::ALL {
        let answer = raw::order_in(one.edition, class, one.stream);
        let question = match class {
            Class::A => Question::OrderA,
            Class::B => Question::OrderB,
        };
        one.meet(question, answer.number);
        let (edition, stream, reading) = (one.edition, one.stream, one.reading);
        let mut expect = |holds: bool, what: &str, tell: &dyn Fn() -> String| {
            one.expect(holds, &format!("order of class {class}: {what}"), tell);
        };
        let wanted = reading.order(to_reader(class));
        let same = [answer.number, answer.place] == [wanted.number, wanted.place];
        expect(same, "the reader", &|| format!("{answer:?}, not {wanted:?}"));
        if let Some(run) = &run {
            let is_so = run.is_answer(class, answer.number, answer.place, FEW);
            expect(is_so, "the definition", &|| format!("{answer:?}"));
            let letter = odif::Letter::read_in(edition, stream);
            let told = letter.map(|letter| letter.order(class).map_err(|refusal| (refusal.number(), refusal.place)));
            let wanted = if answer.number == 0 { Ok(()) } else { Err((answer.number, answer.place as usize)) };
            expect(told == Ok(wanted), "the crate's answer", &|| format!("{told:?}, not {answer:?}"));
        }
    }
}

/// What is told of the order apart from octets: by each class the number, and the element at which it is given.
pub fn told(edition: Edition, stream: &[u8]) -> [(u32, usize); 2] {
    let mut table = vec![0; (stream.len() / 2).min(odif::MOST_ELEMENTS) * ROW_WIDTH];
    let elements = raw::check_in(edition, stream, &mut table).elements as usize;
    Class::ALL.map(|class| {
        let answer = raw::order_in(edition, class, stream);
        let mut rows = table.chunks_exact(ROW_WIDTH).take(elements);
        (answer.number, rows.position(|row| row[2] == answer.place).unwrap_or(elements))
    })
}
