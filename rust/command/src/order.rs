//! `odif order`

use std::io::{self, Write};

use clap::{Args, ValueEnum};
use odif::{Class, Edition, Letter, Refusal};
use serde::Serialize;

use crate::asked::Asked;
use crate::input::{self, Source};
use crate::status::{Outcome, Status};
use crate::{explain, show};

const EXAMPLES: &str = "\
Examples:
  odif order letter.odif
  odif order --class B inbox/*.odif
  odif order --json letter.odif | jq .classes

Exit status: 0 all are in the asked order; 1 one is not or was refused; 2 one could not be read.";

/// Says whether letters are in the order of class A or of class B
///
/// Says of each letter whether its elements stand in the order of interchange format class A, of class B, of both or of
/// neither (T.415 of 1993, 7.2 and 7.3), and where each order fails: at the first element such that no letter in the order
/// begins with the elements up to it, or at the end if only text units are missing there. What class the profile names does
/// not count.
#[derive(Args)]
#[command(after_help = EXAMPLES)]
pub struct Words {
    #[command(flatten)]
    asked: Asked,
    /// Only the order of this class counts. Without it either does
    #[arg(long, value_name = "CLASS", ignore_case = true)]
    class: Option<Which>,
}

#[derive(Clone, Copy, PartialEq, Eq, ValueEnum)]
enum Which {
    #[value(name = "A")]
    A,
    #[value(name = "B")]
    B,
}

/// Both orders of an accepted letter.
pub struct Orders([(Class, Result<(), Refusal>); 2]);

impl Orders {
    pub fn of(letter: &Letter<'_>) -> Orders {
        Orders(Class::ALL.map(|class| (class, letter.order(class))))
    }

    /// The classes in whose order it is.
    fn classes(&self) -> Vec<Class> {
        self.0.iter().filter(|(_, order)| order.is_ok()).map(|(class, _)| *class).collect()
    }

    /// The classes in a word, for a column.
    pub fn word(&self) -> &'static str {
        match self.classes()[..] {
            [] => "neither",
            [Class::A] => "A",
            [Class::B] => "B",
            _ => "both",
        }
    }

    /// That of these classes that are asked.
    fn status(&self, asked: Option<Which>) -> Status {
        let classes = self.classes();
        let is_fit = match asked {
            None => !classes.is_empty(),
            Some(Which::A) => classes.contains(&Class::A),
            Some(Which::B) => classes.contains(&Class::B),
        };
        if is_fit { Status::Accepted } else { Status::Refused }
    }
}

/// The column of a survey: the word for a letter, and nothing for what is none.
pub fn column(edition: Edition, stream: &[u8]) -> String {
    Letter::read_in(edition, stream).map_or(String::new(), |letter| Orders::of(&letter).word().into())
}

/// What JSON has of one class.
#[derive(Serialize)]
struct Placed {
    number: u32,
    place: usize,
    /// The element at the place; none at the end of the stream.
    #[serde(skip_serializing_if = "Option::is_none")]
    element: Option<usize>,
    #[serde(skip_serializing_if = "Option::is_none")]
    kind: Option<&'static str>,
}

#[derive(Serialize)]
struct Answer {
    classes: Vec<String>,
    class_a: Placed,
    class_b: Placed,
}

pub fn run(words: &Words) -> Outcome {
    let Asked { files, json } = &words.asked;
    input::each(files, *json, |source| {
        let read = Letter::read_in(source.edition, &source.stream);
        let orders = read.as_ref().map(|letter| (letter, Orders::of(letter)));
        let report = match &orders {
            _ if *json => {
                let answer = orders.as_ref().ok().map(|(letter, orders)| answer(letter, orders));
                explain::answer(source, &read, answer)
            }
            Ok((letter, orders)) => line(source, letter, orders),
            Err(refusal) => explain::refusal(source, refusal),
        };
        let mut out = io::stdout().lock();
        out.write_all(report.as_bytes())?;
        out.flush()?;
        Ok(orders.map_or(Status::Refused, |(_, orders)| orders.status(words.class)))
    })
}

/// The element that begins at a place, by its number.
fn element_at(letter: &Letter<'_>, place: usize) -> Option<usize> {
    letter.elements().iter().position(|element| element.place.start == place)
}

fn answer(letter: &Letter<'_>, orders: &Orders) -> Answer {
    let [class_a, class_b] = [0, 1].map(|at| match &orders.0[at].1 {
        Ok(()) => Placed { number: 0, place: 0, element: None, kind: None },
        Err(refusal) => {
            let element = element_at(letter, refusal.place);
            let kind = element.map(|element| letter.elements()[element].kind.name());
            Placed { number: refusal.number(), place: refusal.place, element, kind }
        }
    });
    Answer { classes: orders.classes().iter().map(Class::to_string).collect(), class_a, class_b }
}

fn line(source: &Source<'_>, letter: &Letter<'_>, orders: &Orders) -> String {
    let fault = |(class, order): &(Class, Result<(), Refusal>)| {
        let place = order.as_ref().err()?.place;
        let what = match element_at(letter, place) {
            Some(element) => format!("element {element}, {}", show::one(letter.elements()[element].kind.name())),
            None => "the end, where text units are missing".into(),
        };
        Some(format!("class {class} fails at octet {place}: {what}"))
    };
    let in_order = match orders.word() {
        "both" => "in the order of class A and of class B".into(),
        "neither" => "in neither order".into(),
        class => format!("in the order of class {class}"),
    };
    let faults: Vec<String> = orders.0.iter().filter_map(fault).collect();
    format!("{}\n", [vec![format!("{}: {in_order}", source.shown)], faults].concat().join("; "))
}
