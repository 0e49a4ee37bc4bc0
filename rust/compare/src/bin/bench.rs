//! The program `bench`: the proved library beside the independent reader, on the same inputs in one run.

use std::fs;
use std::hint::black_box;
use std::thread;
use std::time::{Duration, Instant};

use compare::inputs::{self, Input};
use odif::{MOST_ELEMENTS, ROW_WIDTH, STREAM_LIMIT, raw};
use reader::{Reading, Side};

/// How often each pair is measured; the best counts.
const ROUNDS: usize = 100;
/// How long one measurement takes at least. A longer one would seldom go by undisturbed on a machine that does other
/// work besides.
const LONG_ENOUGH: Duration = Duration::from_micros(500);

/// The questions, in the order of the columns.
#[derive(Clone, Copy)]
enum Question {
    Check,
    Layout,
    Logical,
    Normal,
    Content,
    Text,
}

const QUESTIONS: [(Question, &str); 6] = [
    (Question::Check, "check"),
    (Question::Layout, "layout list"),
    (Question::Logical, "logical list"),
    (Question::Normal, "normal form"),
    (Question::Content, "content"),
    (Question::Text, "layout text"),
];

/// Memory to lend to either of them.
struct Memory {
    table: Vec<u32>,
    list: Vec<raw::Match>,
    reader_list: Vec<reader::Match>,
    lines: Vec<raw::Line>,
    reader_lines: Vec<reader::Line>,
    out: Vec<u8>,
}

fn main() {
    println!("A cell is the library's time for one question over the reader's. Best of {ROUNDS} each.");
    println!("Machine: {}\n", machine());
    let mut memory = Memory {
        table: vec![0; MOST_ELEMENTS * ROW_WIDTH],
        list: vec![raw::Match::default(); MOST_ELEMENTS],
        reader_list: vec![reader::Match::default(); MOST_ELEMENTS],
        lines: vec![raw::Line::default(); MOST_ELEMENTS],
        reader_lines: vec![reader::Line::default(); MOST_ELEMENTS],
        out: vec![0; STREAM_LIMIT],
    };
    let names = QUESTIONS.map(|(_, name)| name).join(" | ");
    println!("| input | octets | {names} |\n|---|--:|{}", "--:|".repeat(QUESTIONS.len()));
    for input in inputs::all() {
        let cells = QUESTIONS.map(|(question, _)| {
            let (library, reader) = measure(&input, question, &mut memory);
            format!("{:.2}", library.as_secs_f64() / reader.as_secs_f64())
        });
        println!("| {} | {} | {} |", input.name, input.stream.len(), cells.join(" | "));
    }
}

/// The best time of the library and of the reader for one question, measured in turn.
fn measure(input: &Input, question: Question, memory: &mut Memory) -> (Duration, Duration) {
    let mut best = (Duration::MAX, Duration::MAX);
    let library_times = times(|| ask_library(input, question, memory));
    let reader_times = times(|| ask_reader(input, question, memory));
    for _ in 0..ROUNDS {
        best.0 = best.0.min(time(library_times, || ask_library(input, question, memory)));
        best.1 = best.1.min(time(reader_times, || ask_reader(input, question, memory)));
    }
    best
}

/// How often it must be asked for a measurement that is long enough.
fn times(mut ask: impl FnMut() -> u32) -> u32 {
    let begun = Instant::now();
    let mut count = 0;
    while begun.elapsed() < LONG_ENOUGH {
        black_box(ask());
        count += 1;
    }
    count
}

fn time(count: u32, mut ask: impl FnMut() -> u32) -> Duration {
    let begun = Instant::now();
    for _ in 0..count {
        black_box(ask());
    }
    begun.elapsed() / count
}

fn ask_library(input: &Input, question: Question, memory: &mut Memory) -> u32 {
    let stream = black_box(input.stream.as_slice());
    match question {
        Question::Check => raw::check(stream, &mut memory.table).elements,
        Question::Layout => raw::layout(stream, &mut memory.table, &mut memory.list).matches,
        Question::Logical => raw::logical(stream, &mut memory.table, &mut memory.list).matches,
        Question::Normal => raw::normal(stream, &mut memory.out).length,
        Question::Content => raw::content(stream, input.asked).past,
        Question::Text => raw::layout_text(stream, &mut memory.table, &mut memory.lines, &mut memory.out).length,
    }
}

fn ask_reader(input: &Input, question: Question, memory: &mut Memory) -> u32 {
    let reading = Reading::of(black_box(input.stream.as_slice()));
    match question {
        Question::Check => reading.check(&mut memory.table).elements,
        Question::Layout => reading.list(Side::Layout, &mut memory.table, &mut memory.reader_list).matches,
        Question::Logical => reading.list(Side::Logical, &mut memory.table, &mut memory.reader_list).matches,
        Question::Normal => reading.normal(&mut memory.out).length,
        Question::Content => reading.content(input.asked).past,
        Question::Text => {
            reading.text(Side::Layout, &mut memory.table, &mut memory.reader_lines, &mut memory.out).length
        }
    }
}

/// The processor and the system, as the kernel tells them.
fn machine() -> String {
    let about = fs::read_to_string("/proc/cpuinfo").unwrap_or_default();
    let model = about.lines().find_map(|line| line.strip_prefix("model name")).unwrap_or("an unknown processor");
    let release = fs::read_to_string("/proc/sys/kernel/osrelease").unwrap_or_default();
    let processors = thread::available_parallelism().map_or(1, usize::from);
    format!("{}, {processors} of them, Linux {}", model.trim_start_matches([' ', '\t', ':']), release.trim())
}
