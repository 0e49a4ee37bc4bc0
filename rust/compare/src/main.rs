//! The program `compare`: holds the proved library against the independent reader.

use std::process::ExitCode;
use std::sync::atomic::{AtomicU64, Ordering};
use std::thread;
use std::time::Instant;

use compare::hold::Holder;
use compare::rng::Rng;
use compare::tally::{LAST_NUMBER, Origin, Tally};
use compare::{blocks, characters, examples, limits, making, openssl, order, pages, seeded, short};

const HELP: &str = "\
compare [--seed N] [--streams N] [--from N] [--jobs N]

Holds the proved library against the independent reader, by the editions of 1988 and of
1993: document 01's examples, X.209's and Annex D, every limit from both sides, all short
streams, and generated letters, good, damaged and noise; letters in the order of class A or
B, and nearly so; made letters, which are read again; and the characters of texts. Its last line is `N passed, M failed`.

  --seed N     the generated streams of this seed (1)
  --streams N  so many of them (30000, as the gate does); with more it runs longer
  --from N     begin with this one (0), and leave out what is not generated
  --jobs N     so many threads (as many as there are processors)
";

/// Room for the library's scratch memory in each thread.
const STACK: usize = 16 << 20;

struct Options {
    seed: u64,
    streams: u64,
    from: Option<u64>,
    jobs: usize,
}

fn main() -> ExitCode {
    let options = match options(std::env::args().skip(1)) {
        Ok(Some(options)) => options,
        Ok(None) => {
            print!("{HELP}");
            return ExitCode::SUCCESS;
        }
        Err(message) => {
            eprintln!("compare: {message}");
            return ExitCode::from(2);
        }
    };
    match openssl::version() {
        Ok(version) => println!("{version}; seed {}", options.seed),
        Err(message) => {
            println!("{message}\n0 passed, 1 failed");
            return ExitCode::FAILURE;
        }
    }
    let mut total = Tally::default();
    if options.from.is_none() {
        part("examples", &mut total, hold_examples);
        part("limits", &mut total, || in_threads(options.jobs, hold_limits()));
        part("short streams", &mut total, || in_threads(options.jobs, hold_short_streams()));
        part("made letters", &mut total, hold_made);
        part("characters", &mut total, hold_characters);
    }
    part("random texts", &mut total, || in_threads(options.jobs, hold_texts_at_random(&options)));
    part("made at random", &mut total, || in_threads(options.jobs, hold_made_at_random(&options)));
    part("in order", &mut total, || in_threads(options.jobs, hold_in_order(&options)));
    part("generated", &mut total, || in_threads(options.jobs, hold_generated(&options)));
    report(&mut total, options.from.is_none());
    if total.failed == 0 { ExitCode::SUCCESS } else { ExitCode::FAILURE }
}

fn options(mut words: impl Iterator<Item = String>) -> Result<Option<Options>, String> {
    let processors = thread::available_parallelism().map_or(1, usize::from);
    let mut options = Options { seed: 1, streams: 30_000, from: None, jobs: processors };
    while let Some(word) = words.next() {
        if word == "--help" || word == "-h" {
            return Ok(None);
        }
        let number = words.next().and_then(|digits| digits.parse().ok());
        let number: u64 = number.ok_or_else(|| format!("{word} needs a number; see --help"))?;
        match word.as_str() {
            "--seed" => options.seed = number,
            "--streams" => options.streams = number,
            "--from" => options.from = Some(number),
            "--jobs" => options.jobs = number.max(1) as usize,
            _ => return Err(format!("there is no option {word}; see --help")),
        }
    }
    Ok(Some(options))
}

/// Runs one part, adds its counts and tells of it.
fn part(name: &str, total: &mut Tally, run: impl FnOnce() -> Tally) {
    let begun = Instant::now();
    let tally = run();
    println!(
        "{name:13} {:7} streams, {:6} accepted and held against openssl but for {:5} elements, {:9} comparisons, {:.1} s",
        tally.streams,
        tally.parsed,
        tally.left_out,
        tally.passed + tally.failed,
        begun.elapsed().as_secs_f64()
    );
    total.add(&tally);
}

/// Runs the same work in some threads, each with a holder of its own.
fn in_threads(jobs: usize, work: impl Fn(&mut Holder) + Sync) -> Tally {
    let mut total = Tally::default();
    thread::scope(|scope| {
        let run = || {
            let mut holder = Holder::default();
            work(&mut holder);
            holder.finish()
        };
        let start = |_| thread::Builder::new().stack_size(STACK).spawn_scoped(scope, run).expect("a thread");
        let threads: Vec<_> = (0..jobs).map(start).collect();
        for thread in threads {
            total.add(&thread.join().expect("a thread that ends well"));
        }
    });
    total
}

fn hold_examples() -> Tally {
    let mut holder = Holder::default();
    examples::hold(&mut holder);
    order::hold_vectors(&mut holder);
    pages::hold_vectors(&mut holder);
    blocks::hold_fixed(&mut holder.tally);
    holder.finish()
}

/// Work on each number from `from` on, so many of them: each thread takes the next one that none has taken.
fn in_turn(from: u64, count: u64, work: impl Fn(&mut Holder, u64) + Sync) -> impl Fn(&mut Holder) + Sync {
    let (next, past) = (AtomicU64::new(from), from.saturating_add(count));
    move |holder| {
        loop {
            let number = next.fetch_add(1, Ordering::Relaxed);
            if number >= past {
                return;
            }
            work(holder, number);
        }
    }
}

fn hold_limits() -> impl Fn(&mut Holder) + Sync {
    in_turn(0, limits::GROUPS.len() as u64, |holder, group| {
        for (number, (name, stream)) in limits::GROUPS[group as usize]().into_iter().enumerate() {
            holder.hold(&stream, Origin::Fixed(name), &mut Rng::new(number as u64));
        }
    })
}

fn hold_short_streams() -> impl Fn(&mut Holder) + Sync {
    in_turn(0, short::GROUPS as u64, |holder, group| {
        for (number, stream) in short::group(group as u8).into_iter().enumerate() {
            let origin = Origin::Fixed(format!("short stream {number} of group {group}"));
            holder.hold(&stream, origin, &mut Rng::new(number as u64));
        }
    })
}

fn hold_generated(options: &Options) -> impl Fn(&mut Holder) + Sync {
    let seed = options.seed;
    in_turn(options.from.unwrap_or(0), options.streams, move |holder, number| {
        let (stream, mut rng) = seeded::stream(seed, number);
        holder.hold(&stream, Origin::Seeded { seed, stream: number }, &mut rng);
    })
}

fn hold_made() -> Tally {
    let mut tally = Tally::default();
    let met = making::hold_fixed(&mut tally);
    let told = making::NUMBERS.iter().zip(met).map(|(number, count)| format!("{number}: {count}"));
    println!("made letters: {}", told.collect::<Vec<_>>().join(", "));
    tally
}

fn hold_characters() -> Tally {
    let mut tally = Tally::default();
    characters::hold_fixed(&mut tally);
    tally
}

/// One text for each stream that is generated.
fn hold_texts_at_random(options: &Options) -> impl Fn(&mut Holder) + Sync {
    let seed = options.seed;
    in_turn(options.from.unwrap_or(0), options.streams, move |holder, number| {
        characters::hold_seeded(seed, number, &mut holder.tally);
    })
}

/// One letter is made for each ten streams that are generated.
fn hold_made_at_random(options: &Options) -> impl Fn(&mut Holder) + Sync {
    let seed = options.seed;
    in_turn(options.from.unwrap_or(0), options.streams.div_ceil(10), move |holder, number| {
        making::hold_seeded(seed, number, &mut [0; 7], &mut holder.tally);
    })
}

/// One letter in the order of a class, or nearly so, for each two streams that are generated.
fn hold_in_order(options: &Options) -> impl Fn(&mut Holder) + Sync {
    let seed = options.seed;
    in_turn(options.from.unwrap_or(0), options.streams.div_ceil(2), move |holder, number| {
        order::hold_seeded(seed, number, holder);
    })
}

/// Tells how often each number was met, and the sums.
fn report(total: &mut Tally, whole: bool) {
    if whole {
        total.expect_every_number();
        total.expect_every_refusal();
    }
    println!("how often the library gave each number:");
    for line in (0..=LAST_NUMBER).collect::<Vec<_>>().chunks(7) {
        let counts = line.iter().map(|&number| format!("{number:3}: {:9}", total.met(number)));
        println!(" {}", counts.collect::<String>());
    }
    println!("{} passed, {} failed", total.passed, total.failed);
}
