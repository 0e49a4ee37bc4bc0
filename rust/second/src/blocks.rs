//! The block engine: letters cut in every way, against the reader's walk of the whole.

use odif::STREAM_LIMIT;
use odif::raw::blocks::{self as raw, Blocks, Taken, Walked};
use reader::Reading;

use crate::rng::Rng;
use crate::tally::{Origin, Tally, hex};

/// Streams up to this length are cut at every place, and so is one in so many of those that are not long.
const SHORT: usize = 64;
const ONE_IN: usize = 64;
const LONG: usize = 2_048;
/// So many places of another stream.
const SOME_PLACES: usize = 8;
/// Octets past any total.
static PAST: [u8; STREAM_LIMIT + 16] = [0xA0; STREAM_LIMIT + 16];
/// What an early close is answered.
const EARLY: Walked = Walked { number: 29, place: 0, headers: 0 };

/// Holds the engine on one stream: cut in two, at every place or at some, octet by octet in the former case, and in random
/// blocks with empty ones, blocks past the total and early closes between.
pub fn hold(stream: &[u8], reading: &Reading<'_>, origin: &Origin, tally: &mut Tally, rng: &mut Rng) {
    let everywhere = stream.len() <= SHORT || stream.len() <= LONG && rng.one_in(ONE_IN);
    hold_cut(everywhere, stream, reading, origin, tally, rng);
}

/// The block engine on a stream cut at every place, however long the stream is.
pub fn hold_everywhere(stream: &[u8], origin: &Origin, tally: &mut Tally) {
    hold_cut(true, stream, &Reading::of(stream), origin, tally, &mut Rng::new(209));
}

fn hold_cut(everywhere: bool, stream: &[u8], reading: &Reading<'_>, origin: &Origin, tally: &mut Tally, rng: &mut Rng) {
    let wanted = walk_of(reading);
    let mut expect = |holds: bool, what: &str| {
        tally.expect(holds, || format!("{origin}: in blocks: {what}, not {wanted:?}\n  {}", hex(stream)));
    };
    let start = raw::start(stream.len());
    expect(start.number == u32::from(stream.len() > STREAM_LIMIT), "the number of the start");
    let octet_by_octet = if everywhere { states_of(start.state, stream) } else { Vec::new() };
    expect(octet_by_octet.last().is_none_or(|&last| raw::close(last) == wanted), "octet by octet");
    let places: Vec<usize> = if everywhere {
        (0..=stream.len()).collect()
    } else {
        (0..SOME_PLACES).map(|_| rng.below(stream.len() + 1)).collect()
    };
    let cut_in_two = |place: usize| {
        let (front, back) = stream.split_at(place);
        let first = raw::take(start.state, front);
        let second = raw::take(first.state, back);
        let stands =
            octet_by_octet.is_empty() || place == 0 || meaning(&first.state) == meaning(&octet_by_octet[place - 1]);
        first.number == 0 && second.number == 0 && stands && raw::close(second.state) == wanted
    };
    let fault = places.into_iter().find(|&place| !cut_in_two(place));
    expect(fault.is_none(), &format!("cut at {fault:?}"));
    for _ in 0..3 {
        let fault = in_random_blocks(stream, wanted, rng);
        expect(fault.is_none(), &format!("in random blocks: {fault:?}"));
    }
}

/// What the reader says of rules 1 to 8, and the header count.
fn walk_of(reading: &Reading<'_>) -> Walked {
    let checked = reading.check(&mut []);
    match checked.number {
        number @ 1..=8 => Walked { number, place: checked.place, headers: checked.headers },
        _ => Walked { number: 0, place: 0, headers: checked.headers },
    }
}

/// The state after each octet.
fn states_of(mut state: Blocks, stream: &[u8]) -> Vec<Blocks> {
    let step = |octet: &u8| {
        state = raw::take(state, &[*octet]).state;
        state
    };
    stream.iter().map(step).collect()
}

/// What of a state is defined: with a finding only that, and else no end and no octet past those that count.
fn meaning(state: &Blocks) -> impl PartialEq + use<> {
    let Blocks { total, taken, at, level, headers, number, place, have, ends, begun } = *state;
    match number {
        0 => {
            let open = ends[..(level as usize).min(16)].to_vec();
            (total, taken, [0, 0, headers], at, open, begun[..(have as usize).min(8)].to_vec())
        }
        _ => (total, taken, [number, place, headers], 0, Vec::new(), Vec::new()),
    }
}

/// One cutting, with empty blocks, blocks past the total and early closes. What went wrong, if anything.
fn in_random_blocks(stream: &[u8], wanted: Walked, rng: &mut Rng) -> Option<String> {
    let sizes = [1, 2, 3, 7, 8, 9, 17, 64, 512, 4_096];
    let longest = *rng.pick(if stream.len() > LONG { &sizes[6..] } else { &sizes });
    let mut state = raw::start(stream.len()).state;
    let mut rest = stream;
    loop {
        if rest.len() < STREAM_LIMIT && rng.one_in(4) {
            let past = &PAST[..rest.len() + 1 + rng.below(9)];
            if raw::take(state, past) != (Taken { number: 28, state }) {
                return Some(format!("a block past the total, with {} octets left", rest.len()));
            }
        }
        if !rest.is_empty() && rng.one_in(4) && raw::close(state) != EARLY {
            return Some(format!("closed with {} octets left", rest.len()));
        }
        if rest.is_empty() && rng.one_in(2) {
            return (raw::close(state) != wanted)
                .then(|| format!("{:?} in blocks of up to {longest}", raw::close(state)));
        }
        let (block, more) = rest.split_at(rng.below(longest + 1).min(rest.len()));
        let taken = raw::take(state, block);
        if taken.number != 0 {
            return Some(format!("{} for a block", taken.number));
        }
        (state, rest) = (taken.state, more);
    }
}
