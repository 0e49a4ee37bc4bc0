//! `odif check --blocks N`: the files handed to the block engine.

use std::io::{self, Write};
use std::num::NonZeroUsize;

use odif::{Blocks, Refusal, Walked};
use serde::Serialize;

use crate::asked::Asked;
use crate::explain;
use crate::input::{self, Source};
use crate::show;
use crate::status::{Outcome, Status};

/// What JSON has besides the verdict.
#[derive(Serialize)]
struct Counts {
    octets: Option<u64>,
    headers: usize,
    blocks: usize,
}

/// Checks each file by rules 1 to 8 alone, in blocks of so many octets.
pub fn run(asked: &Asked, quiet: bool, size: NonZeroUsize) -> Outcome {
    let Asked { files, json } = asked;
    input::each(files, *json, |source| {
        let count = source.stream.len().div_ceil(size.get());
        let Walked { verdict, headers, .. } = walk(&source.stream, size)?;
        let report = match &verdict {
            _ if quiet => String::new(),
            _ if *json => explain::answer(source, &verdict, Counts { octets: source.size, headers, blocks: count }),
            Ok(()) => passed(source, headers, count),
            Err(refusal) => explain::refusal(source, refusal),
        };
        let mut out = io::stdout().lock();
        out.write_all(report.as_bytes())?;
        out.flush()?;
        Ok(Status::of(&verdict))
    })
}

/// Hands a stream over block by block. One that is too long is refused at the start.
fn walk(stream: &[u8], size: NonZeroUsize) -> io::Result<Walked> {
    let refused = |refusal: Refusal| Walked { verdict: Err(refusal), headers: 0 };
    let mut blocks = match Blocks::start(stream.len()) {
        Ok(blocks) => blocks,
        Err(refusal) => return Ok(refused(refusal)),
    };
    for block in stream.chunks(size.get()) {
        blocks.write_all(block)?;
    }
    blocks.close().map_err(io::Error::other)
}

fn passed(source: &Source<'_>, headers: usize, blocks: usize) -> String {
    let counts = [(headers, "item"), (source.stream.len(), "octet"), (blocks, "block")];
    let counts = counts.map(|(count, noun)| show::counted(count, noun)).join(", ");
    format!("{}: passed rules 1 to 8, {counts}\n", source.shown)
}
