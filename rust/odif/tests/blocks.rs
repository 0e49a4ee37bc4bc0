//! The binding of the block engine, and the C header's part of it.

use std::io::{self, Write};
use std::path::Path;
use std::process::Command;

use odif::raw::blocks as raw;
use odif::{Blocks, ClosedEarly, PastTotal, Rule, STREAM_LIMIT};

const LETTER: &[u8] = b"\xA0\x00\
    \xA2\x11\x02\x01\x04\x31\x0C\x41\x051 0 2\xA1\x03\x12\x010\
    \xA3\x0F\x31\x09\x40\x071 0 2 0\x04\x02Hi";

#[test]
fn a_letter_in_blocks_of_any_size() {
    for size in 1..=LETTER.len() {
        let mut blocks = Blocks::start(LETTER.len()).unwrap();
        for block in LETTER.chunks(size) {
            blocks.take(block).unwrap();
            blocks.take(&[]).unwrap();
        }
        let walked = blocks.close().unwrap();
        assert_eq!((walked.verdict, walked.headers), (Ok(()), 11), "{size}");
    }
}

#[test]
fn it_is_a_writer() {
    let mut blocks = Blocks::start(LETTER.len()).unwrap();
    assert_eq!(io::copy(&mut &LETTER[..], &mut blocks).unwrap(), LETTER.len() as u64);
    assert_eq!(blocks.close().unwrap().headers, 11);
    let error = blocks.write_all(b"?").unwrap_err();
    assert_eq!(error.to_string(), "number 28: a block is past the total that was told");
    assert_eq!(blocks.close().unwrap().headers, 11, "nothing of it was taken");
}

#[test]
fn refusals_of_the_engine_s_own() {
    assert_eq!(Blocks::start(STREAM_LIMIT + 1).unwrap_err().rule, Rule::StreamTooLong);
    let mut blocks = Blocks::start(3).unwrap();
    assert_eq!(blocks.close(), Err(ClosedEarly));
    assert_eq!(blocks.take(b"\xA0\x02\x05\x00"), Err(PastTotal));
    assert_eq!(blocks, Blocks::start(3).unwrap());
    blocks.take(b"\xA0\x02").unwrap();
    assert_eq!((blocks.left(), blocks.close()), (1, Err(ClosedEarly)));
    let copy = blocks;
    blocks.take(b"\x05").unwrap();
    let fault = blocks.close().unwrap().verdict.unwrap_err();
    assert_eq!((fault.rule, fault.place), (Rule::PastLimit, 0));
    assert_eq!(copy.close(), Err(ClosedEarly), "a copy goes on by itself");
}

/// A finding stays, later octets are counted, and 28 and 29 go before it.
#[test]
fn a_finding_stays() {
    let start = raw::start(6).state;
    let found = raw::take(start, b"\x80\x80\x1F").state;
    assert_eq!((found.number, found.place), (6, 0));
    assert_eq!(raw::close(found).number, 29);
    let past = raw::take(found, b"\0\0\0\0");
    assert_eq!((past.number, past.state), (28, found));
    let all = raw::take(found, b"\x1F\x1F\x1F");
    assert_eq!((all.number, all.state.taken), (0, 6));
    assert_eq!(raw::close(all.state), raw::Walked { number: 6, place: 0, headers: 0 });
}

#[test]
fn a_c_program_over_the_header() {
    let folder = Path::new(env!("CARGO_MANIFEST_DIR"));
    let program = Path::new(env!("CARGO_TARGET_TMPDIR")).join("blocks");
    let compiled = Command::new("cc")
        .args(["-std=c99", "-Wall", "-Wextra", "-pedantic", "-Werror", "-I"])
        .args([folder.join("../../include"), folder.join("tests/blocks.c")])
        .arg(env!("ODIF_ARCHIVE"))
        .arg("-o")
        .arg(&program)
        .output()
        .expect("a C compiler");
    assert!(compiled.status.success(), "{}", String::from_utf8_lossy(&compiled.stderr));
    let told = Command::new(&program).output().unwrap();
    let wanted = "1: 0 0 11\n2: 0 0 11\n7: 0 0 11\n38: 0 0 11\nearly 29 0 0\npast 28 same\ntoo long 1, 1 0 0\n";
    assert_eq!(String::from_utf8_lossy(&told.stdout), wanted);
}
