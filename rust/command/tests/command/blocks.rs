//! `odif check --blocks N`

use super::support::{CLAIM, CUT_SHORT, Scratch, odif, odif_with};

#[test]
fn any_blocks_tell_the_same() {
    for (size, blocks) in
        [("1", "1,080 blocks"), ("7", "155 blocks"), ("512", "3 blocks"), ("1080", "1 block"), ("5000", "1 block")]
    {
        let run = odif(&["check", "--blocks", size, CLAIM]);
        let wanted = format!("samples/letters/claim.odif: passed rules 1 to 8, 149 items, 1,080 octets, {blocks}\n");
        assert_eq!((run.status, run.text()), (0, wanted.as_str()), "{size}");
    }
}

#[test]
fn a_fault_is_told_as_by_the_check() {
    let whole = odif(&["check", CUT_SHORT]);
    for size in ["1", "16", "100000"] {
        let run = odif(&["check", "--blocks", size, CUT_SHORT]);
        assert_eq!((run.status, run.text()), (1, whole.text()), "{size}");
    }
}

#[test]
fn only_the_octets_are_judged() {
    let run = odif_with(&["check", "--hex", "--blocks", "1", "-"], b"A4 00");
    assert_eq!((run.status, run.text()), (0, "standard input: passed rules 1 to 8, 1 item, 2 octets, 2 blocks\n"));
    let run = odif_with(&["check", "--blocks", "1", "-"], b"");
    assert_eq!((run.status, run.text()), (0, "standard input: passed rules 1 to 8, 0 items, 0 octets, 0 blocks\n"));
}

#[test]
fn too_long_and_no_blocks() {
    let scratch = Scratch::new("blocks-huge");
    let run = odif(&["check", "--blocks", "512", &scratch.write_huge("huge.odif")]);
    assert_eq!(run.status, 1);
    assert!(
        run.text().contains("refused, number 1 at octet 0: the stream is over 1,048,576 octets\n"),
        "{}",
        run.text()
    );
    let run = odif(&["check", "--blocks", "0", CLAIM]);
    assert_eq!((run.status, run.text()), (2, ""));
}

#[test]
fn as_json() {
    let run = odif_with(&["check", "--json", "--hex", "--blocks", "2", "-"], b"A00205");
    assert_eq!(run.status, 1);
    assert!(run.text().contains("\"outcome\":\"refused\",\"number\":7,\"place\":0,"), "{}", run.text());
    assert!(run.text().ends_with("\"octets\":3,\"headers\":0,\"blocks\":2}\n"), "{}", run.text());
}
