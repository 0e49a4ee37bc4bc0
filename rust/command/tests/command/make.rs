//! `odif make`

use std::fs;

use super::support::{Scratch, odif, odif_with};

/// Every octet, some of them twice.
fn every_octet() -> Vec<u8> {
    (0..=255).chain(*b"\\x41\r\n").collect()
}

#[test]
fn texts_of_files_come_back() {
    let scratch = Scratch::new("make-files");
    let texts = [every_octet(), Vec::new(), b"Dear Sir,\r\n".to_vec(), vec![b'x'; 70_000]];
    let files: Vec<String> =
        texts.iter().enumerate().map(|(number, text)| scratch.write(&format!("{number}.txt"), text)).collect();
    let out = scratch.word("out.odif");
    let mut words = vec!["make", "-o", &out];
    words.extend(files.iter().map(String::as_str));
    let run = odif(&words);
    assert_eq!((run.status, run.text(), run.stderr.as_str()), (0, "", ""));
    assert_eq!(odif(&["text", "--raw", "--strict", &out]).stdout, texts.concat());
    assert_eq!(odif(&["normal", &out]).stdout, fs::read(&out).unwrap(), "it is its own normal form");
}

#[test]
fn texts_of_lines_come_back() {
    let hex = |text: &[u8]| text.iter().map(|octet| format!("{octet:02x}")).collect::<String>();
    let lines = format!(
        "{}\n\n{}\n{}",
        r#"{"identifier":"1 0 2","portion":"0","text":"Hi\n"}"#,
        format_args!(r#"{{"identifier":"1 0 3","portion":"7","text_hex":"{}"}}"#, hex(&every_octet())),
        r#"{"portion":"0","text":"cafe \\x41 \u0041\n","identifier":"1 0 10"}"#
    );
    let run = odif_with(&["make", "--lines", "-"], lines.as_bytes());
    assert_eq!((run.status, run.stderr.as_str()), (0, ""));
    let scratch = Scratch::new("make-lines");
    let text = odif(&["text", "--raw", "--strict", &scratch.write("made.odif", &run.stdout)]);
    assert_eq!(text.stdout, [&b"Hi\n"[..], &every_octet(), b"cafe \\x41 A\n"].concat());
    assert!(run.stdout.windows(8).any(|octets| octets == b"1 0 10 0"), "the unit identifier");
}

/// What `list --json` says of a content is what `--lines` takes.
#[test]
fn octets_that_are_listed_are_taken_back() {
    let scratch = Scratch::new("make-listed");
    let text = scratch.write("text", &every_octet());
    let made = scratch.word("made.odif");
    assert_eq!(odif(&["make", &text, "-o", &made]).status, 0);
    let listed = odif(&["list", "--json", &made]);
    let (_, rest) = listed.text().split_once("\"content\":null,\"content_hex\":\"").unwrap();
    let digits = rest.split('"').next().unwrap();
    let line = format!(r#"{{"identifier":"1 0 0","portion":"0","text_hex":"{digits}"}}"#);
    let again = odif_with(&["make", "--lines", "-", "-o", "-"], line.as_bytes());
    assert_eq!((again.status, again.stderr.as_str()), (0, ""));
    assert_eq!(again.stdout, fs::read(&made).unwrap());
}

#[test]
fn no_entries_and_the_letter_of_document_01() {
    assert_eq!(odif(&["make", "--lines", "-"]).stdout, [0xA0, 0x00]);
    let line = br#"{"identifier":"1 0 2","portion":"0","text":"Hi"}"#;
    let wanted = b"\xA0\x00\xA2\x11\x02\x01\x04\x31\x0C\x41\x051 0 2\xA1\x03\x12\x010\
        \xA3\x0F\x31\x09\x40\x071 0 2 0\x04\x02Hi";
    assert_eq!(odif_with(&["make", "--lines", "-"], line).stdout, wanted);
    assert_eq!(odif_with(&["make", "-", "--under", "9 9"], b"Hi").stdout[9..16], *b"\x41\x059 9 0");
}

#[test]
fn a_refused_letter_leaves_the_file_alone() {
    let scratch = Scratch::new("make-refused");
    let out = scratch.write("out.odif", b"as it was");
    let twice = br#"{"identifier":"1 0 2","portion":"0","text":"a"}

{"identifier":"1 0 2","portion":"1","text":"b"}"#;
    let run = odif_with(&["make", "--lines", "-", "-o", &out], twice);
    assert_eq!(run.status, 1);
    let wanted = "standard input: line 3: refused, number 15 at entry 1: ";
    assert!(run.stderr.contains(wanted), "{}", run.stderr);
    let long = scratch.write("long", &vec![b'x'; 1_048_576]);
    let run = odif(&["make", &long, "-o", &out]);
    assert_eq!((run.status, run.stderr.contains("refused, number 17: ")), (1, true), "{}", run.stderr);
    let run = odif(&["make", &long, "--under", "a", "-o", &out]);
    assert_eq!((run.status, run.stderr.contains("number 14 at entry 0: ")), (1, true), "{}", run.stderr);
    assert_eq!(fs::read(&out).unwrap(), b"as it was");
}

#[test]
fn lines_that_cannot_be_read() {
    for (line, why) in [
        ("{", "line 1: "),
        (r#"{"identifier":"1","portion":"0"}"#, "neither text nor text_hex"),
        (r#"{"identifier":"1","portion":"0","text":"","more":1}"#, "unknown field `more`"),
        (r#"{"identifier":"1","portion":"0","text":"é"}"#, "line 1: its text is not ASCII"),
        (r#"{"identifier":"1","portion":"0","text_hex":"4"}"#, "no pairs of hexadecimal digits"),
        (r#"{"identifier":"1","portion":"0","text":"","text_hex":""}"#, "both text and text_hex"),
    ] {
        let run = odif_with(&["make", "--lines", "-"], line.as_bytes());
        assert_eq!((run.status, run.stdout.len()), (2, 0), "{line}");
        assert!(run.stderr.contains(why), "{}", run.stderr);
    }
    assert_eq!(odif(&["make", "none.txt", "-o", "none.odif"]).status, 2);
    assert_eq!(odif(&["make", "-o", "none.odif"]).status, 2, "neither files nor lines");
}
