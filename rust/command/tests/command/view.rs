//! `odif view`: what the page is made of. How it looks and what it does is tested in a browser (`tests/view`).

use std::fs;
use std::process::Command;

use super::support::{CLAIM, CUT_SHORT, Scratch, WITH_DATE, letter, odif, odif_with, repository};

/// The page of these words.
fn page(words: &[&str]) -> String {
    let run = odif(&[&["view"], words, &["-o", "-"]].concat());
    assert!(run.status < 2, "{}", run.stderr);
    run.text().into()
}

/// What stands in a page between two texts.
fn between<'a>(page: &'a str, begin: &str, end: &str) -> &'a str {
    let (_, rest) = page.split_once(begin).unwrap_or_else(|| panic!("no {begin}"));
    rest.split_once(end).unwrap_or_else(|| panic!("no {end}")).0
}

/// What a shell makes of a text.
fn piped(scratch: &Scratch, command: &str, text: &str) -> Vec<u8> {
    let file = scratch.write("text", text.as_bytes());
    Command::new("bash").args(["-c", &format!("cat '{file}' | {command}")]).output().unwrap().stdout
}

#[test]
fn it_holds_the_letter_and_the_reader() {
    let (page, scratch) = (page(&[WITH_DATE]), Scratch::new("view-held"));
    let held = between(&page, " id=\"letter\"", "</script>");
    assert_eq!(
        piped(&scratch, "base64 -d", held.split_once('>').unwrap().1),
        fs::read(repository().join(WITH_DATE)).unwrap()
    );
    let about = "data-name=\"dated.odif\" data-size=\"342\" data-sha256=\"9099d48e381d4e7d833f3bdf5ee08ee9ee71b59ab06162d8523b761ac45b41ec\" data-edition=\"1988\"";
    assert!(held.contains(about), "{held}");
    let reader = between(&page, "id=\"reader\">", "</script>");
    let sum = String::from_utf8(piped(&scratch, "base64 -d | sha256sum", reader)).unwrap();
    let version = odif(&["--version"]);
    assert!(version.text().contains(&format!("\nreader    odif.wasm, sha256 {}\n", &sum[..64])), "{}", version.text());
}

#[test]
fn the_policy_names_its_own_style_and_script() {
    let (page, scratch) = (page(&[CLAIM]), Scratch::new("view-policy"));
    let policy = between(&page, "Content-Security-Policy\" content=\"", "\">");
    let hash = |text: &str| {
        String::from_utf8(piped(&scratch, "openssl dgst -sha256 -binary | base64", text)).unwrap().trim().to_string()
    };
    let script = hash(between(&page, "<script type=\"module\">", "</script>"));
    let style = hash(between(&page, "<style>", "</style>"));
    let wanted = format!(
        "default-src 'none'; script-src 'wasm-unsafe-eval' 'sha256-{script}'; style-src 'sha256-{style}'; base-uri 'none'"
    );
    assert!(policy.starts_with(&wanted), "{policy}");
    assert!(!page.contains("http://") && !page.contains("https://") && !page.contains(" src="), "it loads nothing");
}

#[test]
fn the_same_octets_each_time_and_none_without_a_letter() {
    assert_eq!(page(&[CLAIM]), page(&[CLAIM]));
    let viewer = page(&[]);
    assert!(!viewer.contains("id=\"letter\"") && viewer.contains("id=\"reader\""));
    assert_eq!(page(&[]), viewer);
}

#[test]
fn written_to_a_file() {
    let scratch = Scratch::new("view");
    let out = scratch.word("dated.html");
    let run = odif(&["view", WITH_DATE, "-o", &out]);
    assert_eq!((run.status, run.text(), run.stderr.as_str()), (0, "", ""));
    assert_eq!(fs::read_to_string(&out).unwrap(), page(&[WITH_DATE]));
    assert_eq!(scratch.names(), ["dated.html"]);
    let run = odif(&["view", CUT_SHORT, "-o", &out]);
    assert_eq!(run.status, 1);
    assert!(run.stderr.contains("refused, number 7 at octet 887: "), "{}", run.stderr);
    assert_eq!(fs::read_to_string(&out).unwrap(), page(&[CUT_SHORT]), "a refused letter has its page");
}

#[test]
fn a_hostile_name_stays_a_name() {
    let scratch = Scratch::new("view-name");
    let file = scratch.write("\"><script>alert(1)</script>.odif".replace('/', "|").as_str(), &letter(b"x"));
    let page = page(&[&file]);
    assert!(page.contains("data-name=\"&#34;&#62;&#60;script&#62;alert(1)&#60;|script&#62;.odif\""));
    assert!(!page.contains("<script>alert"));
}

#[test]
fn hexadecimal_standard_input_and_the_largest() {
    let run = odif_with(&["view", "--hex", "-", "-o", "-"], b"A0 00");
    assert!(
        run.status == 0
            && run.text().contains("data-name=\"standard input\" data-size=\"2\"")
            && run.text().contains(">oAA=</script>")
    );
    let scratch = Scratch::new("view-huge");
    let out = scratch.word("huge.html");
    let run = odif(&["view", &scratch.write_huge("huge"), "-o", &out]);
    assert_eq!(run.status, 1);
    assert!(
        fs::read_to_string(&out).unwrap().contains("data-size=\"8589934592\" data-sha256=\"\""),
        "only its beginning is there"
    );
}

#[test]
fn what_cannot_be_done_is_told() {
    let scratch = Scratch::new("view-wrong");
    let file = scratch.write("a.odif", &letter(b"x"));
    let before = fs::read(&file).unwrap();
    for (words, message) in [
        (&["view", &file, "-o", &file][..], "written over the letter: give another name with `-o`"),
        (&["view", "samples", "-o", "-"], "a page shows one letter: give a file, and no folder"),
        (&["view", "none", "-o", "-"], "none: No such file"),
        (&["view", CLAIM], "-o <OUT>"),
        (&["view", CLAIM, "-o", "no/such/folder.html"], "no/such/folder.html: No such file"),
    ] {
        let run = odif(words);
        assert_eq!((run.status, run.text()), (2, ""), "{words:?}");
        assert!(run.stderr.contains(message), "{words:?}: {}", run.stderr);
    }
    assert_eq!(fs::read(&file).unwrap(), before);
}
