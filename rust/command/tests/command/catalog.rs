//! `odif catalog`

use std::fs::{self, File};
use std::os::unix::fs::{PermissionsExt, symlink};
use std::path::Path;

use rusqlite::Connection;
use rusqlite::types::ValueRef;

use super::support::{CLAIM, CUT_SHORT, IN_PIECES, Run, Scratch, WITH_DATE, letter, limited, odif, two_sided};

const ANNEX: &str = "samples/letters/annex-d-1.odif";

/// What a query gives: its columns with bars between them.
fn ask(catalog: &Path, query: &str) -> Vec<String> {
    let connection = Connection::open(catalog).unwrap();
    let mut statement = connection.prepare(query).unwrap();
    let columns = statement.column_count();
    let rows = statement.query_map([], |row| {
        let cell = |at: usize| match row.get_ref(at).unwrap() {
            ValueRef::Null => "null".to_string(),
            ValueRef::Integer(number) => number.to_string(),
            other => other.as_str().unwrap().to_string(),
        };
        Ok((0..columns).map(cell).collect::<Vec<_>>().join("|"))
    });
    rows.unwrap().map(Result::unwrap).collect()
}

fn catalog(scratch: &Scratch, words: &[&str]) -> Run {
    let (archive, out) = (scratch.word("in"), scratch.word("letters.sqlite"));
    odif(&[&["catalog", &archive, "-o", &out], words].concat())
}

/// Two letters of one text, one of them in the normal form, one of two sides, and what is no letter.
fn archive(name: &str) -> Scratch {
    let scratch = Scratch::new(name);
    scratch.write("in/a", &letter(b"Stra\xFBe in M\xC8unchen"));
    scratch.write("in/b/c", &two_sided(b"on the layout side", b"on the logical side"));
    scratch.write("in/b/same", &[&[0xA0, 0x81, 0x00], &letter(b"Stra\xFBe in M\xC8unchen")[2..]].concat());
    scratch.write("in/cut", &fs::read(super::support::repository().join(CUT_SHORT)).unwrap());
    scratch
}

#[test]
fn letters_lines_and_search() {
    let scratch = archive("catalog");
    let out = scratch.path("letters.sqlite");
    let run = catalog(&scratch, &[]);
    assert_eq!(run.status, 1, "{}", run.stderr);
    assert_eq!(run.text(), "4 files\n3 letters\n3 lines\n1 refused\n0 unreadable\n0 were done before\n");
    let archive = scratch.word("in");
    let rows = ask(&out, "SELECT file, outcome, number, place, octets, edition, first, id FROM letters ORDER BY id");
    assert_eq!(
        rows,
        [
            format!("{archive}/a|accepted|0|0|54|1988|1|1"),
            format!("{archive}/b/c|accepted|0|0|{}|1988|2|2", fs::metadata(scratch.path("in/b/c")).unwrap().len()),
            format!("{archive}/b/same|accepted|0|0|55|1988|1|3"),
            format!("{archive}/cut|refused|7|887|890|1988|null|4"),
        ]
    );
    let lines = ask(&out, "SELECT letter, page, block, unit, first, past, in_pieces, text FROM lines ORDER BY id");
    assert_eq!(lines[0], "1|null|1 0 2|2|36|54|0|Straße in München");
    assert_eq!(lines.len(), 3);
    let found = "SELECT file FROM search JOIN lines ON lines.id = search.rowid JOIN letters ON letters.id = letter
        WHERE search MATCH 'munchen' AND letters.id = letters.first";
    assert_eq!(ask(&out, found), [format!("{archive}/a")], "accents count as none");
    assert!(
        ask(&out, "SELECT reason FROM letters WHERE number = 7")[0].contains("says that its value has 5 octets"),
        "the cause"
    );
    assert_eq!(ask(&out, "PRAGMA integrity_check"), ["ok"]);
    let hash = std::process::Command::new("sha256sum").arg(scratch.path("in/a")).output().unwrap().stdout;
    assert!(String::from_utf8(hash).unwrap().starts_with(&ask(&out, "SELECT sha256 FROM letters WHERE id = 1")[0]));
}

#[test]
fn pages_pieces_and_dates() {
    let scratch = Scratch::new("catalog-samples");
    let out = scratch.word("letters.sqlite");
    assert_eq!(odif(&["catalog", ANNEX, IN_PIECES, WITH_DATE, CLAIM, "-o", &out]).status, 0);
    let out = Path::new(&out);
    let first = "SELECT page, block, text FROM lines JOIN letters ON letters.id = letter
        WHERE file LIKE '%annex%' AND text <> '' ORDER BY lines.id LIMIT 1";
    assert_eq!(ask(out, first), ["1|1 0 1|CESSON, 26 JUNE 1985"]);
    assert_eq!(ask(out, "SELECT text FROM lines WHERE in_pieces"), ["Hi"]);
    assert_eq!(ask(out, "SELECT date FROM letters WHERE date IS NOT NULL"), ["1991-04-08"]);
    assert_eq!(
        ask(out, "SELECT max(page), pages FROM lines JOIN letters ON letters.id = letter WHERE file LIKE '%annex%'"),
        ["3|3"]
    );
}

/// All that is in the file depends on the archive and the words alone: another way to the same archive gives the same octets.
#[test]
fn a_catalog_is_as_a_fresh_one() {
    let scratch = archive("catalog-fresh");
    let fresh = |words: &[&str]| {
        let (archive, out) = (scratch.word("in"), scratch.word("fresh.sqlite"));
        let _ = fs::remove_file(&out);
        odif(&[&["catalog", &archive, "-o", &out], words].concat());
        fs::read(out).unwrap()
    };
    let there = || fs::read(scratch.path("letters.sqlite")).unwrap();
    catalog(&scratch, &[]);
    assert!(there() == fresh(&[]), "the first");
    let again = catalog(&scratch, &["--jobs", "3"]);
    assert!(again.text().ends_with("\n4 were done before\n"), "{}", again.text());
    assert!(there() == fresh(&[]), "another run");
    scratch.write("in/b/c", &letter(b"changed"));
    scratch.write("in/new", &letter(b"new"));
    fs::remove_file(scratch.path("in/a")).unwrap();
    let changed = catalog(&scratch, &["--prune"]);
    assert!(changed.text().ends_with("\n1 gone, and their rows from here\n2 were done before\n"), "{}", changed.text());
    assert!(there() == fresh(&[]), "after changes");
    for words in [&["--logical"][..], &["--edition", "1993"], &["--utf8=latin1"], &["--hex"], &[]] {
        let run = catalog(&scratch, words);
        assert!(run.text().ends_with("\n0 were done before\n"), "{words:?} {}", run.text());
        assert!(there() == fresh(words), "{words:?}");
    }
    assert!(catalog(&scratch, &["--utf8"]).text().ends_with("\n4 were done before\n"), "that is how it is without");
}

#[test]
fn letters_that_are_gone_stay_until_prune() {
    let scratch = archive("catalog-gone");
    let out = scratch.path("letters.sqlite");
    catalog(&scratch, &[]);
    let octets = fs::read(scratch.path("in/a")).unwrap();
    fs::remove_file(scratch.path("in/a")).unwrap();
    let run = catalog(&scratch, &[]);
    assert_eq!(run.status, 1);
    assert!(run.text().contains("1 gone, with their rows still here until --prune\n"), "{}", run.text());
    assert_eq!(
        ask(&out, "SELECT outcome, text FROM letters JOIN lines ON letter = letters.id WHERE outcome = 'gone'"),
        ["gone|Straße in München"]
    );
    fs::write(scratch.path("in/a"), octets).unwrap();
    assert!(!catalog(&scratch, &[]).text().contains("gone"), "it is back");
    assert_eq!(ask(&out, "SELECT count(*) FROM letters WHERE outcome = 'accepted'"), ["3"]);
    fs::remove_file(scratch.path("in/a")).unwrap();
    assert!(catalog(&scratch, &["--prune"]).text().contains("1 gone, and their rows from here"));
    assert_eq!(ask(&out, "SELECT count(*), min(id), max(id) FROM letters"), ["3|1|3"]);
}

#[test]
fn an_archive_that_is_not_there_leaves_all_as_it_was() {
    let scratch = archive("catalog-missing");
    catalog(&scratch, &[]);
    let before = fs::read(scratch.path("letters.sqlite")).unwrap();
    let (none, empty, out) = (scratch.word("none"), scratch.word("empty"), scratch.word("letters.sqlite"));
    fs::create_dir(&empty).unwrap();
    let run = odif(&["catalog", &none, "-o", &out]);
    assert!(run.status == 2 && run.stderr.contains("none: No such file"), "{}", run.stderr);
    assert_eq!(odif(&["catalog", &empty, "-o", &out, "--prune"]).status, 2);
    assert!(fs::read(&out).unwrap() == before);
    let run = odif(&["catalog", &empty, "-o", &out]);
    assert_eq!(
        (run.status, run.text().contains("4 gone, with their rows")),
        (1, true),
        "an empty mount point: {}",
        run.text()
    );
    assert_eq!(ask(Path::new(&out), "SELECT count(*) FROM lines"), ["3"]);
}

#[test]
fn what_is_in_a_folder_that_can_not_be_read_stays() {
    let scratch = archive("catalog-unseen");
    catalog(&scratch, &[]);
    // Even root can't list what is no folder any more.
    fs::rename(scratch.path("in/b"), scratch.path("b")).unwrap();
    symlink("b", scratch.path("in/b")).unwrap();
    let run = catalog(&scratch, &["--prune"]);
    assert!(
        run.status == 2 && run.text().contains("2 in folders that can't be read, with their rows still here"),
        "{}",
        run.text()
    );
    assert_eq!(ask(&scratch.path("letters.sqlite"), "SELECT count(*) FROM letters WHERE outcome = 'unseen'"), ["2"]);
}

/// A row that someone altered is as good as none.
#[test]
fn altered_rows_are_made_again() {
    let scratch = archive("catalog-altered");
    let out = scratch.path("letters.sqlite");
    catalog(&scratch, &[]);
    let before = fs::read(&out).unwrap();
    for alter in [
        "UPDATE lines SET text = 'another text' WHERE letter = 1",
        "UPDATE lines SET page = 9 WHERE letter = 1",
        "DELETE FROM lines WHERE letter = 1",
        "INSERT INTO lines SELECT 99, letter, page, element, block, portion, unit, first, past, in_pieces, text FROM lines WHERE letter = 1",
        "UPDATE letters SET date = '1999-01-01' WHERE id = 1",
        "UPDATE letters SET outcome = 'refused' WHERE id = 1",
        "UPDATE letters SET normal_sha256 = '' WHERE id = 1",
    ] {
        Connection::open(&out).unwrap().execute(alter, []).unwrap();
        let run = catalog(&scratch, &[]);
        assert!(run.text().ends_with("\n3 were done before\n"), "{alter}: {}", run.text());
        assert!(fs::read(&out).unwrap() == before, "{alter}");
    }
}

#[test]
fn what_is_no_catalog_is_not_written_over() {
    let scratch = archive("catalog-other");
    let out = scratch.path("letters.sqlite");
    for octets in [&b"a file of someone"[..], b""] {
        fs::write(&out, octets).unwrap();
        let run = catalog(&scratch, &[]);
        assert!(run.status == 2 && run.stderr.contains("this is no catalog; move it away"), "{}", run.stderr);
        assert_eq!(fs::read(&out).unwrap(), octets);
    }
    fs::remove_file(&out).unwrap();
    Connection::open(&out).unwrap().execute("CREATE TABLE x (y)", []).unwrap();
    assert!(catalog(&scratch, &[]).stderr.contains("this is no catalog"));
    assert_eq!(ask(&out, "SELECT count(*) FROM x"), ["0"]);
}

/// A journal of someone who writes to the catalog would be taken for the new one's.
#[test]
fn who_writes_to_it_is_waited_for() {
    let scratch = archive("catalog-journal");
    catalog(&scratch, &[]);
    let before = fs::read(scratch.path("letters.sqlite")).unwrap();
    scratch.write("letters.sqlite-journal", b"x");
    let run = catalog(&scratch, &[]);
    assert!(run.status == 2 && run.stderr.contains("some other program writes to the catalog"), "{}", run.stderr);
    assert!(fs::read(scratch.path("letters.sqlite")).unwrap() == before);
}

#[test]
fn it_keeps_its_permissions_and_is_no_letter_of_its_own_archive() {
    let scratch = archive("catalog-place");
    let (archive, out) = (scratch.word("in"), scratch.word("in/letters.sqlite"));
    odif(&["catalog", &archive, "-o", &out]);
    fs::set_permissions(&out, fs::Permissions::from_mode(0o640)).unwrap();
    let run = odif(&["catalog", &archive, "-o", &out]);
    assert!(run.text().starts_with("4 files\n"), "{}", run.text());
    assert_eq!(fs::metadata(&out).unwrap().permissions().mode() & 0o777, 0o640);
    assert!(scratch.names().iter().all(|name| !name.contains("odif-part")));
    assert_eq!(odif(&["catalog", &archive, "-o", "/dev/null"]).status, 2);
}

/// Lists of one archive, each with its catalog, give together that of the archive.
#[test]
fn catalogs_are_merged() {
    let scratch = archive("catalog-merge");
    catalog(&scratch, &[]);
    let [one, two, all] = ["one.sqlite", "two.sqlite", "all.sqlite"].map(|name| scratch.word(name));
    let archive = scratch.word("in");
    let list = |name: &str, files: [&str; 2]| {
        scratch.write(name, files.map(|file| format!("{archive}/{file}\n")).concat().as_bytes())
    };
    assert_eq!(odif(&["catalog", "--files-from", &list("one", ["b/same", "cut"]), "-o", &one]).status, 1);
    assert_eq!(odif(&["catalog", "--files-from", &list("two", ["a", "b/c"]), "-o", &two]).status, 0);
    let run = odif(&["catalog", "--merge", &one, &two, "-o", &all]);
    assert_eq!((run.status, run.text().starts_with("4 files\n3 letters\n")), (1, true), "{}", run.text());
    assert!(fs::read(&all).unwrap() == fs::read(scratch.path("letters.sqlite")).unwrap());
    assert_eq!(odif(&["catalog", "--merge", &all, &one, "-o", &all]).status, 1, "into one of them");
    assert!(fs::read(&all).unwrap() == fs::read(scratch.path("letters.sqlite")).unwrap());
    Connection::open(&one).unwrap().execute("UPDATE lines SET text = 'x'", []).unwrap();
    let run = odif(&["catalog", "--merge", &one, &two, "-o", &all]);
    assert!(run.status == 2 && run.stderr.contains("b/same: its row in"), "{}", run.stderr);
    assert_eq!(odif(&["catalog", "--merge", CLAIM, "-o", &all]).status, 2, "no catalog");
}

#[test]
fn names_of_any_octets() {
    use std::ffi::OsStr;
    use std::os::unix::ffi::OsStrExt;
    let scratch = Scratch::new("catalog-names");
    scratch.write("in/=cmd|calc.odif", &letter(b"calc"));
    scratch.write("in/a\nb", &letter(b"line end"));
    fs::write(scratch.path("in").join(OsStr::from_bytes(b"caf\xE9")), letter(b"octets")).unwrap();
    assert_eq!(catalog(&scratch, &[]).status, 0);
    let out = scratch.path("letters.sqlite");
    assert!(ask(&out, "SELECT file_octets FROM letters WHERE file_octets <> ''")[0].ends_with("636166E9"));
    assert!(catalog(&scratch, &[]).text().ends_with("\n3 were done before\n"));
}

#[test]
fn a_full_disk_leaves_the_one_of_before() {
    let scratch = archive("catalog-full");
    catalog(&scratch, &[]);
    let before = fs::read(scratch.path("letters.sqlite")).unwrap();
    scratch.write("in/long", &two_sided(&b"a word ".repeat(20_000), b""));
    let (archive, out) = (scratch.word("in"), scratch.word("letters.sqlite"));
    let run = limited(64, &["catalog", &archive, "-o", &out]);
    assert_eq!(run.status, 2, "{}", run.stderr);
    assert!(fs::read(&out).unwrap() == before);
    assert_eq!(scratch.names(), ["in", "letters.sqlite"]);
    File::open(&out).unwrap();
    assert_eq!(catalog(&scratch, &[]).status, 1);
}
