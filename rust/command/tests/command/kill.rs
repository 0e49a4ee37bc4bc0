//! Exports that are killed by SIGKILL at random moments, with the same words and with others, over an archive that changes
//! in between: then one runs to its end, and is held against a fresh export, octet by octet.
//!
//! Whatever the moment of a kill, what it leaves is judged: each text must be that of a line in the manifest or the journal.

use std::collections::{BTreeMap, BTreeSet};
use std::ffi::OsStr;
use std::fs;
use std::os::unix::ffi::{OsStrExt, OsStringExt};
use std::path::{Path, PathBuf};
use std::time::Instant;

use sha2::{Digest, Sha256};

use super::killing::{Killing, Trial};
use super::support::{Run, letter, letter_of_1993, odif, two_sided};

/// So long it runs in the gate.
const SECONDS: u64 = 20;

/// Words that give other texts, or none, of some of the letters.
const WORDS: [&[&str]; 6] =
    [&[], &["--logical"], &["--edition", "1993"], &["--utf8"], &["--hex"], &["--logical", "--utf8=latin1"]];

#[test]
fn killed_exports_are_gone_on_with() {
    Exports::new().kill_for(SECONDS);
}

struct Exports {
    killing: Killing,
}

impl Trial for Exports {
    const FILES: usize = 100;
    const FOLDERS: &[&str] = &["a", "b", "b/c", "d.txt"];

    fn killing(&mut self) -> &mut Killing {
        &mut self.killing
    }

    fn letter(number: usize, text: &str) -> Vec<u8> {
        match number % 7 {
            0 => two_sided(text.as_bytes(), text.to_uppercase().as_bytes()),
            1 => letter_of_1993(text.as_bytes()),
            2 => letter(format!("{text}, M\u{C8}\u{81}").as_bytes()),
            3 => letter(text.as_bytes()).iter().map(|octet| format!("{octet:02X}")).collect::<String>().into_bytes(),
            4 => letter(text.as_bytes())[..40].to_vec(),
            5 => two_sided(text.repeat(1_000).as_bytes(), b""),
            _ => letter(text.as_bytes()),
        }
    }

    /// Starts an export with some words, and kills it.
    fn kill_one(&mut self) {
        let (words, jobs) = (self.killing.of(&WORDS), self.killing.of(&["1", "2", "3"]));
        let prune: &[&str] = if self.killing.below(4) == 0 { &["--prune"] } else { &[] };
        let words = self.words("out", &[words, &["--jobs", jobs], prune].concat());
        let words: Vec<&str> = words.iter().map(String::as_str).collect();
        self.killing.kill(&words);
        self.judge_what_is_left();
    }

    /// Some export runs to its end, with the letters that are gone or without, and is compared; then again with these words,
    /// so that a letter that was changed in between, and a text that was damaged, are ones that were done before.
    fn run_to_the_end(&mut self) {
        let (words, prune) = (self.killing.of(&WORDS), self.killing.below(2) == 0);
        if self.killing.below(2) == 0 {
            self.damage_a_text();
        }
        self.run_and_compare(words, prune);
        self.change_archive();
        self.damage_a_text();
        self.run_and_compare(words, prune);
    }
}

impl Exports {
    fn new() -> Exports {
        let killing = Killing::new::<Exports>("kill");
        let scratch = &killing.scratch;
        // Names that are cells a spreadsheet would run, that are no UTF-8, and a letter beside the folder of its text.
        scratch.write("in/=cmd|calc.odif", &letter(b"calc"));
        scratch.write("in/clash", &letter(b"beside the folder"));
        scratch.write("in/clash.txt/inner", &letter(b"in the folder"));
        fs::write(scratch.path("in").join(OsStr::from_bytes(b"caf\xE9")), letter(b"caf\xC2e")).unwrap();
        Exports { killing }
    }

    fn words(&self, out: &str, more: &[&str]) -> Vec<String> {
        let words = ["export".into(), self.killing.scratch.word("in"), self.killing.scratch.word(out)];
        words.into_iter().chain(more.iter().map(|word| word.to_string())).collect()
    }

    /// Each text is that of a line, in the manifest or in the journal.
    fn judge_what_is_left(&self) {
        let out = self.killing.scratch.path("out");
        let rows = [rows(&out, "manifest.csv"), rows(&out, "manifest.part")].concat();
        let told: BTreeSet<_> = rows.iter().map(|row| (row.text(), row.get("text_sha256"))).collect();
        for (text, octets) in texts(&out) {
            assert!(told.contains(&(text.clone(), sha256(&octets))), "{text:?} is no line's");
        }
    }

    fn run_and_compare(&mut self, words: &[&str], prune: bool) {
        let begun = Instant::now();
        let run = self.run("out", words, prune);
        self.killing.took(begun);
        let _ = fs::remove_dir_all(self.killing.scratch.path("fresh"));
        let fresh = self.run("fresh", words, false);
        if prune {
            self.compare_all(words);
        } else {
            self.compare_what_is_there(words);
        }
        assert_eq!(report(&run), report(&fresh), "{words:?} {}", run.stderr);
        let gone = !prune && run.text().contains("gone from the archive");
        assert!(run.status == if gone { fresh.status.max(1) } else { fresh.status }, "{}", run.stderr);
        self.killing.compared += 1;
    }

    fn run(&self, out: &str, words: &[&str], prune: bool) -> Run {
        let prune: &[&str] = if prune { &["--prune"] } else { &[] };
        let words = self.words(out, &[words, prune].concat());
        odif(&words.iter().map(String::as_str).collect::<Vec<_>>())
    }

    /// Alters a bit of a text, or takes it away.
    fn damage_a_text(&mut self) {
        let out = self.killing.scratch.path("out");
        let texts: Vec<_> = texts(&out).into_iter().collect();
        if texts.is_empty() {
            return;
        }
        let (name, mut octets) = texts[self.killing.below(texts.len())].clone();
        match octets.first_mut() {
            Some(first) if self.killing.below(2) == 0 => {
                *first ^= 1;
                fs::write(out.join(name), octets).unwrap();
            }
            _ => fs::remove_file(out.join(name)).unwrap(),
        }
    }

    /// Every file is as in the fresh export, and there is no other: the manifest, the lock and the texts.
    fn compare_all(&self, words: &[&str]) {
        let [out, fresh] = ["out", "fresh"].map(|name| files(&self.killing.scratch.path(name)));
        let names = |files: &BTreeMap<PathBuf, Vec<u8>>| files.keys().cloned().collect::<Vec<_>>();
        assert_eq!(names(&out), names(&fresh), "{words:?}");
        let differs = out.iter().find(|(name, octets)| fresh[*name] != **octets);
        let shown = differs.map(|(name, octets)| (name, String::from_utf8_lossy(octets)));
        assert!(shown.is_none(), "{words:?} {shown:?}");
    }

    /// The lines of letters that are there are those of the fresh export; every text has one line, with its hash.
    fn compare_what_is_there(&self, words: &[&str]) {
        let [out, fresh] = ["out", "fresh"].map(|name| rows(&self.killing.scratch.path(name), "manifest.csv"));
        let (gone, there): (Vec<_>, Vec<_>) = out.iter().partition(|row| row.get("outcome") == "gone");
        assert!(there.into_iter().eq(&fresh), "{words:?}");
        assert!(gone.iter().all(|row| !self.killing.scratch.path("in").join(row.name()).exists()), "{words:?}");
        let told = out.iter().filter(|row| !row.get("text_sha256").is_empty());
        let told: Vec<_> = told.map(|row| (row.text(), row.get("text_sha256"))).collect();
        let texts = texts(&self.killing.scratch.path("out"));
        let texts: BTreeSet<_> = texts.into_iter().map(|(text, octets)| (text, sha256(&octets))).collect();
        assert_eq!(told.len(), texts.len(), "{words:?}");
        assert_eq!(told.into_iter().collect::<BTreeSet<_>>(), texts, "{words:?}");
        assert!(
            !self.killing.scratch.path("out/manifest.part").exists()
                && !self.killing.scratch.path("out/.odif-export").exists()
        );
    }
}

/// What a run tells, but for what was done before and what is gone: these are not the fresh one's.
fn report(run: &Run) -> Vec<&str> {
    let is_its_own = |line: &&str| line.ends_with(" were done before") || line.contains("gone from the archive");
    run.text().lines().filter(|line| !is_its_own(line)).collect()
}

/// A row of a manifest or journal.
#[derive(Clone, PartialEq, Eq)]
struct Row(BTreeMap<String, String>);

impl Row {
    fn get(&self, column: &str) -> String {
        self.0[column].clone()
    }

    fn name(&self) -> PathBuf {
        let octets = self.get("file_octets");
        if octets.is_empty() {
            return Path::new(&self.get("file")).components().filter(|part| part.as_os_str() != ".").collect();
        }
        let octets = (0..octets.len()).step_by(2).map(|at| u8::from_str_radix(&octets[at..at + 2], 16).unwrap());
        PathBuf::from(std::ffi::OsString::from_vec(octets.collect()))
    }

    fn text(&self) -> PathBuf {
        let mut name = self.name().into_os_string();
        name.push(".txt");
        name.into()
    }
}

/// The rows of a file that is there; those that are cut are left out.
fn rows(out: &Path, name: &str) -> Vec<Row> {
    let octets = fs::read(out.join(name)).unwrap_or_default();
    let begin = if name == "manifest.part" { octets.iter().position(|&octet| octet == b'\n') } else { None };
    let mut rows = csv::Reader::from_reader(&octets[begin.map_or(0, |end| end + 1)..]);
    let columns: Vec<String> = rows.headers().unwrap().iter().map(String::from).collect();
    let whole = rows.records().filter_map(Result::ok).filter(|row| row.len() == columns.len());
    whole.map(|row| Row(columns.iter().cloned().zip(row.iter().map(String::from)).collect())).collect()
}

/// All files below a folder, with their octets.
fn files(folder: &Path) -> BTreeMap<PathBuf, Vec<u8>> {
    let found =
        walkdir::WalkDir::new(folder).into_iter().filter_map(Result::ok).filter(|found| found.file_type().is_file());
    let name = |path: &Path| path.strip_prefix(folder).unwrap().to_path_buf();
    found.map(|found| (name(found.path()), fs::read(found.path()).unwrap())).collect()
}

/// The files that are texts.
fn texts(out: &Path) -> BTreeMap<PathBuf, Vec<u8>> {
    let is_text = |name: &Path| name.extension().is_some_and(|extension| extension == "txt");
    files(out).into_iter().filter(|(name, _)| is_text(name)).collect()
}

fn sha256(octets: &[u8]) -> String {
    Sha256::digest(octets).iter().map(|octet| format!("{octet:02x}")).collect()
}
