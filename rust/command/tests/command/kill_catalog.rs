//! Catalogs that are killed by SIGKILL at random moments, with the same words and with others, over an archive that changes in
//! between. Whatever the moment, what stands in the place is octet by octet the catalog of a run that ended; and one that
//! then runs to its end is held against a fresh one, octet by octet.

use std::fs;
use std::time::Instant;

use super::killing::{Killing, Trial};
use super::support::{letter, odif, two_sided};

/// So long it runs in the gate.
const SECONDS: u64 = 10;

const WORDS: [&[&str]; 4] = [&[], &["--logical"], &["--edition", "1993"], &["--utf8=latin1"]];

#[test]
fn a_catalog_is_that_of_a_run_that_ended() {
    Catalogs::new().kill_for(SECONDS);
}

struct Catalogs {
    killing: Killing,
    /// The catalog of the last run that is known to have ended.
    before: Option<Vec<u8>>,
}

impl Trial for Catalogs {
    const FILES: usize = 150;
    const FOLDERS: &[&str] = &["a", "b", "b/c"];

    fn killing(&mut self) -> &mut Killing {
        &mut self.killing
    }

    fn letter(number: usize, text: &str) -> Vec<u8> {
        let text = format!("{text}, M\u{C8}\u{81}");
        match number % 4 {
            0 => two_sided(text.as_bytes(), text.to_uppercase().as_bytes()),
            1 => letter(text.as_bytes())[..40].to_vec(),
            2 => two_sided(text.repeat(1_000).as_bytes(), b""),
            _ => letter(text.as_bytes()),
        }
    }

    /// Starts a catalog with some words, and kills it. What stands there is what was there, or what the run made.
    fn kill_one(&mut self) {
        let (words, jobs) = (self.killing.of(&WORDS), self.killing.of(&["1", "2", "3"]));
        let prune: &[&str] = if self.killing.below(2) == 0 { &["--prune"] } else { &[] };
        let words = self.words("letters.sqlite", &[words, &["--jobs", jobs], prune].concat());
        let words: Vec<&str> = words.iter().map(String::as_str).collect();
        // What the run would make of what is there, if it ends.
        let twin = self.killing.scratch.path("twin.sqlite");
        let _ = fs::remove_file(&twin);
        if let Some(before) = &self.before {
            fs::write(&twin, before).unwrap();
        }
        self.killing.kill(&words);
        if self.there() != self.before {
            let twin = twin.to_str().unwrap().to_string();
            let words: Vec<&str> =
                words.iter().map(|word| if word.ends_with("letters.sqlite") { &twin } else { *word }).collect();
            odif(&words);
            assert!(self.there() == fs::read(&twin).ok(), "it is no run's that ended");
            self.before = self.there();
        }
    }

    /// Some catalog runs to its end, without the letters that are gone, and is compared.
    fn run_to_the_end(&mut self) {
        let words = self.killing.of(&WORDS);
        if self.killing.below(2) == 0 && self.before.is_some() {
            let connection = rusqlite::Connection::open(self.killing.scratch.path("letters.sqlite")).unwrap();
            connection.execute("UPDATE lines SET text = text || '.' WHERE id % 7 = 1", []).unwrap();
        }
        let begun = Instant::now();
        let run = self.run("letters.sqlite", words);
        self.killing.took(begun);
        let _ = fs::remove_file(self.killing.scratch.path("fresh.sqlite"));
        let fresh = self.run("fresh.sqlite", words);
        assert_eq!((run.0, &run.1[..4]), (fresh.0, &fresh.1[..4]), "{words:?}");
        assert!(self.there() == fs::read(self.killing.scratch.path("fresh.sqlite")).ok(), "{words:?}");
        self.before = self.there();
        self.killing.compared += 1;
    }
}

impl Catalogs {
    fn new() -> Catalogs {
        Catalogs { killing: Killing::new::<Catalogs>("kill-catalog"), before: None }
    }

    fn words(&mut self, out: &str, more: &[&str]) -> Vec<String> {
        let words = ["catalog".into(), self.killing.scratch.word("in"), "-o".into(), self.killing.scratch.word(out)];
        words.into_iter().chain(more.iter().map(|word| word.to_string())).collect()
    }

    fn there(&self) -> Option<Vec<u8>> {
        fs::read(self.killing.scratch.path("letters.sqlite")).ok()
    }

    fn run(&mut self, out: &str, words: &[&str]) -> (i32, Vec<String>) {
        let words = self.words(out, &[words, &["--prune"]].concat());
        let run = odif(&words.iter().map(String::as_str).collect::<Vec<_>>());
        assert!(run.status <= 1, "{}", run.stderr);
        (run.status, run.text().lines().map(String::from).collect())
    }
}
