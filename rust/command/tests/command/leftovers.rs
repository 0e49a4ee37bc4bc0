//! What a killed run leaves beside the file that it was writing.

use std::fs::{self, File};
use std::time::{Duration, SystemTime};

use super::support::{Scratch, letter, odif};

#[test]
fn a_survey_removes_what_a_dead_one_left() {
    let scratch = Scratch::new("leftovers");
    scratch.write("in/a", &letter(b"a"));
    let old = SystemTime::now() - Duration::from_secs(120);
    let [dead, locked, young, other] =
        [".x.csv.abcdef.odif-part", ".x.csv.locked.odif-part", ".x.csv.ghijkl.odif-part", ".y.csv.abcdef.odif-part"]
            .map(|name| scratch.write(&format!("out/{name}"), b"file,outc"));
    for leftover in [&dead, &locked, &other] {
        File::options().write(true).open(leftover).unwrap().set_modified(old).unwrap();
    }
    let lock = File::open(&locked).unwrap();
    lock.lock().unwrap();
    assert_eq!(odif(&["survey", &scratch.word("in"), "--csv", &scratch.word("out/x.csv")]).status, 0);
    assert!(!fs::exists(&dead).unwrap(), "no one writes it");
    assert!([&locked, &young, &other].into_iter().all(|file| fs::exists(file).unwrap()));
    assert_eq!(fs::read_dir(scratch.path("out")).unwrap().count(), 4, "nothing new but the file");
}
