//! Runs of the command that are killed by SIGKILL at random moments, over an archive that changes in between; then one runs to
//! its end, and is compared. What exports and catalogs have in common.
//!
//! `rust/test --kill MINUTES` runs it longer: it sets `ODIF_KILL_SECONDS`.

use std::fs::{self, File};
use std::os::unix::process::ExitStatusExt;
use std::path::PathBuf;
use std::process::Stdio;
use std::thread;
use std::time::{Duration, Instant, SystemTime};

use super::support::{Scratch, command};

/// What is killed, and held against a fresh one.
pub trait Trial: Sized {
    const FILES: usize;
    const FOLDERS: &[&str];

    fn killing(&mut self) -> &mut Killing;
    /// A letter of a kind that its number has.
    fn letter(number: usize, text: &str) -> Vec<u8>;
    /// Starts a run and kills it; what it leaves is judged.
    fn kill_one(&mut self);
    /// Some run to its end, which is compared.
    fn run_to_the_end(&mut self);

    /// Kills and compares for so many seconds in the gate.
    fn kill_for(&mut self, seconds: u64) {
        let seconds = std::env::var("ODIF_KILL_SECONDS").ok().and_then(|asked| asked.parse().ok()).unwrap_or(seconds);
        let end = Instant::now() + Duration::from_secs(seconds);
        println!("seed {}", self.killing().seed);
        while self.killing().compared == 0 || Instant::now() < end {
            for _ in 0..=self.killing().below(8) {
                if self.killing().below(2) == 0 {
                    self.change_archive();
                }
                self.kill_one();
            }
            self.run_to_the_end();
        }
        let Killing { killed, escaped, compared, .. } = self.killing();
        println!("{killed} killed, {escaped} ended before that, {compared} compared");
        assert!(*killed > 0, "no run was killed");
    }

    /// A letter is changed, taken away or brought back. A changed one keeps its length and gets its old time.
    fn change_archive(&mut self) {
        let number = self.killing().below(Self::FILES);
        let file = self.killing().file::<Self>(number);
        let modified = fs::metadata(&file).and_then(|about| about.modified());
        match (modified, self.killing().below(3)) {
            (Ok(_), 0) => fs::remove_file(file).unwrap(),
            (Ok(time), _) => {
                self.killing().write::<Self>(number);
                File::options().write(true).open(file).unwrap().set_modified(time).unwrap();
            }
            (Err(_), _) => self.killing().write::<Self>(number),
        }
    }
}

/// The folder of a trial, and how it goes on.
pub struct Killing {
    pub scratch: Scratch,
    /// How many letters were written.
    version: usize,
    seed: u64,
    /// How long a run takes that is not killed.
    span: Duration,
    pub compared: usize,
    killed: usize,
    escaped: usize,
}

impl Killing {
    pub fn new<T: Trial>(name: &str) -> Killing {
        let since = SystemTime::now().duration_since(SystemTime::UNIX_EPOCH).unwrap();
        let (scratch, seed, span) = (Scratch::new(name), since.as_nanos() as u64 | 1, Duration::from_millis(100));
        let mut killing = Killing { scratch, version: 0, seed, span, compared: 0, killed: 0, escaped: 0 };
        (0..T::FILES).for_each(|number| killing.write::<T>(number));
        killing
    }

    fn file<T: Trial>(&self, number: usize) -> PathBuf {
        self.scratch.path("in").join(T::FOLDERS[number % T::FOLDERS.len()]).join(format!("{number}.odif"))
    }

    /// Writes the letter of this number, with a text that no other has.
    fn write<T: Trial>(&mut self, number: usize) {
        self.version += 1;
        let file = self.file::<T>(number);
        fs::create_dir_all(file.parent().unwrap()).unwrap();
        fs::write(file, T::letter(number, &format!("letter {number:03}, version {:07}", self.version))).unwrap();
    }

    /// Numbers that look random.
    pub fn below(&mut self, bound: usize) -> usize {
        self.seed ^= self.seed << 13;
        self.seed ^= self.seed >> 7;
        self.seed ^= self.seed << 17;
        (self.seed % bound as u64) as usize
    }

    pub fn of<T: Copy>(&mut self, some: &[T]) -> T {
        some[self.below(some.len())]
    }

    /// Starts the command, and kills it at some moment.
    pub fn kill(&mut self, words: &[&str]) {
        let moment = self.span.mul_f64(self.below(1_100) as f64 / 1_000.0);
        let mut child = command(words).stdout(Stdio::null()).stderr(Stdio::null()).spawn().unwrap();
        thread::sleep(moment);
        child.kill().unwrap();
        let status = child.wait().unwrap();
        assert!(status.signal() == Some(9) || status.code().is_some_and(|code| code <= 2), "{status:?}");
        *(if status.signal().is_some() { &mut self.killed } else { &mut self.escaped }) += 1;
    }

    /// A run that began then has ended, and was not killed.
    pub fn took(&mut self, begun: Instant) {
        self.span = begun.elapsed().max(Duration::from_millis(10));
    }
}
