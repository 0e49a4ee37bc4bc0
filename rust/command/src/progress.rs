//! How far a long run is, on a terminal.

use std::fmt::Write;
use std::time::Duration;

use indicatif::{ProgressBar, ProgressState, ProgressStyle};

use crate::show;

/// A line on standard error that is written over and over; nothing at all where that is no terminal.
pub struct Progress(ProgressBar);

impl Progress {
    /// Files are looked for.
    pub fn finding() -> Progress {
        Progress::new(ProgressBar::new_spinner(), "{human_pos} files found")
    }

    /// So many files are done one after another.
    pub fn over(files: usize) -> Progress {
        Progress::new(ProgressBar::new(files as u64), "{human_pos} of {human_len} files, {rate}, {eta} left{msg}")
    }

    fn new(bar: ProgressBar, template: &str) -> Progress {
        let style = ProgressStyle::with_template(template).expect("a template of this file");
        let write_rate = |state: &ProgressState, out: &mut dyn Write| {
            let _ = out.write_str(&rate(state.per_sec()));
        };
        bar.set_style(style.with_key("rate", write_rate));
        if !bar.is_hidden() {
            bar.enable_steady_tick(Duration::from_millis(200));
        }
        Progress(bar)
    }

    /// So many more files.
    pub fn add(&self, files: usize) {
        self.0.inc(files as u64);
    }

    /// What is said behind the counts.
    pub fn say(&self, message: impl FnOnce() -> String) {
        if !self.0.is_hidden() {
            self.0.set_message(message());
        }
    }
}

/// Files a second, a whole number where that says enough.
fn rate(files: f64) -> String {
    if files < 10.0 { format!("{files:.1} a second") } else { format!("{} a second", show::grouped(files as usize)) }
}

impl Drop for Progress {
    /// Takes the line away, however the run ends.
    fn drop(&mut self) {
        self.0.finish_and_clear();
    }
}

#[cfg(test)]
mod tests {
    use super::*;

    #[test]
    fn rates_are_short() {
        assert_eq!(rate(462.0807), "462 a second");
        assert_eq!(rate(39_281.7), "39,281 a second");
        assert_eq!(rate(0.27), "0.3 a second");
    }
}
