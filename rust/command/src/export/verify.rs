//! `odif export --verify`

use std::collections::HashSet;
use std::fs::File;
use std::io::{self, Write};
use std::path::{Path, PathBuf};

use super::earlier;
use super::folder::{self, JOURNAL, MANIFEST};
use super::line::{Became, Line};
use super::strangers::Strangers;
use super::text::{self, There};
use crate::pool::Pool;
use crate::progress::Progress;
use crate::status::{Failure, Outcome, Status};
use crate::{hash, show};

/// An export that is looked at.
struct Looked<'a> {
    out: &'a Path,
    /// Where the sources are, if that is known.
    archive: Option<PathBuf>,
}

/// What was found of a line: what differs, and whether its source is there.
struct Found {
    file: PathBuf,
    differs: Vec<String>,
    source: bool,
}

/// Hashes the texts and the sources again.
pub fn run(out: &Path, archive: Option<&Path>, jobs: Option<usize>) -> Outcome {
    let pool = Pool::new(jobs)?;
    let lock = folder::share(out)?;
    let noted = || lock.as_ref().and_then(folder::noted_archive);
    let looked = Looked { out, archive: archive.map(Path::to_path_buf).or_else(noted) };
    let Some(manifest) = earlier::manifest(out)? else {
        return Err(Failure::File(format!("{}: it has no {MANIFEST}", show::name(out.as_os_str()))));
    };
    let (lines, mut differences) = looked.lines(&manifest);
    let progress = Progress::over(lines.len());
    let mut sources = 0;
    let take_up = |_: &Line, found: Found| {
        progress.add(1);
        sources += usize::from(found.source);
        differences.extend(found.differs.iter().map(|what| tell(&found.file, what)));
        Ok(())
    };
    pool.in_order(&lines, |line| looked.at(line), take_up, |done| format!("after {}", show::counted(done, "line")))?;
    drop(progress);
    differences.extend(looked.strangers(&lines).iter().map(|file| tell(file, "it is no line's text")));
    report(lines.len(), sources, &differences)
}

fn report(lines: usize, sources: usize, differences: &[String]) -> Outcome {
    let mut text: String = differences.iter().map(|difference| format!("{difference}\n")).collect();
    let (lines, sources) = (show::counted(lines, "line"), show::counted(sources, "source"));
    text += &format!("{lines}, {sources} read again, {}\n", show::counted(differences.len(), "difference"));
    io::stdout().write_all(text.as_bytes())?;
    Ok(if differences.is_empty() { Status::Accepted } else { Status::Refused })
}

fn tell(file: &Path, what: &str) -> String {
    format!("{}: {what}", show::name(file.as_os_str()))
}

impl Looked<'_> {
    /// The lines of the manifest, and what differs in itself: lines that are damaged or there twice, and an unfinished run.
    fn lines(&self, manifest: &[u8]) -> (Vec<Line>, Vec<String>) {
        let lines: Vec<Line> = earlier::lines(manifest).collect();
        let all = csv::Reader::from_reader(manifest).into_byte_records().count();
        let names: HashSet<_> = lines.iter().map(Line::name).collect();
        let mut differences = Vec::new();
        if self.out.join(JOURNAL).exists() {
            differences.push(format!("{JOURNAL}: an export was interrupted here; run it again"));
        }
        if all > lines.len() {
            differences.push(format!("{MANIFEST}: damaged or altered: {}", show::counted(all - lines.len(), "line")));
        }
        if names.len() < lines.len() {
            differences.push(format!("{MANIFEST}: twice: {}", show::counted(lines.len() - names.len(), "file")));
        }
        (lines, differences)
    }

    /// Looks at the text and the source of a line.
    fn at(&self, line: &Line) -> Found {
        let file: PathBuf = line.name().system().unwrap_or_default().into();
        let mut differs: Vec<String> = text_differs(line, &text::place(self.out, &file)).into_iter().collect();
        let is_to_be_there = !matches!(line.outcome, Became::Gone | Became::Unseen | Became::Unreadable);
        let path = self.archive.as_ref().map(|archive| archive.join(&file)).filter(|_| is_to_be_there);
        let source = path.and_then(|path| File::open(path).ok());
        let is_there = source.is_some() && !line.sha256.is_empty();
        if let Some(source) = source.filter(|_| is_there) {
            differs.extend(source_differs(line, source));
        }
        Found { file, differs, source: is_there }
    }

    fn strangers(&self, lines: &[Line]) -> Vec<PathBuf> {
        let files = lines.iter().filter(|line| line.has_text()).filter_map(|line| line.name().system());
        let texts = files.map(|file| text::place(self.out, Path::new(&file)));
        // A name with `./` before it is found without.
        Strangers::find(self.out, texts.map(|text| text.components().collect()).collect()).strangers
    }
}

fn text_differs(line: &Line, place: &Path) -> Option<String> {
    match (There::at(place), line.has_text()) {
        (There::Nothing, true) => Some("its text is not there".into()),
        (There::Other, true) => Some("its text can't be read".into()),
        (there @ There::Text { .. }, true) if !line.tells_of(&there) => Some("its text has other octets".into()),
        _ => None,
    }
}

fn source_differs(line: &Line, source: File) -> Option<String> {
    match hash::of_rest(source) {
        Ok((octets, sha256)) if Some(octets) == line.octets && sha256 == line.sha256 => None,
        Ok(_) => Some("the source has other octets".into()),
        Err(error) => Some(format!("the source can't be read: {error}")),
    }
}
