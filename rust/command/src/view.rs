//! `odif view`
//!
//! The page is made of the files in the folder `view` at the repository's root, of the package for JavaScript, and of the
//! library as WebAssembly. Nothing in it is generated but the policy, which names the hashes of its style and script.

use std::ffi::{OsStr, OsString};
use std::io::{self, IsTerminal, Write};
use std::path::Path;

use clap::Args;
use odif::Edition;
use sha2::{Digest, Sha256};

use crate::asked::{By, Files};
use crate::input::{self, Source};
use crate::status::{Failure, Outcome, Status, tell};
use crate::{base64, beside, explain, hash};

const EXAMPLES: &str = "\
Examples:
  odif view samples/letters/dated.odif -o dated.html
  odif view --edition 1993 letter.odif -o letter.html
  odif view -o viewer.html

Exit status: 0 written; 1 written, and the letter was refused; 2 the letter could not be read or the page
not written.";

/// Writes a page that shows a letter beside its octets
///
/// Writes one HTML file that needs nothing else. It holds the letter's own octets and the proved reader as WebAssembly,
/// which reads the letter again each time the page is opened in a browser. It shows the verdict, the date and the text on one side and
/// the octets of the file on the other: a line lights up its octets, and an octet tells its line. A refused letter shows number
/// and sentence, and the place among the octets. Without a letter the page is a viewer: a file that is dropped on it is read
/// there, and leaves the machine never. A page cannot vouch for itself, since who forges it forges its check too: one from
/// an unknown hand is for saving the letter, and opening that in a viewer of one's own.
#[derive(Args)]
#[command(after_help = EXAMPLES)]
pub struct Words {
    /// The letter; `-` is standard input
    #[arg(value_name = "FILE")]
    file: Option<OsString>,
    /// The page to write; `-` is standard output
    #[arg(short, value_name = "OUT")]
    out: OsString,
    /// The file is hexadecimal digits in pairs, with white space between pairs
    #[arg(long)]
    hex: bool,
    #[command(flatten)]
    by: By,
}

/// The reader, `odif.wasm`; empty where the command was built without it.
const READER: &[u8] = include_bytes!(env!("ODIF_READER"));

const PAGE: &str = include_str!("../../../view/page.html");
const STYLE: &str = include_str!("../../../view/page.css");

/// The modules of the script, each before those that need it when they begin.
const MODULES: [&str; 13] = [
    include_str!("../../../portable/odif.mjs"),
    include_str!("../../../js/questions.js"),
    include_str!("../../../js/index.js"),
    include_str!("../../../view/words.js"),
    include_str!("../../../view/state.js"),
    include_str!("../../../view/characters.js"),
    include_str!("../../../view/letter.js"),
    include_str!("../../../view/octets.js"),
    include_str!("../../../view/lines.js"),
    include_str!("../../../view/selecting.js"),
    include_str!("../../../view/choosing.js"),
    include_str!("../../../view/facts.js"),
    include_str!("../../../view/page.js"),
];

pub fn run(words: &Words) -> Outcome {
    if READER.is_empty() {
        let message = "this command was built without the reader that the page holds: run `portable/build wasm32 \
            target/portable/wasm32` at the repository's root, and build the command again";
        return Err(Failure::File(message.into()));
    }
    if words.out == "-" && io::stdout().is_terminal() {
        return Err(Failure::Usage("a page is not for a terminal: give `-o OUT`".into()));
    }
    let Some(file) = &words.file else {
        write(&words.out, &page(""))?;
        return Ok(Status::Accepted);
    };
    if is_same_file(file, &words.out) {
        return Err(Failure::Usage("the page would be written over the letter: give another name with `-o`".into()));
    }
    let files = Files { names: vec![file.clone()], files_from: None, null: false, hex: words.hex, by: words.by };
    if files.list()?.len() != 1 {
        return Err(Failure::Usage("a page shows one letter: give a file, and no folder".into()));
    }
    input::each(&files, false, |source| {
        write(&words.out, &page(&letter(source)))?;
        match odif::check_in(source.edition, &source.stream).verdict {
            Ok(_) => Ok(Status::Accepted),
            Err(refusal) => {
                tell(&explain::refusal(source, &refusal));
                Ok(Status::Refused)
            }
        }
    })
}

fn is_same_file(file: &OsStr, out: &OsStr) -> bool {
    let place = |name: &OsStr| Path::new(name).canonicalize().ok();
    file != "-" && out != "-" && place(file).is_some_and(|file| place(out) == Some(file))
}

fn write(out: &OsStr, page: &str) -> Result<(), Failure> {
    if out != "-" {
        return beside::write(Path::new(out), page.as_bytes());
    }
    let mut stdout = io::stdout().lock();
    stdout.write_all(page.as_bytes())?;
    Ok(stdout.flush()?)
}

/// The page with what it holds in the places that are named in braces.
fn page(letter: &str) -> String {
    let script = joined(&MODULES);
    let parts = [
        ("policy", policy(STYLE, &script)),
        ("style", STYLE.into()),
        ("letter", letter.into()),
        ("reader", base64::of(READER)),
        ("script", script),
    ];
    let mut page = String::new();
    let mut rest = PAGE;
    for (name, part) in &parts {
        let (before, after) =
            rest.split_once(&format!("{{{{{name}}}}}")).expect("the page has a place for each part, in this order");
        page += before;
        page += part;
        rest = after;
    }
    page + rest
}

/// The modules as one script: what they take from each other stands in it, so the lines that import go, and the words that
/// export.
fn joined(modules: &[&str]) -> String {
    let lines = modules.iter().flat_map(|module| module.lines());
    let lines = lines.filter(|line| !line.starts_with("import ") && !line.starts_with("export {"));
    lines.flat_map(|line| [line.strip_prefix("export ").unwrap_or(line), "\n"]).collect()
}

/// What the page may do: run its own script and its reader, and show its own style. It may connect to nothing, and turn no text
/// into markup.
fn policy(style: &str, script: &str) -> String {
    let hash = |text: &str| format!("'sha256-{}'", base64::of(&Sha256::digest(text)));
    format!(
        "default-src 'none'; script-src 'wasm-unsafe-eval' {}; style-src {}; base-uri 'none'; form-action 'none'; \
         require-trusted-types-for 'script'; trusted-types 'none'",
        hash(script),
        hash(style)
    )
}

/// The letter in the page. Of a longer file than a stream may be the beginning is enough to refuse it.
fn letter(source: &Source<'_>) -> String {
    let name = match Path::new(source.file).file_name() {
        Some(name) if source.file != "-" => name.to_string_lossy(),
        _ => "standard input".into(),
    };
    let edition = if source.edition == Edition::Of1988 { "1988" } else { "1993" };
    let size = source.size.unwrap_or(source.stream.len() as u64);
    let sha256 = if source.stream.len() as u64 == size { hash::of(&source.stream) } else { String::new() };
    format!(
        "<script type=\"text/plain\" id=\"letter\" data-name=\"{}\" data-size=\"{size}\" data-sha256=\"{sha256}\" \
         data-edition=\"{edition}\">{}</script>",
        in_attribute(&name),
        base64::of(&source.stream)
    )
}

/// Text that stays one attribute's value.
fn in_attribute(text: &str) -> String {
    let letter = |letter: char| match letter {
        '&' | '<' | '>' | '"' | '\'' | '\r' => format!("&#{};", u32::from(letter)),
        letter => letter.into(),
    };
    text.chars().map(letter).collect()
}

#[cfg(test)]
mod tests {
    use super::*;

    #[test]
    fn modules_become_one_script() {
        let modules =
            ["import { b } from './b.js';\nexport const a = b;\n", "export { a };\nexport function c() {\n}\n"];
        assert_eq!(joined(&modules), "const a = b;\nfunction c() {\n}\n");
    }

    /// Each module that is imported is there, and before nothing else is one of the files left out.
    #[test]
    fn every_module_is_there() {
        let imported = MODULES.iter().flat_map(|module| module.lines()).filter_map(|line| {
            line.strip_prefix("import ")?
                .split_once(" from './")
                .map(|(_, name)| name.trim_end_matches("';").to_string())
        });
        let names = ["odif.mjs", "questions.js", "index.js", "words.js", "state.js", "characters.js", "letter.js"];
        let names = names.into_iter().chain(["octets.js", "lines.js", "selecting.js", "choosing.js", "facts.js"]);
        let names: Vec<&str> = names.collect();
        assert_eq!(names.len() + 1, MODULES.len(), "and page.js");
        imported.for_each(|name| assert!(names.contains(&name.as_str()), "{name}"));
    }

    #[test]
    fn nothing_ends_the_script_or_the_style_early() {
        let script = joined(&MODULES).to_lowercase();
        assert!(!script.contains("</script") && !script.contains("<!--") && !STYLE.to_lowercase().contains("</"));
    }

    #[test]
    fn a_name_stays_in_its_attribute() {
        assert_eq!(in_attribute("\"><b>&'\r\u{202E}é"), "&#34;&#62;&#60;b&#62;&#38;&#39;&#13;\u{202E}é");
    }
}
