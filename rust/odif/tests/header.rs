//! The C header with the archive: a C program compiles without a warning, links, and gets the right answers, on no more
//! stack than the header says.

use std::path::Path;
use std::process::{Command, Output};

use odif::Rule;

/// Compiles a C program of this folder with the header, its sentences and the archive, and runs it with these words.
fn run(name: &str, standard: &str, words: &[String]) -> Output {
    let folder = Path::new(env!("CARGO_MANIFEST_DIR"));
    let include = folder.join("../../include");
    let program = Path::new(env!("CARGO_TARGET_TMPDIR")).join(name);
    let compiled = Command::new("cc")
        .args([standard, "-Wall", "-Wextra", "-pedantic", "-Werror", "-I"])
        .arg(&include)
        .arg(folder.join("tests").join(name).with_extension("c"))
        .arg(include.join("odif_sentence.c"))
        .arg(env!("ODIF_ARCHIVE"))
        .arg("-o")
        .arg(&program)
        .output()
        .expect("a C compiler");
    assert!(compiled.status.success(), "{}", String::from_utf8_lossy(&compiled.stderr));
    Command::new(&program).args(words).output().unwrap()
}

#[test]
fn a_c_program_over_the_header() {
    let output = run("header", "-std=c99", &[]);
    let wanted = "check 0 0 11 3
0 255 0 2 0 0 0 0 0 0 0 0 65535 2 4 2 21 11 16 0 0 18 21 0 0 65535 3 255 21 38 27 34 0 0 0 0 36 38 65535 4008636142 
layout 0 0 3 1: 1 0 2
logical 0 0 3 0
content 0 0 Hi
joined 0 0 2 Hi..
too short 22 0 0
normal 0 0 38 same
short normal 0 0 38 same
date 0 0 8 18 1988 6 5
no date 23 0
first date 0 0 8 18 1988 6 5 1
make 0 0 38 same .
made twice 15 1 0
utf8 0 0 12 1 Mül⟦E5⟧.
utf8, too short 18 0 0 0
empty 11 0
short 16 0 11 0
1988 12 2
1993 0 0 9 4
0 0 0 3 6 12 3 0 0 10 21 23 
lists 0 4 0 4
20 0 0 20 0
21 0 0 0 2
0 0 0 0 0
20 0 0 20 0
20 0 0 20 0
normal 0 23 0 23
layout text 0 0 3 1 2: 1 0 2 0 2 Hi..
logical text 0 0 3 0 0
too few lines 19 0 3 0 0
too short a text 22 0 0 0 0
text 1993 0 4 0 0 4 0
sources 0 0 1 1 31 0 0 0 0 0 0 0 0 0 0 0 0 0 0 0: 0 36 38, 9
children 0 0 4 2: 1 3
none 20 0 0 0
too few 25 0 4 0
order 0 0 0 0 26 21 26 21 12 2 12 2 26 2 26 2
";
    assert_eq!(String::from_utf8_lossy(&output.stdout), wanted);
}

#[test]
fn the_sentences_and_the_version_are_those_of_this_crate() {
    let numbers = std::iter::once(0).chain(Rule::ALL.map(Rule::number)).chain([99]);
    let output = run("sentences", "-std=c99", &numbers.map(|number| number.to_string()).collect::<Vec<_>>());
    let text = String::from_utf8(output.stdout).unwrap();
    let mut lines = text.lines();
    let parts = env!("CARGO_PKG_VERSION").split('.').map(|part| part.parse::<u32>().unwrap());
    let number = parts.fold(0, |number, part| 100 * number + part);
    let version = env!("CARGO_PKG_VERSION");
    assert_eq!(lines.next().unwrap(), format!("{version} {number} {version}"));
    assert_eq!(lines.next(), Some("accepted"));
    for rule in Rule::ALL {
        assert_eq!(lines.next(), Some(rule.sentence()), "{}", rule.number());
    }
    assert_eq!(lines.collect::<Vec<_>>(), ["a rule that is newer than this program"]);
}

/// The header tells C that lent parts do not overlap, and gcc warns where it sees that they do. C++ has no such word.
#[test]
fn a_call_whose_parts_overlap_is_warned_of() {
    let compile = |language: &str, out: &str| {
        let source = format!(
            "#include \"odif.h\"\nuint8_t stream[8], other[8];\n\
             int main() {{ return (int)odif_normal(stream, 8, {out}, 8).number; }}\n"
        );
        let file = Path::new(env!("CARGO_TARGET_TMPDIR")).join(format!("overlap-{out}.{language}"));
        std::fs::write(&file, source).unwrap();
        let include = Path::new(env!("CARGO_MANIFEST_DIR")).join("../../include");
        let mut gcc = Command::new("gcc");
        gcc.args(["-Wall", "-fsyntax-only", "-I"]).arg(include).arg(file).output().expect("gcc")
    };
    for (language, out, warns) in [("c", "stream", true), ("c", "other", false), ("cpp", "stream", false)] {
        let output = compile(language, out);
        let said = String::from_utf8_lossy(&output.stderr);
        assert!(output.status.success(), "{said}");
        assert_eq!(said.contains("[-Wrestrict]"), warns, "{language}, {out}: {said}");
    }
}

#[test]
fn no_more_stack_than_the_header_says() {
    let output = run("stack", "-std=gnu99", &[]);
    let told = String::from_utf8_lossy(&output.stdout);
    assert!(output.status.success(), "{told}");
    assert_eq!(told.lines().count(), 35, "{told}");
}
