//! Help, the version, and misuse.

use std::path::PathBuf;
use std::process::Command;

use super::support::{CLAIM, CUT_SHORT, odif, repository};

#[test]
fn the_overview_names_every_subcommand() {
    for words in [&["--help"][..], &["-h"], &["help"]] {
        let run = odif(words);
        assert_eq!(run.status, 0);
        for name in [
            "check",
            "text",
            "tree",
            "normal",
            "make",
            "list",
            "order",
            "pages",
            "survey",
            "same",
            "export",
            "catalog",
            "grep",
            "profile",
            "trace",
            "view",
            "Examples:",
            "Exit status:",
        ] {
            assert!(run.text().contains(name), "{name}");
        }
    }
}

#[test]
fn every_subcommand_has_help_with_examples() {
    for name in [
        "check", "text", "tree", "normal", "make", "list", "order", "pages", "profile", "survey", "grep", "same",
        "export", "catalog", "trace", "view",
    ] {
        for words in [[name, "--help"], ["help", name]] {
            let run = odif(&words);
            assert_eq!(run.status, 0);
            assert!(run.text().contains(&format!("Usage: odif {name} ")), "{name}");
            assert!(run.text().contains("Examples:") && run.text().contains("Exit status:"), "{name}");
        }
    }
}

#[test]
fn the_version() {
    let run = odif(&["--version"]);
    let lines: Vec<&str> = run.text().lines().collect();
    assert_eq!((lines.len(), lines[0]), (6, concat!("odif ", env!("CARGO_PKG_VERSION"))));
    let folder = std::env::var_os("ODIF_LIB_DIR").map_or_else(|| repository().join("target/staticlib"), PathBuf::from);
    for (line, named, archive) in [(1, "library   ", "libodif.a"), (2, "desk      ", "libpm1.a")] {
        let hash = Command::new("sha256sum").arg(folder.join(archive)).output().unwrap().stdout;
        let hash = String::from_utf8(hash).unwrap();
        let compiled = match std::env::consts::ARCH {
            "x86_64" => String::new(),
            other => format!(", compiled for {other} from its module"),
        };
        assert_eq!(lines[line], format!("{named}{archive}, sha256 {}{compiled}", hash.split(' ').next().unwrap()));
    }
    assert!(lines[3].starts_with("reader    odif.wasm, sha256 "), "{}", run.text());
    assert!(lines[4].starts_with("commit    ") && lines[5].starts_with("toolchain "), "{}", run.text());
    assert_eq!(odif(&["-V"]).text().lines().count(), 1);
}

#[test]
fn completions_and_a_manual_page() {
    for shell in ["bash", "zsh", "fish"] {
        let run = odif(&["completions", shell]);
        assert!(run.status == 0 && run.text().contains("survey") && run.text().contains("files-from"), "{shell}");
    }
    assert_eq!(odif(&["completions", "none"]).status, 2);
    let run = odif(&["man"]);
    let version =
        concat!("\" \"odif ", env!("CARGO_PKG_VERSION"), "\" \"User Commands\"\n.SH NAME\nodif \\- Reads letters");
    assert!(run.text().starts_with(".TH ODIF 1 \"") && run.text().contains(version), "{}", run.text());
    for part in [
        ".SH odif survey\n",
        ".B \\-\\-files\\-from FILE\n",
        ".SH odif export\n",
        ".SH odif order\n",
        ".SH odif pages\n",
        ".SH odif profile\n",
        ".SH odif grep\n",
        ".SH odif catalog\n",
        ".SH odif trace\n",
        ".SH odif view\n",
        ".B \\-\\-offsets\n",
        ".B \\-\\-utf8[=SET]\n",
        "One of: auto (What the letter",
        ".SH JSON\n",
        ".SH REFUSAL NUMBERS\n.TP\n.B 1\n",
        ".TP\n.B 28\na block is past the total",
        ".TP\n.B 30\n",
        "Exit status: 0 all were",
    ] {
        assert!(run.text().contains(part), "{part}");
    }
    let odd = run.text().lines().filter(|line| line.starts_with('.'));
    let known = [".TH", ".SH", ".TP", ".B", ".PP", ".nf", ".fi"];
    assert!(odd.map(|line| line.split(' ').next().unwrap()).all(|request| known.contains(&request)));
}

#[test]
fn misuse_is_told() {
    for (words, message) in [
        (&[][..], "Usage: odif"),
        (&["read"], "'read' wasn't recognized"),
        (&["check"], "<FILE>..."),
        (&["check", "--jason", CLAIM], "Did you mean '--json'?"),
        (&["text"], "<FILE>..."),
        (&["text", "--json", CLAIM], "--offsets"),
        (&["text", "--offsets", "--raw", CLAIM], "cannot be used with"),
        (&["trace"], "<FILE>..."),
        (&["trace", "--line", "0", CLAIM], "a number from 1"),
        (&["trace", "--at", "x", CLAIM], "invalid digit"),
        (&["trace", "--at", "1", "--line", "1", CLAIM], "cannot be used with"),
        (&["text", "--raw", "--escape", CLAIM], "cannot be used with"),
        (&["normal", CLAIM, "-o"], "requires a value"),
        (&["normal", CLAIM, CUT_SHORT], "several letters need `--into FOLDER`"),
        (&["normal", CLAIM, CLAIM, "--into", "."], "a file name of its own"),
        (&["order"], "<FILE>..."),
        (&["order", "--class", "C", CLAIM], "'C' isn't a valid value"),
        (&["pages"], "<FILE>..."),
        (&["survey"], "folder is missing"),
        (&["survey", "-"], "not at standard input"),
        (&["survey", "--jobs", "0", "samples"], "a number from 1"),
        (&["survey", "--jobs=many", "samples"], "a number from 1"),
        (&["survey", "--only", "x", "samples"], "Invalid value 'x'"),
        (&["survey", "--merge", "a.csv", "--files-from", "b"], "cannot be used with"),
        (&["help", "read"], "'read' wasn't recognized"),
        (&["check", "-0", CLAIM], "--files-from <LIST>"),
        (&["check", "-", "--files-from", "-"], "standard input can be read once"),
        (&["text", "--page", "0", CLAIM], "a number from 1"),
        (&["text", "--form-feeds", "--raw", CLAIM], "cannot be used with"),
        (&["profile"], "<FILE>..."),
        (&["grep"], "<PATTERN>"),
        (&["grep", "a"], "folder is missing"),
        (&["grep", "(", "samples"], "unclosed group"),
        (&["catalog", "samples"], "-o <OUT>"),
        (&["catalog", "-o", "x.sqlite"], "folder is missing"),
        (&["catalog", "--merge", "a.sqlite", "--prune", "-o", "x.sqlite"], "cannot be used with"),
        (&["export", "samples", "x", "--files-from", "a", "--verify", "y"], "cannot be used with"),
    ] {
        let run = odif(words);
        assert_eq!(run.status, 2, "{words:?}");
        assert!(run.stderr.contains(message), "{words:?}: {}", run.stderr);
        assert!(run.stdout.is_empty(), "{words:?}");
    }
}

/// `--utf8` takes its value behind an equals sign alone, so no completion offers one as the next word.
#[test]
fn the_completions_are_as_the_parser_is() {
    let script = odif(&["completions", "bash"]);
    let program = format!(
        "{}\nCOMP_WORDS=(odif text --utf8 ''); COMP_CWORD=3; _odif odif; echo \"${{COMPREPLY[@]}}\"",
        script.text()
    );
    let output = Command::new("bash").args(["-c", &program]).output().unwrap();
    let offered = String::from_utf8(output.stdout).unwrap();
    assert!(offered.contains("--utf8") && offered.contains("--strict") && !offered.contains("t61"), "{offered}");
    for shell in ["zsh", "fish"] {
        let script = odif(&["completions", shell]);
        assert!(script.text().contains("utf8") && !script.text().contains("t61"), "{shell}");
    }
    assert!(odif(&["text", "--utf8", "t61", CLAIM]).stderr.contains("t61: No such file"));
}

#[test]
fn help_on_a_number_and_on_json() {
    let run = odif(&["help", "7"]);
    assert_eq!((run.status, run.text().starts_with("7: a header, a value or a closing mark passes")), (0, true));
    assert!(odif(&["help", "json"]).text().contains("NAME_hex always has all octets"));
    assert_eq!(odif(&["help", "99"]).status, 2);
}
