//! `--edition`, of each subcommand that reads letters.

use super::support::{CLAIM, Scratch, letter, odif, odif_with};

/// A block with two portions, their units, one tiled and one without content, and two protected parts.
const OF_1993: &[u8] = b"\xA0\x00\
    \xA2\x0D\x31\x0B\x41\x011\xA1\x06\x12\x010\x12\x011\
    \xA3\x0F\x31\x05\x40\x031 0\x30\x06\x04\x01H\x04\x01i\
    \xA3\x07\x31\x05\x40\x031 1\
    \xA9\x07\x47\x011\x03\x02\x07\x80\
    \xAB\x80\x47\x011\x04\x02\xDE\xAD\x00\x00";

/// An enciphered profile, which alone makes a letter one of 1993.
const PROTECTED: &[u8] = b"\xA0\x00\xAA\x05\x47\x011\x04\x00";

#[test]
fn a_protected_part_makes_it_a_letter_of_1993() {
    let run = odif_with(&["check", "-"], PROTECTED);
    assert_eq!(run.status, 1);
    let wanted = "standard input: refused, number 10 at octet 2: element 1 (counted from 0), an enciphered document \
        profile: this is an element of 1993, and no letter of 1988 has it\n  this is an element of 1993, and `--edition 1993` accepts the letter\n";
    assert!(run.text().starts_with(wanted), "{}", run.text());
    for octet in [0xA9, 0xAA, 0xAB, 0xAC] {
        let run = odif_with(&["check", "--edition", "1988", "--json", "-"], &[0xA0, 0x00, octet, 0x00]);
        let hint = "this is an element of 1993, but `--edition 1993` refuses the letter too, number 12 at octet 2";
        assert!(run.text().contains(&format!("\"hint\":\"{hint}\"")), "{}", run.text());
    }
    for octet in [0xA4, 0xAD, 0x8A] {
        let run = odif_with(&["check", "-"], &[0xA0, 0x00, octet, 0x00]);
        assert!(run.text().contains("number 10 at octet 2: ") && !run.text().contains("1993"), "{}", run.text());
    }
}

#[test]
fn units_that_only_1993_has() {
    for unit in [&[0xA3, 0x00][..], &[0xA3, 0x02, 0x30, 0x00]] {
        let stream = [&[0xA0, 0x00], unit].concat();
        let run = odif_with(&["check", "-"], &stream);
        assert!(
            run.text().contains("\n  1993 has such text units, and `--edition 1993` accepts the letter\n"),
            "{}",
            run.text()
        );
        assert_eq!(odif_with(&["check", "--edition", "1993", "-"], &stream).status, 0);
        let run = odif_with(&["check", "-"], &[&stream[..], &[0xA4, 0x00]].concat());
        let place = stream.len();
        let hint = format!("but `--edition 1993` refuses the letter too, number 10 at octet {place}\n");
        assert!(run.text().contains(&hint), "{}", run.text());
    }
    let run = odif_with(&["check", "-"], &[0xA0, 0x00, 0xA3, 0x02, 0x05, 0x00]);
    assert!(run.text().contains("number 12 at octet 2") && !run.text().contains("1993"), "{}", run.text());
}

#[test]
fn check_names_the_protected_parts() {
    let run = odif_with(&["check", "--edition", "1993", "-"], OF_1993);
    let counts = "6 elements, 22 items, 63 octets; 1 sealed document profile, 1 pre-enciphered body part";
    assert_eq!(run.text(), format!("standard input: accepted, {counts}\n"));
    let run = odif_with(&["check", "--edition", "1993", "--json", "-"], OF_1993);
    assert!(
        run.text().ends_with(
            ",\"headers\":22,\"elements\":6,\"protected_parts\":2,\"date\":null,\"side\":\"layout\",\"not_shown\":[]}\n"
        ),
        "{}",
        run.text()
    );
    let run = odif_with(&["check", "--edition=1993", "-"], &[0xA0, 0x00, 0xAC, 0x02, 0x04, 0x00]);
    let wanted = "number 12 at octet 2: element 1 (counted from 0), a post-enciphered body part: ";
    assert!(run.status == 1 && run.text().contains(wanted), "{}", run.text());
}

#[test]
fn text_and_list() {
    let run = odif_with(&["text", "--edition", "1993", "-"], OF_1993);
    assert_eq!((run.status, run.text()), (0, "Hi\n"));
    let note = "odif: standard input: not opened: 1 sealed document profile, 1 pre-enciphered body part\n";
    assert_eq!(run.stderr, note);
    let run = odif_with(&["list", "--edition", "1993", "-"], OF_1993);
    let wanted = "element portion  unit  octets  identifier  content
      1       0     2       2  1 0         Hi
      1       1     3       0  1 1\n";
    assert_eq!((run.text(), run.stderr.as_str()), (wanted, note));
    assert_eq!(odif_with(&["text", "-"], OF_1993).status, 1);
    assert_eq!(odif_with(&["list", "-"], OF_1993).status, 1);
}

#[test]
fn the_tree_has_the_names_of_1993() {
    let run = odif_with(&["tree", "--edition", "1993", "-"], OF_1993);
    assert_eq!((run.status, run.stderr.as_str()), (0, ""));
    for remark in [
        "tiled content",
        "tile \"H\"",
        "element 4 sealed document profile",
        "sealed attributes 1 (generic-layout-structure)",
        "element 5 pre-enciphered body part",
        "protected-part identifier \"1\"",
        "enciphered information DEAD",
    ] {
        assert!(run.text().contains(&format!("  {remark}\n")), "{remark}: {}", run.text());
    }
    // enciphered [34], sealed [35] of an object, and its colour, which the editions name differently
    let object = b"A000 A211 310F BF2203 800101 BF2303 800100 960101";
    let run = odif_with(&["tree", "--hex", "-"], object);
    for remark in ["enciphered", "enciphered-subordinates 1 (all)", "sealed-status 0 (no)", "colour 1 (white)"] {
        assert!(run.text().contains(&format!("  {remark}\n")), "{remark}: {}", run.text());
    }
    let run = odif_with(&["tree", "--edition", "1993", "--hex", "-"], object);
    assert!(run.text().contains("  colour 1 (coloured)\n"), "{}", run.text());
}

#[test]
fn normal_forms() {
    let run = odif_with(&["normal", "--edition", "1993", "-"], OF_1993);
    assert_eq!((run.status, run.stdout.len()), (0, OF_1993.len() - 2));
    let run = odif_with(&["normal", "-"], PROTECTED);
    assert_eq!((run.status, run.stdout.len()), (1, 0));
    assert!(run.stderr.contains("this is an element of 1993, and `--edition 1993` accepts"), "{}", run.stderr);
}

#[test]
fn folders() {
    let scratch = Scratch::new("editions");
    scratch.write("in/new.odif", OF_1993);
    scratch.write("in/protected.odif", PROTECTED);
    scratch.write("in/old.odif", &letter(b"Hi"));
    let (folder, out) = (scratch.word("in"), scratch.word("out"));
    let run = odif(&["survey", &folder]);
    assert_eq!(run.status, 1);
    let line =
        "    1 file: enciphered document profile, item AA, this is an element of 1993, and no letter of 1988 has it\n";
    assert!(run.text().contains("1 accepted\n2 refused\n") && run.text().contains(line), "{}", run.text());
    assert_eq!(odif(&["survey", "--edition", "1993", &folder]).status, 0);
    let normal = odif_with(&["normal", "--edition", "1993", "-"], OF_1993).stdout;
    scratch.write("in/newer.odif", &normal);
    let run = odif(&["same", "--edition", "1993", &folder]);
    assert!(run.status == 1 && run.text().contains("1 the same as an earlier one, in 1 group\n0 refused\n"));
    assert!(odif(&["same", &folder]).text().contains("3 refused\n"));
    let run = odif(&["export", "--edition", "1993", &folder, &out]);
    assert!(run.status == 0 && run.text().starts_with("4 files\n4 with their text"), "{}", run.text());
    assert_eq!(std::fs::read(scratch.path("out/new.odif.txt")).unwrap(), b"Hi\n");
    // By the other edition nothing of it was done before.
    let run = odif(&["export", &folder, &out]);
    assert!(run.status == 1 && run.text().ends_with("3 refused\n0 unreadable\n0 were done before\n"), "{}", run.text());
    assert!(!scratch.path("out/new.odif.txt").exists());
}

#[test]
fn letters_of_1988_are_letters_of_1993() {
    for name in ["check", "text", "tree", "list", "normal"] {
        let [old, new] = ["1988", "1993"].map(|edition| odif(&[name, "--edition", edition, CLAIM]));
        assert_eq!((old.status, old.stdout), (new.status, new.stdout), "{name}");
    }
}

#[test]
fn no_other_edition() {
    let run = odif(&["check", "--edition", "1989", CLAIM]);
    assert_eq!(run.status, 2);
    assert!(run.stderr.contains("[possible values: 1988, 1993]"), "{}", run.stderr);
}
