//! `odif tree`

use std::process::Command;

use super::support::{Scratch, assert_unreadable_json, letter, odif, odif_with, repository};

#[test]
fn items_with_their_names() {
    let run = odif_with(&["tree", "-"], &letter(b"Hi"));
    assert_eq!(run.status, 0);
    let wanted = "  offset level  item
       0     1  context 0 constructed                length 0           element 0 document profile
       2     1  context 2 constructed                length 17          element 1 layout object
       4     2    INTEGER                            length 1           object type 4 (block)
       7     2    SET constructed                    length 12          descriptor-body
       9     3      application 1                    length 5           identifier \"1 0 2\"
      16     3      context 1 constructed            length 3           portions
      18     4        NumericString                  length 1           portion \"0\"
      21     1  context 3 constructed                length 15          element 2 text unit
      23     2    SET constructed                    length 9           content-portion-attributes
      25     3      application 0                    length 7           layout identifier \"1 0 2 0\"
      34     2    OCTET STRING                       length 2           content \"Hi\"
";
    assert_eq!(run.text(), wanted);
}

#[test]
fn pieces_with_their_names() {
    let run = odif_with(&["tree", "--hex", "-"], b"A000 A30E 240C 040148 2405 2400 040169 2400 A303 040178");
    let names: Vec<&str> = run.text().lines().skip(2).filter_map(|line| line.rsplit("  ").next()).collect();
    let pieces = ["content in pieces", "piece \"H\"", "pieces", "pieces", "piece \"i\"", "pieces"];
    assert_eq!(names, [&["element 1 text unit"], &pieces[..], &["element 2 text unit", "content \"x\""]].concat());
    let run = odif_with(&["tree", "--hex", "-"], b"A000 A30A 2408 3102 0400 2402 0500");
    assert_eq!(run.status, 1);
    let unnamed = run.text().lines().filter(|line| line.ends_with("length 0") || line.ends_with("length 2"));
    assert_eq!(unnamed.count(), 3, "{}", run.text());
}

#[test]
fn a_refused_stream_up_to_its_fault() {
    let run = odif_with(&["tree", "--hex", "-"], b"A080 3080 0101FF 0000 0500 0500");
    assert_eq!(run.status, 1);
    assert_eq!(run.text().lines().count(), 7);
    assert_eq!(run.text().matches("closing mark").count(), 1, "that of the 30, and none of the A0");
    assert!(run.text().contains("context 0 constructed                length indefinite"));
    assert!(run.stderr.contains("number 7 at octet 13: "), "{}", run.stderr);
    assert!(
        run.stderr
            .contains("number 7 at octet 13: the stream ends before the indefinite item A0, at octet 0, is closed\n"),
        "{}",
        run.stderr
    );
}

#[test]
fn closing_marks_long_lengths_and_bits() {
    let stream = b"A080 0000 A380 2480 0484000000024869 0000 0000 A782 0008 450131 030304A5F0 A900";
    let run = odif_with(&["tree", "--hex", "-"], stream);
    let wanted = "  offset level  item
       0     1  context 0 constructed                length indefinite  element 0 document profile
       2     1  closing mark
       4     1  context 3 constructed                length indefinite  element 1 text unit
       6     2    OCTET STRING constructed           length indefinite  content in pieces
       8     3      OCTET STRING                     length 2 in 5 octets  piece \"Hi\"
      16     2    closing mark
      18     1  closing mark
      20     1  context 7 constructed                length 8 in 3 octets  element 2 presentation style
      24     2    application 5                      length 1           identifier \"1\"
      27     2    BIT STRING                         length 3           101001011111
      32     1  context 9 constructed                length 0           element 3 sealed document profile
";
    assert_eq!(run.text(), wanted);
}

#[test]
fn json() {
    let run = odif_with(&["tree", "--json", "--hex", "-"], b"A080 0500 0000");
    let items = "{\"file\":\"-\",\"outcome\":\"accepted\",\"number\":0,\"place\":0,\"items\":[\
        {\"offset\":0,\"level\":1,\"class\":\"context\",\"number\":0,\"constructed\":true,\"header\":2,\
        \"length\":null,\"closing_mark\":4,\"element\":0,\"name\":\"document profile\"},\
        {\"offset\":2,\"level\":2,\"class\":\"universal\",\"number\":5,\"type\":\"NULL\",\"constructed\":false,\"header\":2,\
        \"length\":0,\"value_hex\":\"\"}]}\n";
    assert_eq!(run.text(), items);
}

#[test]
fn values_by_their_names_and_types() {
    // a date, an architecture class, an object identifier, a negative measure
    let profile = "A0 1B A2 0B 81 01 02 A5 06 06 04 58 02 06 00 A3 0C A0 0A 80 08 31393931 3033 3134";
    let object = "A2 0B 02 01 02 31 06 A3 04 80 02 FF 38";
    let run = odif_with(&["tree", "--hex", "-"], format!("{profile} {object}").as_bytes());
    assert_eq!(run.status, 0, "{}", run.stderr);
    for remark in [
        "document-architecture-class 2 (formatted-processable)",
        "content-architecture-class 2.8.2.6.0",
        "document-date-and-time \"19910314\"",
        "object type 2 (page)",
        "measure -200",
    ] {
        assert!(run.text().contains(&format!("  {remark}\n")), "{remark}: {}", run.text());
    }
    let run = odif_with(&["tree", "--json", "--hex", "-"], format!("{profile} {object}").as_bytes());
    for value in [
        "\"name\":\"document-architecture-class\",\"value\":2,\"meaning\":\"formatted-processable\",\"value_hex\":\"02\"}",
        "\"name\":\"content-architecture-class\",\"value\":\"2.8.2.6.0\",\"value_hex\":\"58020600\"}",
        "\"name\":\"document-date-and-time\",\"value\":\"19910314\",\"value_hex\":\"3139393130333134\"}",
        "\"name\":\"measure\",\"value\":-200,\"value_hex\":\"FF38\"}",
    ] {
        assert!(run.text().contains(value), "{value}: {}", run.text());
    }
}

/// A text value in JSON is the string itself, escaped by JSON alone, or none.
#[test]
fn text_values_are_exact() {
    let run = odif_with(&["tree", "--json", "--hex", "-"], b"A007 0405 615C0A0D09");
    assert!(run.text().contains(r#""value":"a\\\n\r\t","value_hex":"615C0A0D09"}"#), "{}", run.text());
    let run = odif_with(&["tree", "--json", "--hex", "-"], b"A003 0401 FF");
    assert!(run.text().contains(r#""length":1,"value_hex":"FF"}"#), "{}", run.text());
}

#[test]
fn empty_huge_and_unreadable_files() {
    let scratch = Scratch::new("tree-bad");
    assert_eq!(odif(&["tree", &scratch.write("empty", b"")]).status, 1);
    assert_eq!(odif(&["tree", &scratch.write_huge("huge")]).status, 1);
    assert_eq!(odif(&["tree", "none"]).status, 2);
    assert_unreadable_json("tree");
}

/// A line of `openssl asn1parse`, in the tree's words.
struct Told {
    offset: usize,
    level: usize,
    length: String,
    tag: String,
}

fn of_openssl(line: &str) -> Option<Told> {
    let (offset, rest) = line.split_once(":d=")?;
    let (depth, rest) = rest.split_once(" hl=")?;
    let (_, rest) = rest.split_once(" l=")?;
    let (length, rest) = rest.split_once(':')?;
    let (length, form) = length.trim().split_once(' ')?;
    let kind = rest.split(':').next()?.trim();
    let tag = match kind.strip_suffix(" ]").and_then(|tag| tag.split_once(" [ ")) {
        Some(("cont", number)) => format!("context {number}"),
        Some(("appl", number)) => format!("application {number}"),
        _ if kind == "EOC" => "closing mark".into(),
        _ if kind == "OBJECT" => "object identifier".into(),
        _ => kind.to_lowercase(),
    };
    let length = match length {
        _ if kind == "EOC" => String::new(),
        "inf" => "length indefinite".into(),
        _ => format!("length {length}"),
    };
    let form = if form.trim() == "cons" { " constructed" } else { "" };
    // To openssl a closing mark is an item in the one that it closes.
    let level = depth.trim().parse::<usize>().ok()? + usize::from(kind != "EOC");
    Some(Told { offset: offset.trim().parse().ok()?, level, length, tag: tag + form })
}

/// Each line of openssl's is one of the tree's, in the same order, with all that it tells; the tree has no others.
#[test]
fn as_telling_as_openssl() {
    for letter in ["claim", "dated", "in-pieces", "annex-d-1", "annex-d-2"] {
        let file = repository().join(format!("samples/letters/{letter}.odif"));
        let theirs = Command::new("openssl").args(["asn1parse", "-inform", "DER", "-in"]).arg(&file).output().unwrap();
        let theirs = String::from_utf8_lossy(&theirs.stdout).into_owned();
        // Where a value has line ends, openssl goes on in lines that are none of its own.
        let theirs: Vec<_> = theirs.lines().filter_map(|line| Some((line, of_openssl(line)?))).collect();
        let ours = odif(&["tree", file.to_str().unwrap()]);
        assert_eq!(theirs.len(), ours.text().lines().count() - 1, "{letter}");
        for ((their, told), our) in theirs.into_iter().zip(ours.text().lines().skip(1)) {
            let Told { offset, level, length, tag } = told;
            assert!(our.starts_with(&format!("{offset:8} {level:5} ")), "{their}: {our}");
            assert!(our.to_lowercase().contains(&tag) && our.contains(&length), "{their}: {our}");
        }
    }
}
