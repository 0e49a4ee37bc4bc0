//! Showing octets, names and numbers to people.

use std::ffi::OsStr;
use std::fmt::Write;
use std::io::{self, IsTerminal};
use std::os::unix::ffi::OsStrExt;

/// Octets as text that no terminal takes for anything else: printable ASCII stays, a backslash is doubled, and the rest
/// is `\n`, `\r`, `\t` or `\xHH`.
pub fn escaped(octets: &[u8]) -> String {
    let mut text = String::with_capacity(octets.len());
    for &octet in octets {
        push_escaped(&mut text, octet);
    }
    text
}

/// Octets as text for a terminal, as `escaped` gives it, but line ends stay.
pub fn escaped_lines(octets: &[u8]) -> String {
    let mut text = String::with_capacity(octets.len());
    for &octet in octets {
        if octet == b'\n' { text.push('\n') } else { push_escaped(&mut text, octet) }
    }
    text
}

fn push_escaped(text: &mut String, octet: u8) {
    match octet {
        b'\\' => text.push_str("\\\\"),
        b'\n' => text.push_str("\\n"),
        b'\r' => text.push_str("\\r"),
        b'\t' => text.push_str("\\t"),
        b' '..=b'~' => text.push(octet as char),
        _ => {
            let _ = write!(text, "\\x{octet:02X}");
        }
    }
}

/// Text for a terminal: letters of any script and line ends stay, and the rest is escaped.
pub fn shielded(octets: &[u8]) -> String {
    let is_plain = |letter: char| letter == '\n' || !letter.is_control();
    match std::str::from_utf8(octets) {
        Ok(text) => text
            .chars()
            .map(|letter| if is_plain(letter) { letter.into() } else { escaped(letter.to_string().as_bytes()) })
            .collect(),
        Err(_) => escaped_lines(octets),
    }
}

/// The beginning of some octets, escaped.
pub fn beginning(octets: &[u8], most: usize) -> String {
    match octets.get(..most) {
        Some(front) if front.len() < octets.len() => escaped(front) + "..",
        _ => escaped(octets),
    }
}

/// Are they all printable ASCII, line ends or tabulators?
pub fn is_plain_text(octets: &[u8]) -> bool {
    octets.iter().all(|octet| matches!(octet, b' '..=b'~' | b'\n' | b'\r' | b'\t'))
}

/// Octets as a string of JSON, where they are ASCII without its last character; what they are otherwise, hexadecimal tells.
pub fn ascii(octets: &[u8]) -> Option<String> {
    let is_ascii = octets.iter().all(|octet| *octet < 0x7F);
    is_ascii.then(|| octets.iter().map(|&octet| char::from(octet)).collect())
}

/// Octets in hexadecimal.
pub fn hex(octets: &[u8]) -> String {
    octets.iter().map(|octet| format!("{octet:02X}")).collect()
}

/// The octets of pairs of hexadecimal digits; `None` if they are none.
pub fn from_hex(digits: &str) -> Option<Vec<u8>> {
    let digits: Option<Vec<u32>> = digits.chars().map(|digit| digit.to_digit(16)).collect();
    let pairs = digits.filter(|digits| digits.len().is_multiple_of(2))?;
    Some(pairs.chunks(2).map(|pair| (pair[0] << 4 | pair[1]) as u8).collect())
}

/// A file's name for people: letters of any script stay, control characters do not.
pub fn name(file: &OsStr) -> String {
    if file == "-" {
        return "standard input".into();
    }
    match file.to_str() {
        Some(text) if !text.chars().any(char::is_control) => text.into(),
        _ => escaped(file.as_bytes()),
    }
}

/// Writes a name to standard output as the system has it, before a line end or a zero octet; to a terminal without control
/// characters.
pub fn write_name(out: &mut impl io::Write, name: &OsStr, null: bool) -> io::Result<()> {
    if io::stdout().is_terminal() {
        return writeln!(out, "{}", self::name(name));
    }
    out.write_all(name.as_bytes())?;
    out.write_all(if null { b"\0" } else { b"\n" })
}

/// A noun with its article: a text unit, an enciphered document profile.
pub fn one(noun: &str) -> String {
    format!("{} {noun}", if noun.starts_with(['a', 'e', 'i', 'o', 'u']) { "an" } else { "a" })
}

/// A number with its noun: 1 element, 2 elements.
pub fn counted(count: usize, noun: &str) -> String {
    format!("{} {noun}{}", grouped(count), if count == 1 { "" } else { "s" })
}

/// A number with a comma after each group of three digits.
pub fn grouped(number: usize) -> String {
    let digits = number.to_string();
    let mut text = String::with_capacity(digits.len() + digits.len() / 3);
    for (place, digit) in digits.chars().enumerate() {
        if place > 0 && (digits.len() - place).is_multiple_of(3) {
            text.push(',');
        }
        text.push(digit);
    }
    text
}

/// Octets a line of [`around`].
const LINE: usize = 16;

/// The octets around a place, up to three lines of sixteen with their offsets, the octet at the place in brackets.
pub fn around(stream: &[u8], place: usize) -> String {
    let middle = place / LINE * LINE;
    let past = (middle + 2 * LINE).min(stream.len()).max(place + 1);
    let mut text = String::new();
    for start in (middle.saturating_sub(LINE)..past).step_by(LINE) {
        let _ = write!(text, "  {start:06X} ");
        for at in start..start + LINE {
            text.push(match at {
                _ if at == place => '[',
                _ if at > start && at - 1 == place => ']',
                _ => ' ',
            });
            match stream.get(at) {
                Some(octet) => text.push_str(&hex(&[*octet])),
                None => text.push_str("  "),
            }
        }
        text.push(if start + LINE - 1 == place { ']' } else { ' ' });
        let line = stream.iter().skip(start).take(LINE);
        text.extend(line.map(|&octet| if (b' '..=b'~').contains(&octet) { octet as char } else { '.' }));
        text.truncate(text.trim_end_matches(' ').len());
        text.push('\n');
    }
    text
}

#[cfg(test)]
mod tests {
    use super::*;

    #[test]
    fn escapes() {
        assert_eq!(escaped(b"a\\b\n\x1B[1m\xFF"), "a\\\\b\\n\\x1B[1m\\xFF");
        assert_eq!(escaped_lines(b"a\r\nb"), "a\\r\nb");
        assert_eq!(beginning(b"abcdef", 3), "abc..");
        assert_eq!(beginning(b"abc", 3), "abc");
    }

    #[test]
    fn strings_are_exact_or_none() {
        assert_eq!(ascii(b"a\\b\n\x00~").as_deref(), Some("a\\b\n\0~"));
        assert_eq!((ascii(b"a\x7F"), ascii(b"\xC3\xA9")), (None, None));
    }

    #[test]
    fn groups_of_three() {
        assert_eq!(grouped(7), "7");
        assert_eq!(grouped(1_048_576), "1,048,576");
        assert_eq!(counted(1, "item"), "1 item");
        assert_eq!(counted(4_096, "element"), "4,096 elements");
    }

    #[test]
    fn the_place_is_in_brackets() {
        let shown = "  000000  A0 00[A4]00                                     ....\n";
        assert_eq!(around(&[0xA0, 0x00, 0xA4, 0x00], 2), shown);
        assert!(around(&[0xA0, 0x80], 2).contains("80[  ]"));
        assert_eq!(around(&[0; 100], 50).lines().count(), 3);
        assert_eq!(around(&[0; 32], 32).lines().count(), 2);
    }
}
