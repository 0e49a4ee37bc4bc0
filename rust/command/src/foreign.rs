//! What a file is that is no letter, as far as its first octets tell.

/// Beginnings of well-known formats.
const BEGINNINGS: [(&[u8], &str); 24] = [
    (b"\x89PNG\r\n\x1A\n", "a PNG image"),
    (b"\xFF\xD8\xFF", "a JPEG image"),
    (b"GIF8", "a GIF image"),
    (b"BM", "a BMP image"),
    (b"II*\0", "a TIFF image"),
    (b"MM\0*", "a TIFF image"),
    (b"%PDF-", "a PDF document"),
    (b"%!PS", "a PostScript document"),
    (b"{\\rtf", "an RTF document"),
    (b"\xFFWPC", "a WordPerfect document"),
    (b"\xD0\xCF\x11\xE0\xA1\xB1\x1A\xE1", "a Microsoft Office document of before 2007"),
    (b"PK\x03\x04", "a ZIP archive, or an office document that is one"),
    (b"\x1F\x8B", "a gzip file"),
    (b"BZh", "a bzip2 file"),
    (b"\xFD7zXZ\0", "an xz file"),
    (b"7z\xBC\xAF\x27\x1C", "a 7z archive"),
    (b"\x7FELF", "a program"),
    (b"MZ", "a program for DOS or Windows"),
    (b"-----BEGIN ", "a PEM file"),
    (b"From ", "a mailbox"),
    (b"\xFF\xFE", "text in UTF-16"),
    (b"\xFE\xFF", "text in UTF-16"),
    (b"<?xml", "an XML document"),
    (b"0\x82", "a file in DER or BER, as certificates are"),
];

/// The name of what this is, or `None` where it may be a letter: all letters begin with A0.
pub fn name(stream: &[u8]) -> Option<&'static str> {
    let first = *stream.first()?;
    if first == 0xA0 {
        return None;
    }
    let known = BEGINNINGS.iter().find(|(beginning, _)| stream.starts_with(beginning));
    known.map(|(_, name)| *name).or_else(|| other(stream))
}

fn other(stream: &[u8]) -> Option<&'static str> {
    let is_text = |octet: &u8| matches!(octet, b' '..=b'~' | b'\n' | b'\r' | b'\t' | 0x0C);
    if stream.iter().all(|&octet| octet == 0) {
        Some("nothing but zero octets")
    } else if stream.iter().all(|octet| octet.is_ascii_hexdigit() || octet.is_ascii_whitespace()) {
        Some("hexadecimal digits, which `--hex` reads")
    } else if stream.iter().all(is_text) {
        Some("plain text")
    } else if std::str::from_utf8(stream)
        .is_ok_and(|text| !text.contains(|letter: char| letter < ' ' && !is_text(&(letter as u8))))
    {
        Some("text in UTF-8")
    } else {
        None
    }
}

#[cfg(test)]
mod tests {
    use super::*;

    #[test]
    fn what_is_known() {
        assert_eq!(name(b"\x89PNG\r\n\x1A\n\0\0"), Some("a PNG image"));
        assert_eq!(name(b"-----BEGIN CERTIFICATE-----"), Some("a PEM file"));
        assert_eq!(name(b"Dear Sir,\r\n"), Some("plain text"));
        assert_eq!(name("Müller\n".as_bytes()), Some("text in UTF-8"));
        assert_eq!(name(b"A0 80 00 00\n"), Some("hexadecimal digits, which `--hex` reads"));
        assert_eq!(name(&[0; 512]), Some("nothing but zero octets"));
    }

    #[test]
    fn what_may_be_a_letter() {
        assert_eq!(name(b""), None);
        assert_eq!(name(b"\xA0\x00\xA4\x00"), None);
        assert_eq!(name(b"\xA2\x11\x02\x01\x04"), None);
        assert_eq!(name(b"M\xFCller"), None);
    }
}
