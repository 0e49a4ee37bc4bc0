//! The tables are glibc's, at every octet and every pair, but for what docs/CHARACTERS.md lists as different on
//! purpose.
#![cfg(target_env = "gnu")]
#![allow(unsafe_code)]

use std::ffi::{CStr, c_char, c_void};
use std::ptr;

use odif::raw;

unsafe extern "C" {
    fn iconv_open(to: *const c_char, from: *const c_char) -> *mut c_void;
    fn iconv(
        set: *mut c_void,
        input: *mut *mut c_char,
        left: *mut usize,
        output: *mut *mut c_char,
        room: *mut usize,
    ) -> usize;
    fn iconv_close(set: *mut c_void) -> i32;
}

struct Iconv(*mut c_void);

impl Iconv {
    fn open(from: &CStr) -> Option<Iconv> {
        // SAFETY: both are strings that end in 0.
        let set = unsafe { iconv_open(c"UTF-8".as_ptr(), from.as_ptr()) };
        (set as isize != -1).then_some(Iconv(set))
    }

    /// The text of octets, if there is one.
    fn text(&self, octets: &[u8]) -> Option<String> {
        let (mut octets, mut out) = (octets.to_vec(), [0u8; 32]);
        let (mut from, mut left, mut to, mut room) =
            (octets.as_mut_ptr().cast(), octets.len(), out.as_mut_ptr().cast(), out.len());
        // SAFETY: the pointers and their lengths are of these two parts; the first call puts the set into its first state.
        let refused = unsafe {
            iconv(self.0, ptr::null_mut(), ptr::null_mut(), ptr::null_mut(), ptr::null_mut());
            let refused = iconv(self.0, &mut from, &mut left, &mut to, &mut room) == usize::MAX;
            refused || iconv(self.0, ptr::null_mut(), ptr::null_mut(), &mut to, &mut room) == usize::MAX
        };
        let length = out.len() - room;
        (!refused && left == 0).then(|| String::from_utf8(out[..length].to_vec()).expect("UTF-8"))
    }
}

impl Drop for Iconv {
    fn drop(&mut self) {
        // SAFETY: it was opened, and is closed once.
        unsafe { iconv_close(self.0) };
    }
}

/// What the library shows octets as, where it shows none by its number.
fn ours(set: u32, octets: &[u8]) -> Option<String> {
    let mut out = [0; 64];
    let answer = raw::utf8(set, octets, &mut out);
    let text = String::from_utf8(out[..answer.length as usize].to_vec()).expect("UTF-8");
    (answer.numbers == 0).then_some(text)
}

/// Octets that are other characters here: set, octet, glibc's, ours. The reasons are in docs/CHARACTERS.md.
const OTHERS: [(u32, u8, char, char); 5] = [
    (0, 0xD0, '\u{2014}', '\u{2015}'),
    (0, 0xE0, '\u{2126}', '\u{3A9}'),
    (0, 0xE2, '\u{D0}', '\u{110}'),
    (1, 0xE0, '\u{2126}', '\u{3A9}'),
    (1, 0xE2, '\u{D0}', '\u{110}'),
];
/// Octets that are characters here alone.
const OURS: [&[u8]; 3] = [
    &[0xA4, 0xA6],
    &[
        0x23, 0x24, 0x5C, 0x5E, 0x60, 0x7B, 0x7D, 0x7E, 0xA0, 0xA9, 0xAA, 0xAC, 0xAD, 0xAE, 0xAF, 0xB9, 0xBA, 0xD0,
        0xD1, 0xD2, 0xD3, 0xD4, 0xD5, 0xD6, 0xD7, 0xDC, 0xDD, 0xDE, 0xDF, 0xFF,
    ],
    &[],
];

fn is_control(octet: u8) -> bool {
    matches!(octet, 0..0x20 | 0x7F..0xA0)
}

#[test]
fn every_octet() {
    for (set, name) in [(0, c"ISO_6937"), (1, c"T.61-8BIT"), (2, c"ISO-8859-1")] {
        let Some(theirs) = Iconv::open(name) else { panic!("glibc has no {name:?}") };
        for octet in 0..=0xFF {
            let (here, there) = (ours(set, &[octet]), theirs.text(&[octet]));
            if is_control(octet) {
                let is_shown = matches!(octet, b'\t' | b'\n' | 0x0C);
                assert_eq!(here.is_some(), is_shown, "{name:?} {octet:02X}");
                continue;
            }
            let other = OTHERS.iter().find(|other| (other.0, other.1) == (set, octet));
            match other {
                Some((_, _, glibc, own)) => {
                    assert_eq!((there, here), (Some(glibc.to_string()), Some(own.to_string())), "{name:?} {octet:02X}")
                }
                None if OURS[set as usize].contains(&octet) => {
                    assert!(here.is_some() && there.is_none(), "{name:?} {octet:02X}: {here:?} and {there:?}")
                }
                None => assert_eq!(here, there, "{name:?} {octet:02X}"),
            }
        }
    }
}

/// Every two octets whose first is no character alone: glibc's pairs are ours, and ours besides are an accent with a
/// letter or a space.
#[test]
fn every_pair() {
    for (set, name) in [(0, c"ISO_6937"), (1, c"T.61-8BIT")] {
        let Some(theirs) = Iconv::open(name) else { panic!("glibc has no {name:?}") };
        let (mut known, mut besides) = (0, 0);
        for first in (0xA0..=0xFF).filter(|first| theirs.text(&[*first]).is_none()) {
            for second in 0..=0xFF {
                let is_pair = (0xC1..=0xCF).contains(&first) && (second == b' ' || second.is_ascii_alphabetic());
                let (here, there) = (ours(set, &[first, second]), theirs.text(&[first, second]));
                match there {
                    Some(there) => {
                        known += 1;
                        assert_eq!(here, Some(there), "{name:?} {first:02X} {second:02X}");
                    }
                    None if is_pair => {
                        besides += 1;
                        assert!(here.is_some(), "{name:?} {first:02X} {second:02X}");
                    }
                    None => assert!(
                        here.is_none() || ours(set, &[first]).is_some(),
                        "{name:?} {first:02X} {second:02X}: {here:?}"
                    ),
                }
            }
        }
        assert_eq!((known, besides), (165, 15 * 53 - 165), "{name:?}");
    }
}
