//! What the tests of the command share: running it, and a folder of their own.

use std::ffi::OsStr;
use std::fs;
use std::io::Write;
use std::os::unix::fs::symlink;
use std::path::{Path, PathBuf};
use std::process::{Command, Stdio};

pub const CLAIM: &str = "samples/letters/claim.odif";
pub const WITH_DATE: &str = "samples/letters/dated.odif";
pub const IN_PIECES: &str = "samples/letters/in-pieces.odif";
pub const CUT_SHORT: &str = "samples/letters/cut-short.odif";

/// The octets of a letter whose unit, at octet 21, has an item among its pieces that is none.
pub const WRONG_PIECE: &[u8] = b"\xA0\x00\
    \xA2\x11\x02\x01\x04\x31\x0C\x41\x051 0 2\xA1\x03\x12\x010\
    \xA3\x12\x31\x09\x40\x071 0 2 0\x24\x05\x04\x01H\x05\x00";

/// With `--json` a file that can't be read is told as JSON too, by each subcommand that has it.
pub fn assert_unreadable_json(name: &str) {
    let run = odif(&[name, "--json", "none"]);
    assert_eq!((run.status, run.stderr.as_str()), (2, ""));
    let wanted = r#"{"file":"none","outcome":"unreadable","reason":"No such file"#;
    assert!(run.text().starts_with(wanted), "{}", run.text());
}

/// How a run of the command ended.
pub struct Run {
    pub status: i32,
    pub stdout: Vec<u8>,
    pub stderr: String,
}

impl Run {
    /// Standard output as text.
    pub fn text(&self) -> &str {
        std::str::from_utf8(&self.stdout).expect("text on standard output")
    }
}

/// The command with these words, not yet run.
pub fn command(words: &[&(impl AsRef<OsStr> + ?Sized)]) -> Command {
    let mut command = Command::new(env!("CARGO_BIN_EXE_odif"));
    command.args(words.iter().map(AsRef::as_ref)).current_dir(repository());
    command
}

/// Runs the command at the repository's root, with nothing on standard input.
pub fn odif(words: &[&str]) -> Run {
    odif_with(words, b"")
}

/// Runs the command with this on standard input.
pub fn odif_with(words: &[&str], stdin: &[u8]) -> Run {
    run(&mut command(words), stdin)
}

fn run(command: &mut Command, stdin: &[u8]) -> Run {
    let mut child = command.stdin(Stdio::piped()).stdout(Stdio::piped()).stderr(Stdio::piped()).spawn().unwrap();
    // The command may end before it has read all; that is its own affair.
    let _ = child.stdin.take().unwrap().write_all(stdin);
    let output = child.wait_with_output().unwrap();
    Run {
        status: output.status.code().expect("an exit status"),
        stdout: output.stdout,
        stderr: String::from_utf8(output.stderr).expect("text on standard error"),
    }
}

/// What the command writes to a terminal.
pub fn on_terminal(words: &[&str]) -> String {
    let quoted = |word: &&str| format!("'{word}'");
    let line = std::iter::once(&env!("CARGO_BIN_EXE_odif")).chain(words).map(quoted).collect::<Vec<_>>().join(" ");
    let mut script = Command::new("script");
    let output = script.args(["-qec", &line, "/dev/null"]).stdin(Stdio::null()).current_dir(repository()).output();
    String::from_utf8(output.unwrap().stdout).unwrap().replace("\r\n", "\n")
}

/// Runs the command where no file may have more than this many kibibytes.
pub fn limited(kibibytes: u32, words: &[&str]) -> Run {
    let mut bash = Command::new("bash");
    bash.args(["-c", &format!("trap '' XFSZ; ulimit -f {kibibytes}; exec \"$@\""), "bash", env!("CARGO_BIN_EXE_odif")]);
    run(bash.args(words).current_dir(repository()), b"")
}

/// The repository's root.
pub fn repository() -> PathBuf {
    Path::new(env!("CARGO_MANIFEST_DIR")).join("../..")
}

/// A folder that is there for one test.
pub struct Scratch(PathBuf);

impl Scratch {
    /// An empty folder of this name.
    pub fn new(name: &str) -> Self {
        let folder = Path::new(env!("CARGO_TARGET_TMPDIR")).join(name);
        let _ = fs::remove_dir_all(&folder);
        fs::create_dir_all(&folder).unwrap();
        Scratch(folder)
    }

    /// A path in it.
    pub fn path(&self, name: &str) -> PathBuf {
        self.0.join(name)
    }

    /// A path in it, as a word for the command.
    pub fn word(&self, name: &str) -> String {
        self.path(name).to_str().unwrap().into()
    }

    /// The names in it, sorted.
    pub fn names(&self) -> Vec<String> {
        let found = fs::read_dir(&self.0).unwrap().map(|found| found.unwrap().file_name().into_string().unwrap());
        let mut names: Vec<_> = found.collect();
        names.sort();
        names
    }

    /// Writes a file, and gives its path as a word for the command.
    pub fn write(&self, name: &str, octets: &[u8]) -> String {
        let path = self.path(name);
        fs::create_dir_all(path.parent().unwrap()).unwrap();
        fs::write(&path, octets).unwrap();
        self.word(name)
    }

    /// A letter that takes some milliseconds, and a folder with so many links to it, named 0000 and so on.
    pub fn write_slow(&self, name: &str, folder: &str, links: usize) {
        let mut stream = vec![0xA0, 0x83, 0x03, 0xFF, 0xF0];
        stream.extend([0x05, 0x00].repeat(0x03_FFF0 / 2));
        self.write(name, &stream);
        fs::create_dir(self.path(folder)).unwrap();
        for number in 0..links {
            symlink(self.path(name), self.path(folder).join(format!("{number:04}"))).unwrap();
        }
    }

    /// A file of eight gigabytes that takes no room, and is refused for its length.
    pub fn write_huge(&self, name: &str) -> String {
        let file = fs::File::create(self.path(name)).unwrap();
        file.set_len(8 << 30).unwrap();
        self.word(name)
    }
}

impl Drop for Scratch {
    fn drop(&mut self) {
        let _ = fs::remove_dir_all(&self.0);
    }
}

/// A letter with one block and its unit, which has this text of less than 100 octets.
pub fn letter(text: &[u8]) -> Vec<u8> {
    let object = b"\xA2\x11\x02\x01\x04\x31\x0C\x41\x051 0 2\xA1\x03\x12\x010";
    let unit = b"\x31\x09\x40\x071 0 2 0\x04";
    let mut stream = b"\xA0\x00".to_vec();
    stream.extend_from_slice(object);
    stream.extend([0xA3, unit.len() as u8 + 1 + text.len() as u8]);
    stream.extend_from_slice(unit);
    stream.push(text.len() as u8);
    stream.extend_from_slice(text);
    stream
}

/// An item: its identifier octet, its length in the fewest octets, and its value.
pub fn item(octet: u8, value: &[u8]) -> Vec<u8> {
    let length = value.len().to_be_bytes();
    let length = &length[length.iter().take_while(|&&octet| octet == 0).count()..];
    let mut stream = vec![octet];
    match value.len() {
        short @ 0..128 => stream.push(short as u8),
        _ => {
            stream.push(0x80 | length.len() as u8);
            stream.extend(length);
        }
    }
    [stream, value.to_vec()].concat()
}

/// A letter with a block and a logical object, each with a unit of its own.
pub fn two_sided(layout: &[u8], logical: &[u8]) -> Vec<u8> {
    let portion = item(0xA1, &item(0x12, b"0"));
    let object = |identifier: &[u8]| item(0x31, &[item(0x41, identifier), portion.clone()].concat());
    let unit = |place: Vec<u8>, text: &[u8]| item(0xA3, &[item(0x31, &place), item(0x04, text)].concat());
    let block = item(0xA2, &[vec![0x02, 0x01, 0x04], object(b"1 0 2")].concat());
    let paragraph = item(0xA6, &[vec![0x02, 0x01, 0x02], object(b"3 0")].concat());
    let units = [unit(item(0x40, b"1 0 2 0"), layout), unit(item(0x84, b"3 0 0"), logical)].concat();
    [item(0xA0, b""), block, paragraph, units].concat()
}

/// A letter whose unit is tiled, as the edition of 1993 alone has it.
pub fn letter_of_1993(text: &[u8]) -> Vec<u8> {
    let portion = item(0xA1, &item(0x12, b"0"));
    let block = item(0xA2, &item(0x31, &[item(0x41, b"1"), portion].concat()));
    let unit = [item(0x31, &item(0x40, b"1 0")), item(0x30, &item(0x04, text))].concat();
    [item(0xA0, b""), block, item(0xA3, &unit)].concat()
}
