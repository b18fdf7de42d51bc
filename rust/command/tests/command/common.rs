//! What the tests share: the built command, the examples, folders.

use std::ffi::OsStr;
use std::fs;
use std::io::Write;
use std::path::{Path, PathBuf};
use std::process::{Command, Stdio};

/// What a call of the command came to.
#[derive(Debug)]
pub struct Answer {
    pub status: i32,
    pub out: Vec<u8>,
    pub err: String,
}

impl Answer {
    pub fn text(&self) -> &str {
        std::str::from_utf8(&self.out).expect("standard output is text")
    }
}

/// Calls the command, with an empty standard input.
pub fn pilzdamo<W: AsRef<OsStr>>(words: &[W]) -> Answer {
    pilzdamo_fed(words, b"")
}

/// Calls the command with these bytes on standard input; zero bytes come from a device, which
/// is no pipe.
pub fn pilzdamo_fed<W: AsRef<OsStr>>(words: &[W], input: &[u8]) -> Answer {
    let stdin = match input {
        [] => Stdio::null(),
        _ => Stdio::piped(),
    };
    called(words, stdin, input)
}

/// Calls the command with these bytes in a pipe.
pub fn pilzdamo_piped<W: AsRef<OsStr>>(words: &[W], input: &[u8]) -> Answer {
    called(words, Stdio::piped(), input)
}

fn called<W: AsRef<OsStr>>(words: &[W], stdin: Stdio, input: &[u8]) -> Answer {
    let mut child = Command::new(env!("CARGO_BIN_EXE_pilzdamo"))
        .args(words)
        .stdin(stdin)
        .stdout(Stdio::piped())
        .stderr(Stdio::piped())
        .spawn()
        .expect("the command starts");
    // The command may end without reading its input.
    if let Some(mut pipe) = child.stdin.take() {
        let _ = pipe.write_all(input);
    }
    let output = child.wait_with_output().expect("the command ends");
    Answer {
        status: output.status.code().expect("an exit status"),
        out: output.stdout,
        err: String::from_utf8(output.stderr).expect("standard error is text"),
    }
}

/// The path of an example.
pub fn example(name: &str) -> String {
    let folder = concat!(env!("CARGO_MANIFEST_DIR"), "/../../examples");
    format!("{folder}/{name}")
}

/// The bytes of an example.
pub fn example_bytes(name: &str) -> Vec<u8> {
    fs::read(example(name)).unwrap_or_else(|error| panic!("{name}: {error}"))
}

/// The numbers of an example that is a list of choices or a table of seats.
pub fn numbers(name: &str) -> Vec<u16> {
    let text = String::from_utf8(example_bytes(name)).expect("text");
    let lines = text.lines().map(|line| line.split('#').next());
    let words = lines.flat_map(|line| line.unwrap_or("").split_whitespace());
    words.map(|word| word.parse().expect("a number")).collect()
}

/// The bytes of an example when it is placed.
pub fn placed(name: &str) -> Vec<u8> {
    pilzdamo(&["place", &example(name)]).out
}

/// A text of the examples without the seats of its roles; bytes stay as they are.
pub fn without_seats(file: Vec<u8>) -> Vec<u8> {
    match String::from_utf8(file) {
        Ok(text) => text.replace("; 1 seat", "").into_bytes(),
        Err(bytes) => bytes.into_bytes(),
    }
}

/// A refusal's sentence: the engine's phrase for its number, and the place with what it
/// counts, such as `node 4, a send`; where that is empty, no place.
pub fn sentence(number: u16, place: &str) -> String {
    let meaning = pilzdamo::meaning(number).expect("a refusal");
    match place {
        "" => format!("{meaning}; no place."),
        _ => format!("{meaning} at {place}."),
    }
}

/// A folder of its own for a test, with a space in its name. It goes when the
/// test ends.
pub struct Folder(PathBuf);

impl Folder {
    pub fn new(name: &str) -> Folder {
        let name = format!("{name} {}", std::process::id());
        let path = Path::new(env!("CARGO_TARGET_TMPDIR")).join(name);
        let _ = fs::remove_dir_all(&path);
        fs::create_dir_all(&path).expect("a folder can be made");
        Folder(path)
    }

    pub fn path(&self) -> &Path {
        &self.0
    }

    /// The path of a file in it.
    pub fn at(&self, name: &str) -> String {
        self.0.join(name).display().to_string()
    }

    /// Writes a file in it, and gives its path.
    pub fn file(&self, name: &str, bytes: impl AsRef<[u8]>) -> String {
        fs::write(self.0.join(name), bytes).expect("a file can be written");
        self.at(name)
    }
}

impl Drop for Folder {
    fn drop(&mut self) {
        let _ = fs::remove_dir_all(&self.0);
    }
}
