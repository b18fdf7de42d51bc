//! Running a program that rt built: `crates/NAME/out/NAME`, as the gate leaves it.

use second::draft::Draft;
use std::ffi::OsStr;
use std::fs::File;
use std::io::Write;
use std::path::Path;
use std::process::{Command, Output, Stdio};
use std::time::Duration;

/// A program by its name.
pub struct Program(pub &'static str);

impl Program {
    /// The program with this standard input, not yet started.
    fn with(&self, input: Stdio) -> Command {
        let name = self.0;
        let folder = Path::new(env!("CARGO_MANIFEST_DIR")).join("../../crates");
        let path = folder.join(format!("{name}/out/{name}"));
        assert!(
            path.is_file(),
            "{} isn't there. Build it with `rt run` in crates/{name}, or with `rt ci`.",
            path.display()
        );
        let mut command = Command::new(path);
        command.stdin(input);
        command.stdout(Stdio::piped()).stderr(Stdio::piped());
        command
    }

    /// Hands the pieces over one by one, with a pause after each.
    pub fn run(&self, pieces: &[&[u8]]) -> Output {
        let mut running = self.with(Stdio::piped()).spawn().expect("it starts");
        let mut pipe = running.stdin.take().expect("its input is a pipe");
        for piece in pieces {
            pipe.write_all(piece).expect("it reads on to the end");
            pipe.flush().expect("a pipe is flushed");
            std::thread::sleep(Duration::from_millis(1));
        }
        drop(pipe);
        running.wait_with_output().expect("it ends")
    }

    /// Runs it with these arguments and no input.
    pub fn run_with(&self, arguments: &[&OsStr]) -> Output {
        let mut command = self.with(Stdio::null());
        command.args(arguments).output().expect("it ends")
    }

    /// Asserts what it writes: on the input at once, in small pieces, and in
    /// small pieces after as many bytes as the largest file has.
    pub fn assert_writes(&self, input: &[u8], due: &[u8], what: &str) {
        let (start, rest) = input.split_at(input.len().min(6_908));
        let ways = [
            vec![input],
            small(input),
            [vec![start], small(rest)].concat(),
        ];
        for pieces in ways {
            let output = self.run(&pieces);
            let what = format!("{}, {what}, in {} pieces", self.0, pieces.len());
            let written = String::from_utf8_lossy(&output.stdout);
            assert!(
                output.stdout == due,
                "{what}: {} bytes instead of {}, {written:.40?}",
                output.stdout.len(),
                due.len(),
            );
            assert!(output.stderr.is_empty(), "{what}: standard error");
            assert!(output.status.success(), "{what}: {}", output.status);
        }
    }

    /// Asserts what it does where its input can't be read.
    pub fn assert_unreadable(&self) {
        let folder = File::open(env!("CARGO_MANIFEST_DIR")).expect("a folder opens");
        let output = self.with(folder.into()).output().expect("it ends");
        assert!(output.stdout.is_empty());
        let message = format!("{}: standard input cannot be read\n", self.0);
        assert_eq!(output.stderr, message.as_bytes());
    }
}

/// The bytes in small pieces, at most 30.
fn small(bytes: &[u8]) -> Vec<&[u8]> {
    bytes.chunks(bytes.len() / 30 + 1).collect()
}

/// The line for a refusal.
pub fn refused(number: u16, place: u16) -> Vec<u8> {
    format!("refused {number} {place}\n").into_bytes()
}

fn head_of_version_2() -> Vec<u8> {
    let juniors = Some(vec![]);
    let draft = Draft {
        juniors,
        ..Draft::default()
    };
    draft.bytes()
}

/// Inputs of any length: zeros, and zeros after a sound file, which is cut
/// where it is longer.
pub fn of_any_length(sound: Vec<u8>) -> Vec<(String, Vec<u8>)> {
    let starts = [
        ("zeros", vec![]),
        ("a 2, then zeros", vec![2]),
        ("a sound head, then zeros", Draft::default().bytes()),
        ("a sound head of version 2, then zeros", head_of_version_2()),
        ("a large file, then zeros", sound),
    ];
    let mut inputs = Vec::new();
    for length in [
        0, 1, 2, 25, 26, 27, 28, 6_874, 6_875, 6_876, 6_877, 6_908, 6_909, 6_910, 6_911, 100_000,
        100_001,
    ] {
        for (what, start) in &starts {
            let mut input = start.clone();
            input.resize(length, 0);
            inputs.push((format!("{what}, {length} bytes"), input));
        }
    }
    inputs
}
