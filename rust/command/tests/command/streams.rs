//! Standard output that is gone, full or a terminal, and standard input that is closed.

use crate::common::{example, example_bytes, Folder};
use crate::script::{said, Place, RT};
use std::fs::File;
use std::io::Write;
use std::path::Path;
use std::process::{Command, Output, Stdio};

/// Feeds a file to the command, whose standard output this is.
fn fed(words: &[&str], file: &str, out: Stdio) -> Output {
    let mut child = Command::new(env!("CARGO_BIN_EXE_pilzdamo"))
        .args(words)
        .stdin(Stdio::piped())
        .stdout(out)
        .stderr(Stdio::piped())
        .spawn()
        .expect("the command starts");
    // Nobody reads what it writes, if that is a pipe.
    drop(child.stdout.take());
    let mut input = child.stdin.take().expect("a pipe");
    input.write_all(&example_bytes(file)).expect("it is read");
    drop(input);
    child.wait_with_output().expect("the command ends")
}

#[test]
fn a_reader_that_has_left() {
    let due = b"pilzdamo: standard output can't be written: nobody reads it\n";
    for words in [["show", "-"], ["check", "-"], ["dispatch", "-"]] {
        let output = fed(&words, "spring/cut.clinic", Stdio::piped());
        assert_eq!(output.status.code(), Some(2));
        assert_eq!(output.stderr, due);
    }
    let output = fed(&["place", "-"], "booking.clinic", Stdio::piped());
    assert_eq!(
        (output.status.code(), output.stderr),
        (Some(2), due.to_vec())
    );
    let list = example("refused/19-unequal.choices");
    let output = fed(
        &["run", "-", &list],
        "refused/choices.clinic",
        Stdio::piped(),
    );
    assert_eq!(
        (output.status.code(), output.stderr),
        (Some(2), due.to_vec())
    );
}

/// The script tells it, before it builds anything.
#[test]
fn a_closed_output() {
    let folder = Folder::new("closed");
    let script = concat!(env!("CARGO_MANIFEST_DIR"), "/../../pilzdamo");
    std::fs::copy(script, folder.at("pilzdamo")).expect("the script");
    for words in ["check a", "--help", ""] {
        let call = format!("exec ./pilzdamo {words} >&-");
        let output = Command::new("sh")
            .args(["-c", &call])
            .current_dir(folder.path())
            .env("PATH", "/usr/bin:/bin")
            .output()
            .expect("a shell");
        assert_eq!(output.status.code(), Some(2), "{words}");
        assert_eq!(output.stderr, b"pilzdamo: standard output is closed\n");
    }
}

/// A standard input that can't be read is no file of zero bytes.
#[test]
fn an_input_that_is_not_open() {
    let due = "pilzdamo: standard input: can't be read: it isn't open for reading\n";
    let null = File::options().write(true).open("/dev/null");
    let output = Command::new(env!("CARGO_BIN_EXE_pilzdamo"))
        .args(["check", "-"])
        .stdin(null.expect("the null device"))
        .output()
        .expect("the command starts");
    assert_eq!(output.status.code(), Some(2));
    assert_eq!((output.stdout, output.stderr), (Vec::new(), due.into()));
    // The script gives the program such an input where its own is closed.
    let cargo = format!(
        "#!/bin/sh\nwhile [ \"$1\" != --target-dir ]; do shift; done\n\
         mkdir -p \"$2/release\"\ncp '{}' \"$2/release\"\n",
        env!("CARGO_BIN_EXE_pilzdamo")
    );
    let place = Place::new("closed input").with(&[("rt", RT), ("cargo", &cargo)]);
    assert_eq!(place.call(&["build"]).status, 0);
    for (words, due) in [
        ("check - <&-", (2, "", due)),
        (
            "check - </dev/null",
            (
                0,
                "standard input: passes (zero bytes: nothing is planned)\n",
                "",
            ),
        ),
        (
            "--version <&-",
            (0, concat!("pilzdamo ", env!("CARGO_PKG_VERSION"), "\n"), ""),
        ),
    ] {
        let call = format!("exec './the root/pilzdamo' {words}");
        let said = said(place.command(Path::new("sh")).args(["-c", &call]));
        assert_eq!((said.status, &*said.out, &*said.err), due, "{words}");
    }
}

#[test]
fn a_full_disk() {
    let Ok(full) = File::options().write(true).open("/dev/full") else {
        return;
    };
    let output = fed(&["place", "-"], "booking.clinic", full.into());
    assert_eq!(output.status.code(), Some(2));
    let err = String::from_utf8_lossy(&output.stderr);
    assert!(
        err.starts_with("pilzdamo: standard output can't be written: "),
        "{err}"
    );
}

#[test]
fn a_terminal() {
    let terminal = || File::options().read(true).write(true).open("/dev/ptmx");
    let (Ok(one), Ok(other)) = (terminal(), terminal()) else {
        return;
    };
    let output = fed(&["place", "-"], "booking.clinic", one.into());
    assert_eq!(output.status.code(), Some(2));
    let err = String::from_utf8_lossy(&output.stderr);
    assert!(
        err.ends_with("not written to a terminal; name a file with -o\n"),
        "{err}"
    );
    let output = fed(&["check", "-"], "spring/cut.clinic", other.into());
    assert_eq!(output.status.code(), Some(0));
}
