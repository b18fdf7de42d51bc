//! Files are written whole or not at all, and no input is written over by mistake.

use crate::common::{example, example_bytes, pilzdamo, placed, Answer, Folder};
use std::fs;
use std::os::unix::fs::{symlink, MetadataExt, PermissionsExt};
use std::process::{Command, Stdio};
use std::thread;
use std::time::Instant;

/// The names of all that is in a folder, also of what is hidden.
fn names(folder: &Folder) -> Vec<String> {
    let names = fs::read_dir(folder.path()).expect("a folder");
    let names = names.map(|entry| entry.expect("an entry").file_name());
    let mut names: Vec<String> = names.map(|name| name.display().to_string()).collect();
    names.sort();
    names
}

/// The files that every word is called with.
struct Files {
    folder: Folder,
    text: String,
    bytes: String,
    second: String,
    notice: String,
}

impl Files {
    fn new(name: &str) -> Files {
        let folder = Folder::new(name);
        let text = folder.file("in.txt", long_text());
        let bytes = folder.file("in.clinic", example_bytes("booking.clinic"));
        let second = folder.file("in.2", example_bytes("head-nurse/juniors.clinic"));
        let notice = folder.at("in.notice");
        pilzdamo(&["notice", "0", &bytes, "-o", &notice]);
        Files {
            folder,
            text,
            bytes,
            second,
            notice,
        }
    }

    /// The words of every call that writes, with the inputs of each.
    fn calls(&self) -> Vec<(Vec<&str>, Vec<&str>)> {
        let (text, bytes) = (self.text.as_str(), self.bytes.as_str());
        let (second, notice) = (self.second.as_str(), self.notice.as_str());
        vec![
            (vec!["place", text], vec![text]),
            (vec!["place", bytes], vec![bytes]),
            (vec!["merge", bytes, bytes], vec![bytes]),
            (vec!["columns", second], vec![second]),
            (vec!["notice", "0", bytes], vec![bytes]),
            (vec!["in-force", "9", notice, notice], vec![notice]),
            (vec!["pack", text], vec![text]),
            (vec!["unpack", bytes], vec![bytes]),
            (vec!["unpack", bytes, "--names", text], vec![bytes, text]),
            (vec!["strip", text], vec![text]),
            (vec!["strip", bytes], vec![bytes]),
        ]
    }
}

/// A text of some thousand bytes that can be placed.
fn long_text() -> Vec<u8> {
    let comments = "# A line that says nothing, so that the text is long.\n".repeat(100);
    [comments.as_bytes(), &example_bytes("booking.txt")].concat()
}

fn with<'a>(words: &[&'a str], more: &[&'a str]) -> Vec<&'a str> {
    [words, more].concat()
}

/// Calls the command in a shell that lets no file grow over some blocks of 512 or 1,024
/// bytes.
fn limited(blocks: &str, words: &[&str]) -> Answer {
    let limit = format!("trap '' XFSZ; ulimit -f {blocks}; exec \"$0\" \"$@\"");
    let output = Command::new("sh")
        .args(["-c", &limit, env!("CARGO_BIN_EXE_pilzdamo")])
        .args(words)
        .output()
        .expect("a shell");
    Answer {
        status: output.status.code().expect("an exit status"),
        out: output.stdout,
        err: String::from_utf8(output.stderr).expect("text"),
    }
}

#[test]
fn what_fails_leaves_the_file_as_it_was() {
    let files = Files::new("limited");
    let out = files.folder.file("out", "as it was");
    let before = names(&files.folder);
    for (words, _) in files.calls() {
        let words = with(&words, &["-o", &out]);
        let answer = limited("0", &words);
        assert_eq!((answer.status, answer.out.len()), (2, 0), "{words:?}");
        let due = format!("pilzdamo: {out}: can't be written: ");
        assert!(answer.err.starts_with(&due), "{words:?}: {}", answer.err);
        assert_eq!(fs::read(&out).unwrap(), b"as it was", "{words:?}");
        assert_eq!(names(&files.folder), before, "{words:?}");
    }
}

#[test]
fn what_fails_midway() {
    let files = Files::new("midway");
    let out = files.folder.file("out", "as it was");
    let (before, absent) = (names(&files.folder), files.folder.at("absent"));
    for path in [&out, &absent] {
        let answer = limited("1", &["place", &files.text, "-o", path]);
        assert_eq!(answer.status, 2, "{}", answer.err);
        assert_eq!(fs::read(&out).unwrap(), b"as it was");
        assert_eq!(names(&files.folder), before);
    }
    assert_eq!(pilzdamo(&["place", &files.text, "-o", &out]).status, 0);
    assert!(fs::metadata(&out).unwrap().len() > 5_000);
    assert_eq!(names(&files.folder), before);
}

/// The names are short enough to be written, and the bytes aren't.
#[test]
fn of_two_files_neither_or_both() {
    let folder = Folder::new("two");
    let text = folder.file("in.txt", example_bytes("transfer.txt"));
    let (file, kept) = (folder.file("file", "old"), folder.file("names", "older"));
    let before = names(&folder);
    let gone = folder.at("no such folder/out");
    let answer = pilzdamo(&["pack", &text, "-o", &gone, "--names", &kept]);
    assert_eq!(answer.status, 2);
    let answer = pilzdamo(&["pack", &text, "-o", &file, "--names", &gone]);
    assert_eq!(answer.status, 2);
    assert_eq!(fs::read(&file).unwrap(), b"old");
    assert_eq!(fs::read(&kept).unwrap(), b"older");
    assert_eq!(names(&folder), before);
    for other in [file.clone(), format!("{}/./file", folder.path().display())] {
        let answer = pilzdamo(&["pack", &text, "-o", &file, "--names", &other]);
        assert_eq!(
            answer.err,
            "pilzdamo: pack: FILE and NAMES are the same file\n"
        );
    }
    let new = folder.at("new");
    let answer = pilzdamo(&["pack", &text, "-o", &new, "--names", &new]);
    assert_eq!(
        answer.err,
        "pilzdamo: pack: FILE and NAMES are the same file\n"
    );
    assert_eq!(names(&folder), before);
}

#[test]
fn where_nothing_can_be_written() {
    let folder = Folder::new("nowhere");
    let file = example("booking.clinic");
    let plain = folder.file("plain", "as it was");
    let here = folder.path().display().to_string();
    let before = names(&folder);
    for (out, why) in [
        (
            folder.at("no such folder/out"),
            "there is no such file or folder",
        ),
        (here, "it is a folder"),
        (format!("{plain}/out"), ""),
    ] {
        let answer = pilzdamo(&["place", &file, "-o", &out]);
        assert_eq!((answer.status, answer.out.len()), (2, 0));
        let due = format!("pilzdamo: {out}: can't be written: {why}");
        assert!(answer.err.starts_with(&due), "{}", answer.err);
    }
    assert_eq!(names(&folder), before);
    assert_eq!(fs::read(&plain).unwrap(), b"as it was");
}

#[test]
fn permissions_stay() {
    let folder = Folder::new("permissions");
    let file = example("booking.clinic");
    let out = folder.file("out", "as it was");
    for mode in [0o600, 0o640, 0o777] {
        fs::set_permissions(&out, fs::Permissions::from_mode(mode)).expect("it can be set");
        assert_eq!(pilzdamo(&["place", &file, "-o", &out]).status, 0);
        let about = fs::metadata(&out).unwrap();
        assert_eq!(about.mode() & 0o7777, mode);
        assert_eq!(fs::read(&out).unwrap(), placed("booking.clinic"));
    }
    let (new, usual) = (folder.at("new"), folder.file("usual", ""));
    pilzdamo(&["place", &file, "-o", &new]);
    let [new, usual] = [new, usual].map(|path| fs::metadata(path).unwrap().mode());
    assert_eq!(new, usual);
}

#[test]
fn through_links() {
    let folder = Folder::new("links");
    let file = example("booking.clinic");
    fs::create_dir(folder.path().join("there")).expect("a folder");
    let target = folder.file("there/target", "as it was");
    let link = folder.path().join("link");
    symlink("there/target", &link).expect("a link");
    let second = folder.path().join("second");
    symlink("link", &second).expect("a link");
    let dangling = folder.path().join("dangling");
    symlink("there/new", &dangling).expect("a link");
    for (path, target) in [(&second, target), (&dangling, folder.at("there/new"))] {
        let path = path.display().to_string();
        assert_eq!(pilzdamo(&["place", &file, "-o", &path]).status, 0);
        assert!(fs::symlink_metadata(&path).unwrap().is_symlink());
        assert_eq!(fs::read(target).unwrap(), placed("booking.clinic"));
    }
    assert!(fs::symlink_metadata(&link).unwrap().is_symlink());
    let (one, other) = (folder.at("one"), folder.at("other"));
    symlink(&one, &other).expect("a link");
    symlink(&other, &one).expect("a link");
    assert_eq!(pilzdamo(&["place", &file, "-o", &one]).status, 2);
    assert_eq!(
        names(&folder),
        ["dangling", "link", "one", "other", "second", "there"]
    );
}

#[test]
fn streams_and_devices() {
    let folder = Folder::new("devices");
    let file = example("booking.clinic");
    let answer = pilzdamo(&["place", &file, "-o", "/dev/stdout"]);
    assert_eq!((answer.status, answer.out), (0, placed("booking.clinic")));
    if fs::exists("/dev/full").unwrap_or(false) {
        let answer = pilzdamo(&["place", &file, "-o", "/dev/full"]);
        assert_eq!(answer.status, 2);
        assert!(answer
            .err
            .starts_with("pilzdamo: /dev/full: can't be written: "));
    }
    let shell = |script: &str| {
        let program = env!("CARGO_BIN_EXE_pilzdamo");
        let output = Command::new("sh")
            .args(["-c", script, program, &file])
            .current_dir(folder.path())
            .output();
        let output = output.expect("a shell");
        assert!(output.status.success(), "{script}: {output:?}");
    };
    // What was there stays before it.
    shell("echo before >log; \"$0\" place \"$1\" -o /dev/stdout >>log");
    let due = [b"before\n", &placed("booking.clinic")[..]].concat();
    assert_eq!(fs::read(folder.at("log")).unwrap(), due);
    shell("mkfifo pipe && { cat pipe >got & \"$0\" place \"$1\" -o pipe && wait; }");
    assert_eq!(
        fs::read(folder.at("got")).unwrap(),
        placed("booking.clinic")
    );
    assert_eq!(names(&folder), ["got", "log", "pipe"]);
}

#[test]
fn no_input_is_written_over() {
    let files = Files::new("over");
    for (words, inputs) in files.calls() {
        for input in inputs {
            let (hard, soft) = (files.folder.at("hard"), files.folder.at("soft"));
            fs::hard_link(input, &hard).expect("a link");
            symlink(input, &soft).expect("a link");
            let kept = fs::read(input).unwrap();
            for out in [input, &hard, &soft] {
                let words = with(&words, &["-o", out]);
                let answer = pilzdamo(&words);
                assert_eq!((answer.status, answer.out.len()), (2, 0), "{words:?}");
                let due = format!("pilzdamo: {out} is the same file as {input}, and ");
                assert!(answer.err.starts_with(&due), "{words:?}: {}", answer.err);
                assert_eq!(fs::read(input).unwrap(), kept, "{words:?}");
            }
            let due = pilzdamo(&with(&words, &["-o", "-"])).out;
            let forced = pilzdamo(&with(&words, &["--force", "-o", &soft]));
            assert_eq!(forced.status, 0, "{words:?}: {}", forced.err);
            assert_eq!(fs::read(input).unwrap(), due, "{words:?}");
            assert_eq!(
                fs::read(&hard).unwrap(),
                kept,
                "the other name keeps its file"
            );
            fs::remove_file(&hard).expect("it goes");
            fs::remove_file(&soft).expect("it goes");
            fs::write(input, kept).expect("it can be written");
        }
    }
}

/// Hours and names are inputs as well.
#[test]
fn nor_are_hours_and_names() {
    let folder = Folder::new("hours over");
    let file = example("hours/desk.clinic");
    let hours = folder.file("hours", example_bytes("hours/week.hours"));
    let words = [
        "place",
        &file,
        "--at=Mon 08:00",
        "--hours",
        &hours,
        "-o",
        &hours,
    ];
    let answer = pilzdamo(&words);
    assert_eq!(answer.status, 2);
    assert!(answer.err.contains("not written over without --force"));
    let words = ["place", &file, "--names", &hours, "-o", &hours];
    let answer = pilzdamo(&words);
    assert_eq!(answer.status, 2);
    assert!(answer.err.contains("not written over without --force"));
    assert_eq!(fs::read(&hours).unwrap(), example_bytes("hours/week.hours"));
}

/// A signal at whatever moment leaves the old file or the new one, whole, and nothing else.
#[test]
fn a_signal_leaves_nothing_behind() {
    let folder = Folder::new("signals");
    let comments = "# A comment.\n".repeat(100_000);
    let text = folder.file("in.txt", [&long_text()[..], comments.as_bytes()].concat());
    let out = folder.file("out", "as it was");
    let begun = Instant::now();
    let due = pilzdamo(&["place", &text]).out;
    let taken = begun.elapsed();
    let mut replaced = 0;
    for round in 0..100 {
        fs::write(&out, "as it was").expect("it can be written");
        let mut child = Command::new(env!("CARGO_BIN_EXE_pilzdamo"))
            .args(["place", &text, "-o", &out])
            .stdout(Stdio::null())
            .stderr(Stdio::null())
            .spawn()
            .expect("the command starts");
        // Moments that are spread over the time that a call takes.
        thread::sleep(taken * (round * 37 % 100) / 100);
        let signal = ["-INT", "-TERM", "-HUP"][round as usize % 3];
        let process = child.id().to_string();
        let kill = Command::new("kill")
            .args([signal, &process])
            .stderr(Stdio::null())
            .status();
        kill.expect("kill starts");
        child.wait().expect("it ends");
        assert_eq!(names(&folder), ["in.txt", "out"], "{signal}");
        let found = fs::read(&out).expect("a file");
        assert!(found == due || found == b"as it was", "{signal}: {found:?}");
        replaced += usize::from(found == due);
    }
    println!("{replaced} of 100 files were replaced");
}

/// What a command that was killed has left is removed by the next write in its folder; what
/// another still writes stays, and so does what has only a like name.
#[test]
fn old_files_are_removed() {
    let folder = Folder::new("old files");
    let booking = example("booking.clinic");
    for name in [".pilzdamo-1-0", ".pilzdamo-4194304-17"] {
        folder.file(name, "left");
    }
    let held = folder.file(".pilzdamo-2-0", "held");
    let held = fs::File::open(held).expect("a file");
    held.lock().expect("it can be locked");
    for name in [
        ".pilzdamo-",
        ".pilzdamo-1",
        ".pilzdamo-1-x",
        ".pilzdamo--1",
        "pilzdamo-1-0",
    ] {
        folder.file(name, "another's");
    }
    fs::create_dir(folder.path().join(".pilzdamo-3-0")).expect("a folder");
    symlink(".pilzdamo-1", folder.path().join(".pilzdamo-4-0")).expect("a link");
    let out = folder.at("out");
    assert_eq!(pilzdamo(&["place", &booking, "-o", &out]).status, 0);
    let kept = [
        ".pilzdamo-",
        ".pilzdamo--1",
        ".pilzdamo-1",
        ".pilzdamo-1-x",
        ".pilzdamo-2-0",
        ".pilzdamo-3-0",
        ".pilzdamo-4-0",
        "out",
        "pilzdamo-1-0",
    ];
    assert_eq!(names(&folder), kept);
    // Not by closing it: a program that another test starts at this moment has it open too.
    held.unlock().expect("it can be unlocked");
    assert_eq!(pilzdamo(&["place", &booking, "-o", &out]).status, 0);
    assert!(!names(&folder).contains(&".pilzdamo-2-0".to_string()));
}

/// Two outputs that a link makes one are wrong use, and nothing is written.
#[test]
fn two_outputs_by_a_link() {
    let folder = Folder::new("one by a link");
    let text = folder.file("in.txt", example_bytes("transfer.txt"));
    symlink("new", folder.path().join("link")).expect("a link");
    let (link, new) = (folder.at("link"), folder.at("new"));
    for [file, kept] in [[&link, &new], [&new, &link]] {
        let answer = pilzdamo(&["pack", &text, "-o", file, "--names", kept]);
        let due = "pilzdamo: pack: FILE and NAMES are the same file\n";
        assert_eq!((answer.status, answer.err.as_str()), (2, due));
        assert_eq!(names(&folder), ["in.txt", "link"]);
    }
}
