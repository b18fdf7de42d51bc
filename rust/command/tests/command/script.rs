//! The script `pilzdamo` at the root, with stand-ins for rt and cargo: building, and what
//! is said where that fails.

use crate::common::Folder;
use std::fs;
use std::os::unix::fs::{symlink, PermissionsExt};
use std::path::{Path, PathBuf};
use std::process::Command;
use std::thread::sleep;
use std::time::Duration;

/// Says what rt says when it proves and tests, and writes a library if asked to.
pub const RT: &str = "#!/bin/sh
if [ \"$*\" = ci ]; then
    echo 'rt: masks proved'
    echo 'rt: ok; handles allowed: none; must-fail edits: 3 refused; every proof and must-fail edit was done in this run'
    echo '5 passed, 0 failed'
    exit
fi
[ \"$*\" = lib ] && [ -f src/lib.rt ] || exit 2
echo called >>../../rt.calls
for crate in masks engine; do
    echo \"rt: chose --jobs 2 for $crate\"
    echo \"fn $crate::with: proved\"
    echo 'rt: rt check --fix-imports removes those imports'
    echo \"crate $crate: modules loaded=2 checked=1\"
    echo 'logic=proved functions=1'
done
mkdir -p out
echo engine >out/libengine.a
";

const RT_FAILS: &str = "#!/bin/sh
echo 'crate masks: modules loaded=2 checked=1'
echo 'logic=not-proved'
echo 'rt: the library masks did not build, so nothing above it was checked' >&2
exit 1
";

/// Writes a program that prints its words and folder, and ends with 1.
pub const CARGO: &str = "#!/bin/sh
if [ \"$1\" = test ]; then exit; fi
echo '   Compiling command'
[ -z \"$PILZDAMO_LIB\" ] || exit 9
while [ \"$1\" != --target-dir ]; do shift; done
mkdir -p \"$2/release\"
printf '#!/bin/sh\\nprintf \"<%%s>\" \"$@\"\\npwd\\nexit 1\\n' >\"$2/release/pilzdamo\"
chmod +x \"$2/release/pilzdamo\"
";

/// The programs that the script uses besides.
const TOOLS: [&str; 20] = [
    "bash", "cat", "chmod", "cp", "dirname", "env", "find", "flock", "grep", "mkdir", "mktemp",
    "mv", "readlink", "rm", "sed", "sh", "tail", "tee", "touch", "wc",
];

/// A root with the script and sources, and a folder of programs.
pub struct Place {
    pub folder: Folder,
}

pub struct Said {
    pub status: i32,
    pub out: String,
    pub err: String,
}

impl Place {
    pub fn new(name: &str) -> Place {
        let folder = Folder::new(name);
        let place = Place { folder };
        let files = [
            "crates/masks/src/lib.rt",
            "crates/engine/src/lib.rt",
            "crates/engine/proofs/Lib.antt",
            "rust/Cargo.lock",
            "rust/pilzdamo/Cargo.toml",
            "rust/pilzdamo/build.rs",
            "rust/pilzdamo/src/lib.rs",
            "rust/text/Cargo.toml",
            "rust/text/src/lib.rs",
            "rust/command/Cargo.toml",
            "rust/command/src/main.rs",
        ];
        for file in files {
            place.write(file, "");
        }
        place.write("crates.txt", "masks:\nengine staticlib: masks\n");
        place.copy("pilzdamo");
        place.copy("staticlib");
        place.copy("rust/Cargo.toml");
        place.copy("docs/pilzdamo.1");
        for page in ["GUIDE", "CLI", "FORMAT", "JSON"] {
            place.copy(&format!("docs/{page}.md"));
        }
        place.copy("rust/command/script");
        place.copy("rust/command/src/help.txt");
        place.copy("rust/command/src/help");
        place.copy("rust/command/src/explain");
        fs::create_dir_all(place.at("bin")).expect("a folder");
        for tool in TOOLS {
            if let Some(path) = on_path(tool) {
                symlink(path, place.at("bin").join(tool)).expect("a link");
            }
        }
        place
    }

    pub fn at(&self, name: &str) -> PathBuf {
        self.folder.path().join("the root").join(name)
    }

    /// A file or a folder of files, as the repository has it.
    pub fn copy(&self, name: &str) {
        let from = repository(name);
        if from.is_dir() {
            for entry in fs::read_dir(from).expect("a folder") {
                let file = entry.expect("an entry").file_name();
                self.copy(&format!("{name}/{}", file.display()));
            }
        } else {
            let to = self.at(name);
            fs::create_dir_all(to.parent().expect("a folder")).expect("it can be made");
            fs::copy(from, to).unwrap_or_else(|error| panic!("{name}: {error}"));
        }
    }

    pub fn write(&self, name: &str, text: &str) {
        let path = self.at(name);
        fs::create_dir_all(path.parent().expect("a folder")).expect("it can be made");
        fs::write(path, text).expect("it can be written");
    }

    fn program(&self, name: &str, text: &str) {
        self.write(&format!("bin/{name}"), text);
        let all = fs::Permissions::from_mode(0o755);
        fs::set_permissions(self.at("bin").join(name), all).expect("it can be run");
    }

    pub fn with(self, programs: &[(&str, &str)]) -> Place {
        for (name, text) in programs {
            self.program(name, text);
        }
        self
    }

    pub fn call(&self, words: &[&str]) -> Said {
        self.call_as(&self.at("pilzdamo"), words)
    }

    fn call_as(&self, script: &Path, words: &[&str]) -> Said {
        said(self.command(script).args(words))
    }

    pub fn command(&self, script: &Path) -> Command {
        let mut command = Command::new(script);
        command
            .env("PATH", self.at("bin"))
            .env("PILZDAMO_LIB", "/another/library")
            .current_dir(self.folder.path());
        command
    }

    /// How often rt was called.
    pub fn proofs(&self) -> usize {
        let calls = fs::read_to_string(self.at("rt.calls")).unwrap_or_default();
        calls.lines().count()
    }
}

pub fn said(command: &mut Command) -> Said {
    let output = command.output().expect("the script starts");
    Said {
        status: output.status.code().expect("an exit status"),
        out: String::from_utf8(output.stdout).expect("text"),
        err: String::from_utf8(output.stderr).expect("text"),
    }
}

/// The path of a file of the repository.
pub fn repository(name: &str) -> PathBuf {
    Path::new(concat!(env!("CARGO_MANIFEST_DIR"), "/../..")).join(name)
}

fn on_path(tool: &str) -> Option<PathBuf> {
    let path = std::env::var_os("PATH")?;
    let mut folders = std::env::split_paths(&path).map(|folder| folder.join(tool));
    folders.find(|path| path.is_file())
}

/// Longer than the clock of the files needs to tell two times apart.
fn wait() {
    sleep(Duration::from_millis(30));
}

#[test]
fn builds_once_and_is_silent_then() {
    let place = Place::new("script").with(&[("rt", RT), ("cargo", CARGO)]);
    let first = place.call(&["check", "a file"]);
    let here = fs::canonicalize(place.folder.path()).expect("a folder");
    let due = format!("<check><a file>{}\n", here.display());
    assert_eq!((first.status, &first.out), (1, &due), "{}", first.err);
    let lines: Vec<&str> = first.err.lines().collect();
    assert!(lines[0].starts_with("pilzdamo: proving and building the engine: "));
    let due_lines = [
        "pilzdamo: crate 1 of 2: masks proved",
        "pilzdamo: crate 2 of 2: engine proved",
        "pilzdamo: building the command: up to a minute",
        "   Compiling command",
    ];
    assert_eq!(lines[1..], due_lines);
    let second = place.call(&["check", "a file"]);
    assert_eq!(
        (second.status, second.out, second.err.as_str()),
        (1, due, "")
    );
    assert_eq!(place.proofs(), 1);
}

#[test]
fn builds_again_what_has_changed() {
    let place = Place::new("changed").with(&[("rt", RT), ("cargo", CARGO)]);
    assert_eq!(place.call(&["build"]).status, 0);
    wait();
    for file in ["rust/command/src/main.rs", "rust/text/src/lib.rs"] {
        place.write(file, "changed");
        let err = place.call(&["check", "a"]).err;
        assert!(err.starts_with("pilzdamo: building the command"), "{err}");
        wait();
    }
    place.write("crates/masks/src/lib.rt", "changed");
    let err = place.call(&["build"]).err;
    assert!(err.starts_with("pilzdamo: proving and building"), "{err}");
    assert!(err.contains("pilzdamo: building the command"), "{err}");
    assert_eq!(place.call(&["check", "a"]).err, "");
    assert_eq!(place.proofs(), 2);
}

#[test]
fn through_a_link() {
    let place = Place::new("link").with(&[("rt", RT), ("cargo", CARGO)]);
    let link = place.folder.path().join("my link");
    symlink(place.at("pilzdamo"), &link).expect("a link");
    let said = place.call_as(&link, &["check", "a"]);
    assert!(said.out.starts_with("<check>"), "{}", said.err);
}

#[test]
fn needs_no_toolchain_once_built() {
    let place = Place::new("built").with(&[("rt", RT), ("cargo", CARGO)]);
    place.call(&["build"]);
    for tool in ["rt", "cargo"] {
        fs::remove_file(place.at("bin").join(tool)).expect("it goes");
    }
    let said = place.call(&["--version"]);
    assert!(said.out.starts_with("<--version>"), "{}", said.err);
}

/// The script ends with 3, and its last line has these words; it is the only line if `alone`.
fn fails(place: &Place, alone: bool, words: &[&str]) {
    for call in [&["check", "a"][..], &["build"], &["install", "new"]] {
        let said = place.call(call);
        assert_eq!((said.status, said.out.as_str()), (3, ""), "{}", said.err);
        let last = said.err.lines().last().expect("a line");
        for word in words {
            assert!(last.contains(word), "{last}");
        }
        assert!(!alone || said.err.lines().count() == 1, "{}", said.err);
    }
    assert!(!place.folder.path().join("new").exists());
}

/// What is missing is reported before anything is proved.
#[test]
fn without_the_toolchains() {
    let due = "install it, or put its folder on the PATH";
    let place = Place::new("without rt").with(&[("cargo", CARGO)]);
    fails(&place, true, &["there is no 'rt' on the PATH", due]);
    let place = Place::new("without cargo").with(&[("rt", RT)]);
    fails(&place, true, &["there is no 'cargo' on the PATH", due]);
    assert_eq!(place.proofs(), 0);
}

#[test]
fn a_build_that_fails() {
    let place = Place::new("fails").with(&[("rt", RT_FAILS), ("cargo", CARGO)]);
    let due = ["the engine could not be proved", "pilzdamo.log"];
    fails(&place, false, &due);
    let err = place.call(&["check", "a"]).err;
    let due = "\npilzdamo: crate 1 of 2: masks NOT PROVED\n\
               pilzdamo: the library masks did not build, so nothing above it was checked\n";
    assert!(err.contains(due), "{err}");
    let place = Place::new("cargo fails").with(&[("rt", RT), ("cargo", "#!/bin/sh\nexit 101\n")]);
    fails(&place, false, &["the command could not be built"]);
    let place = Place::new("no library").with(&[("rt", "#!/bin/sh\n"), ("cargo", CARGO)]);
    fails(&place, false, &["rt did not write", "libengine.a"]);
    let place = Place::new("no program").with(&[("rt", RT), ("cargo", "#!/bin/sh\n")]);
    fails(&place, false, &["cargo did not write", "release/pilzdamo"]);
}

/// A file stands where a folder is to be made, and a folder where a file is: that can't be
/// written by root either.
#[test]
fn a_checkout_that_cannot_be_written() {
    let both = [("rt", RT), ("cargo", CARGO)];
    for file in ["target", "rust/target"] {
        let place = Place::new("unwritable").with(&both);
        place.write(file, "");
        let due = format!("the root/{file} can't be written; copy the checkout to a folder");
        fails(&place, true, &[&due]);
        assert_eq!(place.proofs(), 0);
    }
    let place = Place::new("no lock").with(&both);
    place.write("target/pilzdamo.lock/in the way", "");
    fails(&place, true, &["pilzdamo.lock can't be written"]);
    let place = Place::new("lock fails").with(&both);
    fs::remove_file(place.at("bin/flock")).expect("it goes");
    let place = place.with(&[("flock", "#!/bin/sh\nexit 1\n")]);
    fails(&place, false, &["pilzdamo.lock can't be locked"]);
}
