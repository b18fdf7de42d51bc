//! `./pilzdamo install`, and the man page.

use crate::script::{repository, said, Place, Said, CARGO, RT};
use crate::unbuilt::words;
use std::fs;
use std::os::unix::fs::{symlink, PermissionsExt};
use std::path::{Path, PathBuf};

/// The documents that are installed.
const DOCUMENTS: [&str; 4] = ["GUIDE.md", "CLI.md", "FORMAT.md", "JSON.md"];

/// Where they are beside a program.
fn documents(program: &Path) -> PathBuf {
    let folder = program.parent().expect("a folder");
    match folder.ends_with("bin") {
        true => folder.with_file_name("share/doc/pilzdamo"),
        false => folder.join("doc"),
    }
}

fn place(name: &str) -> Place {
    Place::new(name).with(&[("rt", RT), ("cargo", CARGO)])
}

/// What is installed is the program that was built, the page and the documents, with nothing
/// beside them.
fn is_installed(place: &Place, program: &Path, page: &Path) {
    let built = fs::read(place.at("rust/target/release/pilzdamo")).expect("a program");
    assert_eq!(fs::read(program).expect("a program"), built);
    let mode = fs::metadata(program).expect("a file").permissions().mode();
    assert_eq!(mode & 0o777, 0o755);
    let man = fs::read(repository("docs/pilzdamo.1")).expect("a page");
    assert_eq!(fs::read(page).expect("a page"), man);
    let documents = documents(program);
    for document in DOCUMENTS {
        let text = fs::read(repository(&format!("docs/{document}"))).expect("a page");
        assert_eq!(fs::read(documents.join(document)).expect("a page"), text);
    }
    let found = fs::read_dir(&documents).expect("a folder").count();
    assert_eq!(found, DOCUMENTS.len());
    for file in [program, page] {
        let folder = fs::read_dir(file.parent().expect("a folder")).expect("a folder");
        let mut names = folder.map(|entry| entry.expect("an entry").file_name());
        assert!(names.all(|name| !name.display().to_string().starts_with('.')));
    }
}

#[test]
fn into_a_folder_called_bin() {
    let place = place("install bin");
    let said = place.call(&["install", "my own/bin"]);
    assert_eq!(said.status, 0, "{}", said.err);
    let own = fs::canonicalize(place.folder.path().join("my own")).expect("a folder");
    let (program, page) = (
        own.join("bin/pilzdamo"),
        own.join("share/man/man1/pilzdamo.1"),
    );
    let due = format!(
        "the program is {}\nits man page is {}\nits documents are in {}\n{} is not on the PATH: \
         put it there, or call the program by its whole name\n",
        program.display(),
        page.display(),
        own.join("share/doc/pilzdamo").display(),
        own.join("bin").display()
    );
    assert_eq!(said.out, due);
    is_installed(&place, &program, &page);
    // Again, over what is there; nothing is built again.
    fs::write(&program, "old").expect("it can be written");
    let said = place.call(&["install", "my own/bin/"]);
    assert_eq!((said.status, said.out, said.err.as_str()), (0, due, ""));
    is_installed(&place, &program, &page);
}

#[test]
fn into_another_folder() {
    let place = place("install other");
    let said = place.call(&["install", "tools"]);
    assert_eq!(said.status, 0, "{}", said.err);
    let tools = place.folder.path().join("tools");
    is_installed(&place, &tools.join("pilzdamo"), &tools.join("pilzdamo.1"));
}

/// Behind `--` a folder may begin with a hyphen.
#[test]
fn into_a_folder_behind_two_hyphens() {
    let place = place("install hyphens");
    for folder in ["-tools", "other", "-", "a line\n"] {
        let said = place.call(&["install", "--", folder]);
        assert_eq!(said.status, 0, "{}", said.err);
        let tools = place.folder.path().join(folder);
        is_installed(&place, &tools.join("pilzdamo"), &tools.join("pilzdamo.1"));
    }
    let said = place.call(&["install", "--", "a", "-b"]);
    assert_eq!((said.status, said.out.as_str()), (2, ""));
    let due = "pilzdamo: install: '-b' is too many\n";
    assert!(said.err.starts_with(due), "{}", said.err);
}

/// A folder of that name elsewhere, to which `cd` would go, is not meant.
#[test]
fn into_the_folder_that_is_here() {
    let place = place("install here");
    let elsewhere = place.folder.path().join("elsewhere");
    fs::create_dir_all(elsewhere.join("tools")).expect("it can be made");
    let mut command = place.command(&place.at("pilzdamo"));
    let said = said(command.env("CDPATH", &elsewhere).args(["install", "tools"]));
    assert_eq!(said.status, 0, "{}", said.err);
    let tools = place.folder.path().join("tools");
    is_installed(&place, &tools.join("pilzdamo"), &tools.join("pilzdamo.1"));
}

/// Control characters in the folder's name are written out.
#[test]
fn into_a_folder_with_hidden_characters() {
    let place = place("install hidden");
    let said = place.call(&["install", "a\u{1b}b\\"]);
    assert_eq!(said.status, 0, "{}", said.err);
    let here = fs::canonicalize(place.folder.path()).expect("a folder");
    let told = format!("{}/a\\x1bb\\\\", here.display());
    let due = format!(
        "the program is {told}/pilzdamo\nits man page is {told}/pilzdamo.1\nits documents are in \
         {told}/doc\n{told} is not on the PATH: put it there, or call the program by its whole \
         name\n"
    );
    assert_eq!(said.out, due);
    fs::write(here.join("file"), "").expect("it can be written");
    let said = place.call(&["install", "file/x\u{1b}y"]);
    assert_eq!((said.status, said.out.as_str()), (2, ""));
    assert!(!said.err.contains('\u{1b}'), "{}", said.err);
    let due = "\npilzdamo: install: file/x\\x1by can't be made\n";
    assert!(said.err.contains(due), "{}", said.err);
}

#[test]
fn into_the_users_own() {
    let place = place("install home");
    let home = fs::canonicalize(place.folder.path()).expect("a folder");
    let bin = home.join(".local/bin");
    let path = std::env::join_paths([place.at("bin"), bin.clone()]).expect("a path");
    let mut call = place.command(&place.at("pilzdamo"));
    let said = said(call.arg("install").env("HOME", &home).env("PATH", path));
    assert_eq!(said.status, 0, "{}", said.err);
    let due = format!("\n{} is on the PATH\n", bin.display());
    assert!(said.out.ends_with(&due), "{}", said.out);
    let page = home.join(".local/share/man/man1/pilzdamo.1");
    is_installed(&place, &bin.join("pilzdamo"), &page);
}

/// A link to the script makes room for the program; the script stays.
#[test]
fn in_place_of_a_link() {
    let place = place("install link");
    let bin = place.folder.path().join("bin");
    fs::create_dir_all(&bin).expect("a folder");
    symlink(place.at("pilzdamo"), bin.join("pilzdamo")).expect("a link");
    let script = fs::read(place.at("pilzdamo")).expect("the script");
    assert_eq!(place.call(&["install", "bin"]).status, 0);
    assert_eq!(fs::read(place.at("pilzdamo")).expect("the script"), script);
    assert!(!bin.join("pilzdamo").is_symlink());
}

#[test]
fn wrong_use() {
    let place = place("install wrong");
    let is_wrong = |said: Said, due: &str| {
        assert_eq!((said.status, said.out.as_str()), (2, ""), "{}", said.err);
        assert!(said.err.contains(due), "{}", said.err);
    };
    is_wrong(
        place.call(&["install", "a", "b"]),
        "install: 'b' is too many",
    );
    is_wrong(place.call(&["build", "a"]), "build: 'a' is too many");
    is_wrong(
        place.call(&["install", "--frob"]),
        "install has no option '--frob'",
    );
    is_wrong(place.call(&["install", ""]), "install: DIR is empty: ''");
    is_wrong(place.call(&["install", "--", ""]), "install: DIR is empty");
    let mut call = place.command(&place.at("pilzdamo"));
    let homeless = said(call.arg("install").env_remove("HOME"));
    is_wrong(homeless, "install: DIR is missing, and HOME isn't set");
    // All this is reported before anything is built; the rest needs the program.
    assert_eq!(place.proofs(), 0);
    place.call(&["build"]);
    is_wrong(place.call(&["install", "the root"]), "is the checkout");
    fs::write(place.folder.path().join("a file"), "").expect("it can be written");
    is_wrong(
        place.call(&["install", "a file/bin"]),
        "a file/bin can't be made",
    );
    fs::create_dir_all(place.folder.path().join("taken/pilzdamo")).expect("a folder");
    is_wrong(
        place.call(&["install", "taken"]),
        "taken/pilzdamo can't be written",
    );
}

#[test]
fn help() {
    let place = Place::new("install help");
    for (words, start) in [
        (["install", "--help"], "./pilzdamo install [DIR]\n"),
        (["help", "install"], "./pilzdamo install [DIR]\n"),
        (["build", "-h"], "./pilzdamo build\n"),
        (["help", "build"], "./pilzdamo build\n"),
    ] {
        let said = place.call(&words);
        assert_eq!((said.status, said.err.as_str()), (0, ""));
        assert!(said.out.starts_with(start), "{}", said.out);
    }
}

/// The man page without roff's hyphens.
fn man() -> String {
    let page = fs::read_to_string(repository("docs/pilzdamo.1")).expect("a page");
    page.replace("\\-", "-")
}

/// The long options that a text speaks of.
fn options(text: &str) -> impl Iterator<Item = &str> {
    let words = text.split(|letter: char| !letter.is_ascii_lowercase() && letter != '-');
    words.filter(|word| word.starts_with("--") && word.len() > 2)
}

/// Every word has its line, every option is told, and the version is the program's.
#[test]
fn the_man_page() {
    let man = man();
    let told: Vec<&str> = options(&man).collect();
    for word in words() {
        let start = format!("\n.BR {word} ");
        assert!(man.contains(&start), "{word}");
        let page = repository(&format!("rust/command/src/help/{word}.txt"));
        let page = fs::read_to_string(page).expect("a page");
        for option in options(&page) {
            assert!(told.contains(&option), "{word}: {option}");
        }
    }
    let version = concat!("\"pilzdamo ", env!("CARGO_PKG_VERSION"), "\"");
    assert!(man.lines().next().expect("a line").contains(version));
}

/// Help, man page and explanations of an installed program name documents that are installed.
#[test]
fn documents_that_help_names() {
    let mut texts = vec![man()];
    let source = repository("rust/command/src");
    texts.push(fs::read_to_string(source.join("help.txt")).expect("a page"));
    for folder in ["help", "explain"] {
        for entry in fs::read_dir(source.join(folder)).expect("a folder") {
            let page = entry.expect("an entry").path();
            texts.push(fs::read_to_string(page).expect("a page"));
        }
    }
    let mut named = 0;
    for text in &texts {
        let words = text.split(|c: char| !(c.is_alphanumeric() || "./-_".contains(c)));
        for word in words.map(|word| word.trim_end_matches('.')) {
            if word.ends_with(".md") {
                assert!(DOCUMENTS.contains(&word), "{word}");
                named += 1;
            }
        }
    }
    assert!(named > 6);
}
