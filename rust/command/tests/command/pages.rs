//! Every command of a page is run, from its first line to its last and in one folder, and what the page says that a command
//! prints is compared. `UPDATE=1 cargo test -p command pages` writes the pages anew, for the difference to be read.
//!
//! | in a page | what it is |
//! |---|---|
//! | a block `sh` | commands, a line each, which are answered |
//! | a block `console` | commands after `$ `, and below each all that it prints |
//! | a block `console wrapped` | the same, where a line that begins with a space goes on with the one before it |
//! | a block `text NAME` | the file NAME |
//! | `./pilzdamo ...` in a sentence | a command, which is answered; one with a word such as FILE is a usage |
//! | an item that begins with `- 6 at word 27: ` | its command is refused so |
//! | six spaces below an item | what its command prints on standard output |

use crate::common::{example_bytes, pilzdamo as call, Folder};
use crate::markdown::{code, page};
use crate::script::{repository, said, Place, CARGO, RT};
use crate::unbuilt::words;
use std::fs;
use std::os::unix::fs::symlink;
use std::process::{Command, Output};

/// Where a page's commands are typed: a folder that has the program and the examples.
struct Desk {
    folder: Folder,
    /// A checkout with stand-ins for rt and cargo, for commands that build or test it.
    checkout: Place,
    commands: usize,
}

impl Desk {
    fn new(name: &str) -> Desk {
        let name = name.replace('/', " ");
        let folder = Folder::new(&format!("page {name}"));
        let link = |to: &str, from| symlink(to, folder.path().join(from)).expect("a link");
        link(env!("CARGO_BIN_EXE_pilzdamo"), "pilzdamo");
        let examples = repository("examples").canonicalize().expect("a folder");
        symlink(examples, folder.path().join("examples")).expect("a link");
        let checkout = Place::new(&format!("page {name} checkout"));
        checkout.copy("test");
        Desk {
            folder,
            checkout: checkout.with(&[("rt", RT), ("cargo", CARGO)]),
            commands: 0,
        }
    }

    fn run(&mut self, command: &str) -> Output {
        self.commands += 1;
        Command::new("bash")
            .args(["-o", "pipefail", "-c", command])
            .current_dir(self.folder.path())
            .output()
            .expect("bash starts")
    }

    /// Runs a command that is to be answered.
    fn answered(&mut self, command: &str) -> Output {
        if is_of_a_checkout(command) {
            self.commands += 1;
            let script = self.checkout.at("bin/bash");
            let said = said(
                self.checkout
                    .command(&script)
                    .args(["-c", command])
                    .env("HOME", self.checkout.at("home"))
                    .current_dir(self.checkout.at(".")),
            );
            assert_eq!(said.status, 0, "{command}\n{}", said.err);
            return self.run("true");
        }
        let output = self.run(command);
        let err = String::from_utf8_lossy(&output.stderr);
        assert_eq!(output.status.code(), Some(0), "{command}\n{err}");
        output
    }

    /// Runs a command in a sentence, which may be one that is to be refused.
    fn in_a_sentence(&mut self, command: &str, item: &str) -> Option<Output> {
        if is_usage(command) {
            let word = command.split(' ').nth(1).expect("a command");
            let help = repository(&format!("rust/command/src/help/{word}.txt"));
            assert!(help.is_file() || is_of_a_checkout(command), "{command}");
            return None;
        }
        let Some(due) = refusal(item) else {
            return Some(self.answered(command));
        };
        let output = self.run(command);
        let err = String::from_utf8_lossy(&output.stderr);
        let refused = output.status.code() == Some(1) && err.contains(&due);
        assert!(refused, "{command}\n{err}");
        Some(output)
    }

    /// A block of commands with what they print now; where lines are wrapped, as they stand if
    /// they say the same.
    fn typed(&mut self, block: &[&str], wrapped: bool) -> Vec<String> {
        let mut page = Vec::new();
        let mut lines = block.iter().peekable();
        while let Some(line) = lines.next() {
            let command = line.strip_prefix("$ ").expect("a command");
            page.push(line.to_string());
            let mut due = Vec::new();
            while let Some(line) = lines.next_if(|line| !line.starts_with("$ ")) {
                due.push(line.to_string());
            }
            let output = self.run(&format!("{{ {command}\n}} 2>&1"));
            let printed = lines_of(&output.stdout);
            let same = wrapped && joined(&due) == printed;
            page.extend(if same { due } else { printed });
        }
        page
    }
}

/// Whether code in a sentence is a command, and not a step or a name.
fn is_command(code: &str) -> bool {
    code.starts_with("./") && code != "./pilzdamo" || code.contains(" | ./pilzdamo ")
}

/// Whether a command builds, installs or tests the checkout.
fn is_of_a_checkout(command: &str) -> bool {
    ["./test", "./pilzdamo build", "./pilzdamo install"]
        .iter()
        .any(|start| command.starts_with(start))
}

/// Whether a command has a word such as FILE or `[DIR]`.
fn is_usage(command: &str) -> bool {
    let stands_for = |word: &str| {
        let word = word.trim_matches(['[', ']', '.']);
        word.len() > 1 && word.bytes().all(|byte| byte.is_ascii_uppercase()) || word == "N"
    };
    command.split(' ').any(stands_for)
}

fn lines_of(bytes: &[u8]) -> Vec<String> {
    let text = String::from_utf8_lossy(bytes);
    text.lines().map(str::to_string).collect()
}

/// Lines as they are printed, where the page wraps them.
fn joined(lines: &[String]) -> Vec<String> {
    let mut joined: Vec<String> = Vec::new();
    for line in lines {
        match (line.strip_prefix(' '), joined.last_mut()) {
            (Some(more), Some(before)) => *before += &format!(" {}", more.trim_start()),
            _ => joined.push(line.clone()),
        }
    }
    joined
}

/// The refusal that an item begins with, `- 6 at word 27: ` or `- 3: `: its sentence, up to
/// the place.
fn refusal(item: &str) -> Option<String> {
    let (refusal, _) = item.strip_prefix("- ")?.split_once([':', '('])?;
    let (number, place) = match refusal.trim().split_once(" at ") {
        Some((number, place)) => (number, format!(" at {place}")),
        None => (refusal.trim(), "; no place".to_string()),
    };
    let number: u16 = number.parse().ok()?;
    let meaning = pilzdamo::meaning(number).expect("a refusal");
    Some(format!("{meaning}{place}"))
}

/// The page with what its commands print now.
fn retyped(page: &str, desk: &mut Desk) -> String {
    let mut typed: Vec<String> = Vec::new();
    let mut item = "";
    let mut printed: Option<Output> = None;
    let mut lines = page.lines().peekable();
    while let Some(line) = lines.next() {
        if line.starts_with("      ") && !item.is_empty() {
            // What the item's command prints.
            while lines.next_if(|line| line.starts_with("      ")).is_some() {}
            let output = printed.take().expect("a command before it");
            let now = lines_of(&output.stdout);
            typed.extend(now.iter().map(|line| format!("      {line}")));
            continue;
        }
        typed.push(line.to_string());
        if let Some(info) = line.strip_prefix("```") {
            let mut block = Vec::new();
            while let Some(line) = lines.next_if(|line| *line != "```") {
                block.push(line);
            }
            let mut words = info.split(' ');
            match (words.next(), words.next()) {
                (Some("sh"), _) => block.iter().for_each(|command| {
                    desk.answered(command);
                }),
                (Some("console"), how) => {
                    typed.extend(desk.typed(&block, how == Some("wrapped")));
                    block.clear();
                }
                (Some("text"), Some(name)) => {
                    let text: String = block.iter().map(|line| format!("{line}\n")).collect();
                    desk.folder.file(name, text);
                }
                _ => (),
            }
            typed.extend(block.into_iter().map(str::to_string));
            typed.push(lines.next().expect("the end of the block").to_string());
            continue;
        }
        if line.starts_with("    ") {
            continue;
        }
        if line.starts_with("- ") {
            (item, printed) = (line, None);
        } else if !line.is_empty() && !line.starts_with("  ") {
            item = "";
        }
        for command in code(line).filter(|code| is_command(code)) {
            if let Some(output) = desk.in_a_sentence(command, item) {
                printed = Some(output);
            }
        }
    }
    typed.join("\n") + "\n"
}

/// Runs a page's commands, at least so many, and compares.
fn holds(name: &str, commands: usize) {
    let page = page(name);
    let mut desk = Desk::new(name);
    let typed = retyped(&page, &mut desk);
    if std::env::var_os("UPDATE").is_some() {
        return fs::write(repository(name), &typed).expect("it can be written");
    }
    for (number, (due, now)) in (1..).zip(page.lines().zip(typed.lines())) {
        assert_eq!(due, now, "{name}, line {number}");
    }
    assert_eq!(page, typed, "{name}");
    assert!(desk.commands >= commands, "{name}: {}", desk.commands);
}

#[test]
fn the_readme() {
    let name = "README.md";
    holds(name, 8);
    let length = page(name).len();
    assert!(length <= 8192, "a README is a door: {length} bytes");
}

#[test]
fn the_guide() {
    holds("docs/GUIDE.md", 20);
}

#[test]
fn the_command_line() {
    let name = "docs/CLI.md";
    holds(name, 8);
    let page = page(name);
    let (commands, options) = page.split_once("\n## Options\n").expect("the options");
    for word in words() {
        assert!(commands.contains(&format!("\n| `{word}")), "{word}");
        let help = repository(&format!("rust/command/src/help/{word}.txt"));
        let help = fs::read_to_string(help).expect("a page");
        let lines = help.lines().filter(|line| line.starts_with("  -"));
        for line in lines {
            let line = line.trim_start().split("  ").next().unwrap_or_default();
            for option in line.split(", ").filter_map(|part| part.split(' ').next()) {
                assert!(options.contains(&format!("`{option}")), "{word}: {option}");
            }
        }
    }
}

#[test]
fn the_format() {
    holds("docs/FORMAT.md", 10);
}

#[test]
fn the_objects() {
    holds("docs/JSON.md", 10);
}

#[test]
fn the_examples() {
    holds("examples/README.md", 120);
}

#[test]
fn the_published_examples() {
    holds("examples/published/README.md", 10);
}

/// The files that the examples of the help pages speak of.
fn files_of_the_help(folder: &Folder) {
    let ward = crate::format::example();
    folder.file("ward.txt", &ward);
    let second = folder.file("second.txt", ward.replace("clinic 1", "clinic 2"));
    folder.file("placed.txt", crate::format::placed());
    folder.file("day.choices", "ask ask ask");
    folder.file("ward.seats", "caller 1");
    for (name, house) in [("east", "north"), ("west", "south")] {
        for form in ["clinic", "txt"] {
            let bytes = example_bytes(&format!("house/{house}.{form}"));
            folder.file(&format!("{name}.{form}"), bytes);
        }
    }
    for notice in ["november.notice", "december.notice"] {
        folder.file(notice, example_bytes(&format!("notices/{notice}")));
    }
    let [bytes, columns, names] =
        ["ward.clinic", "ward-by-column.clinic", "ward.names"].map(|name| folder.at(name));
    let pack = ["pack", &second, "-o", &bytes, "--names", &names];
    assert_eq!(call(&pack).status, 0);
    assert_eq!(call(&["columns", &bytes, "-o", &columns]).status, 0);
}

/// The examples of the help pages and of the man page are answered.
#[test]
fn the_help() {
    let man = page("docs/pilzdamo.1").replace("\\-", "-");
    let (_, examples) = man.split_once(".SH EXAMPLES\n.nf\n").expect("examples");
    let (examples, _) = examples.split_once(".fi").expect("their end");
    let mut examples: Vec<String> = examples.lines().map(str::to_string).collect();
    for word in words() {
        let help = page(&format!("rust/command/src/help/{word}.txt"));
        let (_, example) = help.split_once("\nExample:\n  ").expect("an example");
        examples.push(example.trim_end().to_string());
    }
    for example in examples {
        let mut desk = Desk::new("help");
        files_of_the_help(&desk.folder);
        desk.answered(&format!("./{example}"));
    }
}

/// In prose a line has one sentence, so that a change of one can be read.
#[test]
fn one_sentence_a_line() {
    for name in [
        "README.md",
        "docs/GUIDE.md",
        "docs/CLI.md",
        "docs/FORMAT.md",
        "docs/JSON.md",
        "examples/README.md",
        "examples/published/README.md",
    ] {
        let page = page(name);
        for line in crate::markdown::prose(&page).filter(|line| !line.starts_with('|')) {
            let plain: String = line.split('`').step_by(2).collect();
            let ends = [". ", "? ", "! "];
            let next = |(at, end): (usize, &str)| plain[at + end.len()..].chars().next();
            let mut ends = ends.iter().flat_map(|end| plain.match_indices(end));
            let two = ends.any(|end| next(end).is_some_and(char::is_uppercase));
            assert!(!two, "{name}: {line}");
        }
    }
}
