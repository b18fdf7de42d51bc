//! A refusal explained.

use crate::refusals::Refusal;

/// The widest line, if its words allow it.
const WIDTH: usize = 78;

/// All that there is to say of a refusal, after the engine's phrase for it.
pub fn text(number: u16, refusal: &Refusal) -> String {
    let meaning = pilzdamo::meaning(number).unwrap_or_else(|| format!("Refused {number}"));
    let mut text = wrapped(&meaning) + "\n";
    let parts = [
        ("the place counts", refusal.place),
        ("who can mend it", refusal.who),
        ("what is wrong", refusal.wrong),
        ("how to mend it", refusal.mend),
    ];
    for (title, words) in parts {
        text.push_str(&wrapped(&format!("{title}: {words}")));
    }
    text
}

/// The words in lines, those after the first indented.
fn wrapped(words: &str) -> String {
    let mut text = String::new();
    let mut line = String::new();
    for word in words.split_whitespace() {
        if !line.is_empty() && line.len() + 1 + word.len() > WIDTH {
            text.push_str(&line);
            text.push('\n');
            line = " ".to_string();
        }
        if !line.is_empty() {
            line.push(' ');
        }
        line.push_str(word);
    }
    text + &line + "\n"
}
