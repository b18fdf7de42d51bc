//! Text and shapes as SVG has them, and how wide a text is.

/// Text that is safe between and in tags. What XML forbids, and line ends, are replaced.
pub fn escaped(text: &str) -> String {
    let mut safe = String::with_capacity(text.len());
    for c in text.chars() {
        match c {
            '&' => safe += "&amp;",
            '<' => safe += "&lt;",
            '>' => safe += "&gt;",
            '"' => safe += "&quot;",
            '\'' => safe += "&apos;",
            '\t' | '\n' | '\r' => safe.push(' '),
            c if c.is_control() || matches!(c, '\u{fffe}' | '\u{ffff}') => safe.push('\u{fffd}'),
            c => safe.push(c),
        }
    }
    safe
}

/// How wide a text is at most in the common fonts without serifs, at a size.
pub fn width(text: &str, size: usize) -> usize {
    let thousandths: usize = text.chars().map(advance).sum();
    (thousandths * size).div_ceil(1_000)
}

/// How wide a character is, in thousandths of the font's size.
fn advance(c: char) -> usize {
    match c {
        'i' | 'j' | 'l' | 'I' | '\'' | '|' => 310,
        ' ' | '.' | ',' | ':' | ';' | '!' | '/' | '(' | ')' | '-' | 'f' | 'r' | 't' => 420,
        'm' | 'w' | 'M' | 'W' | '@' | '%' | '+' => 990,
        'a'..='z' | '0'..='9' => 640,
        'A'..='Z' => 790,
        c if c.is_ascii() => 840,
        _ => 1_000,
    }
}

/// The text, or as much of it as this many characters allow.
pub fn cut(text: &str, most: usize) -> String {
    match text.char_indices().nth(most) {
        Some(_) => text.chars().take(most - 1).chain(['…']).collect(),
        None => text.to_string(),
    }
}

/// The most characters of a word that is not cut.
const LONGEST_WORD: usize = 40;

/// The text in lines that have room.
pub fn wrapped(text: &str, size: usize, room: usize) -> Vec<String> {
    let mut lines: Vec<String> = Vec::new();
    for word in text.split_whitespace() {
        let word = cut(word, LONGEST_WORD);
        match lines.last_mut() {
            Some(line) if width(line, size) + width(&word, size) + size <= room => {
                line.push(' ');
                *line += &word;
            }
            _ => lines.push(word),
        }
    }
    lines
}

/// A place in the picture, from its upper left.
#[derive(Clone, Copy)]
pub struct Spot {
    pub x: usize,
    pub y: usize,
}

impl Spot {
    pub fn moved(self, x: usize, y: usize) -> Spot {
        Spot {
            x: self.x + x,
            y: self.y + y,
        }
    }
}

/// How wide and high something is.
#[derive(Clone, Copy)]
pub struct Size {
    pub wide: usize,
    pub high: usize,
}

/// The picture so far.
#[derive(Default)]
pub struct Drawing(pub String);

impl Drawing {
    /// Words whose base line begins here.
    pub fn text(&mut self, class: &str, at: Spot, words: &str) {
        let (Spot { x, y }, words) = (at, escaped(words));
        let class = attribute(class);
        self.0 += &format!("<text{class} x=\"{x}\" y=\"{y}\">{words}</text>\n");
    }

    /// A rectangle with round corners.
    pub fn rect(&mut self, class: &str, at: Spot, size: Size, round: usize) {
        let (Spot { x, y }, Size { wide, high }) = (at, size);
        let class = attribute(class);
        let round = match round {
            0 => String::new(),
            _ => format!(" rx=\"{round}\""),
        };
        self.0 += &format!(
            "<rect{class} x=\"{x}\" y=\"{y}\" width=\"{wide}\" height=\"{high}\"{round}/>\n"
        );
    }

    /// A line down, over to the side and down again.
    pub fn line(&mut self, from: Spot, to: Spot) {
        let (Spot { x, y }, half) = (from, (from.y + to.y) / 2);
        let path = match x == to.x {
            true => format!("M{x} {y}V{}", to.y),
            false => format!("M{x} {y}V{half}H{}V{}", to.x, to.y),
        };
        self.0 += &format!("<path class=\"line\" d=\"{path}\"/>\n");
    }

    /// A group with a title, which readers show where they are pointed at.
    pub fn group(&mut self, attributes: &str, title: &str, inside: impl FnOnce(&mut Drawing)) {
        self.0 += &format!("<g {attributes}>\n<title>{}</title>\n", escaped(title));
        inside(self);
        self.0 += "</g>\n";
    }
}

fn attribute(class: &str) -> String {
    match class {
        "" => String::new(),
        _ => format!(" class=\"{class}\""),
    }
}

#[cfg(test)]
mod tests {
    use super::{cut, escaped, wrapped};

    #[test]
    fn what_xml_forbids_is_replaced() {
        let all = "a<b>&\"'\u{0}\u{1b}\u{ffff}\n\u{e9}";
        let due = "a&lt;b&gt;&amp;&quot;&apos;\u{fffd}\u{fffd}\u{fffd} \u{e9}";
        assert_eq!(escaped(all), due);
    }

    #[test]
    fn long_words_are_cut() {
        assert_eq!(
            (cut("holder", 6), cut("holders", 6)),
            ("holder".to_string(), "holde…".to_string())
        );
        let lines = wrapped(&format!("a {} b", "w".repeat(100)), 10, 410);
        assert_eq!(lines, ["a", &format!("{}…", "w".repeat(39)), "b"]);
    }
}
