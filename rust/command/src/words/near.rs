//! Suggestions for misspelled commands and options.

/// A suggestion for an unknown word, if known names are near to it.
pub fn hint<'a>(word: &str, names: impl Iterator<Item = &'a str>) -> String {
    let near: Vec<String> = names
        .filter(|name| is_near(word, name))
        .map(|name| format!("'{name}'"))
        .collect();
    match near.is_empty() {
        true => String::new(),
        false => format!("; did you mean {}?", near.join(" or ")),
    }
}

/// Whether one letter changed, added or missing, or two neighbours swapped, make the one
/// of the other.
fn is_near(word: &str, name: &str) -> bool {
    let (word, name): (Vec<char>, Vec<char>) = (word.chars().collect(), name.chars().collect());
    let same = word.iter().zip(&name).take_while(|(a, b)| a == b).count();
    let (word, name) = (&word[same..], &name[same..]);
    match (word, name) {
        ([], []) => false,
        ([a, b, word @ ..], [c, d, name @ ..]) if (a, b) == (d, c) && word == name => true,
        ([_, word @ ..], [_, name @ ..]) if word == name => true,
        (word, [_, name @ ..]) if word == name => true,
        ([_, word @ ..], name) => word == name,
        _ => false,
    }
}

#[cfg(test)]
mod tests {
    use super::{hint, is_near};

    #[test]
    fn one_letter() {
        for word in [
            "plce", "lace", "plac", "placee", "splace", "plaace", "plase", "place.", "palce",
            "lpace", "plaec",
        ] {
            assert!(is_near(word, "place"), "{word}");
        }
        for word in ["place", "", "plc", "plcae.", "pleca", "eplac", "PLACE"] {
            assert!(!is_near(word, "place"), "{word}");
        }
    }

    #[test]
    fn all_that_are_near() {
        let names = ["rows", "run", "show"];
        assert_eq!(hint("ros", names.into_iter()), "; did you mean 'rows'?");
        assert_eq!(hint("column", names.into_iter()), "");
        let two = ["pack", "rack"].into_iter();
        assert_eq!(hint("back", two), "; did you mean 'pack' or 'rack'?");
    }
}
