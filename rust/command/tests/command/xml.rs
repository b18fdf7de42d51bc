//! A strict reader of XML, as small as the pictures need: a declaration, one root,
//! elements, quoted attributes, the five entities. Anything else is an error.

use std::collections::BTreeMap;

#[derive(Debug, Default)]
pub struct Element {
    pub name: String,
    pub attributes: BTreeMap<String, String>,
    pub children: Vec<Element>,
    /// The text directly in it.
    pub text: String,
}

impl Element {
    pub fn attribute(&self, name: &str) -> &str {
        self.attributes.get(name).map_or("", String::as_str)
    }

    /// A coordinate or a length.
    pub fn number(&self, name: &str) -> usize {
        let value = self.attribute(name);
        value
            .parse()
            .unwrap_or_else(|_| panic!("{name} of {self:?}"))
    }

    pub fn has_class(&self, class: &str) -> bool {
        self.attribute("class").split(' ').any(|word| word == class)
    }

    /// It and all in it.
    pub fn all(&self) -> Vec<&Element> {
        let (mut all, mut waiting) = (Vec::new(), vec![self]);
        while let Some(element) = waiting.pop() {
            all.push(element);
            waiting.extend(element.children.iter().rev());
        }
        all
    }

    /// Those in it with a class.
    pub fn of_class(&self, class: &str) -> Vec<&Element> {
        let mut all = self.all();
        all.retain(|element| element.has_class(class));
        all
    }

    /// The text of its child of this name.
    pub fn child(&self, name: &str) -> &str {
        let mut children = self.children.iter();
        let child = children.find(|child| child.name == name);
        child.map_or("", |child| &child.text)
    }
}

const DECLARATION: &str = "<?xml version=\"1.0\" encoding=\"UTF-8\"?>\n";

/// The root of a document.
pub fn parse(text: &str) -> Result<Element, String> {
    if let Some(c) = text.chars().find(|&c| !is_permitted(c)) {
        return Err(format!("a character that XML forbids: {c:?}"));
    }
    let mut rest = text.strip_prefix(DECLARATION).ok_or("no declaration")?;
    // The elements that are open, below one that is to get the root.
    let mut open = vec![Element::default()];
    while !rest.is_empty() {
        let top = open.last_mut().expect("it stays open");
        let words = rest.find('<').unwrap_or(rest.len());
        top.text += &unescaped(&rest[..words])?;
        rest = &rest[words..];
        if rest.is_empty() {
            break;
        }
        let end = rest.find('>').ok_or("a tag without end")?;
        let (tag, after) = (&rest[1..end], &rest[end + 1..]);
        rest = after;
        match tag.strip_prefix('/') {
            Some(name) => close(&mut open, name)?,
            None => {
                open.push(start(tag.strip_suffix('/').unwrap_or(tag))?);
                if tag.ends_with('/') {
                    let name = open[open.len() - 1].name.clone();
                    close(&mut open, &name)?;
                }
            }
        }
    }
    only_root(open)
}

fn only_root(mut open: Vec<Element>) -> Result<Element, String> {
    let mut outside = open.pop().expect("it stays open");
    if !open.is_empty() {
        return Err(format!("<{}> is not closed", outside.name));
    }
    if !outside.text.trim().is_empty() || outside.children.len() != 1 {
        return Err("not one root alone".to_string());
    }
    Ok(outside.children.remove(0))
}

fn close(open: &mut Vec<Element>, name: &str) -> Result<(), String> {
    let element = open.pop().expect("it stays open");
    match open.last_mut() {
        Some(parent) if element.name == name => parent.children.push(element),
        _ => return Err(format!("</{name}> closes <{}>", element.name)),
    }
    Ok(())
}

/// The start of an element: its name and attributes.
fn start(tag: &str) -> Result<Element, String> {
    let (name, mut rest) = name(tag)?;
    let mut element = Element {
        name: name.to_string(),
        ..Element::default()
    };
    while !rest.is_empty() {
        let (key, after) = self::name(rest.strip_prefix(' ').ok_or("no space")?)?;
        let value = after.strip_prefix("=\"").ok_or("no quoted value")?;
        let (value, after) = value.split_once('"').ok_or("a value without end")?;
        if value.contains('<') {
            return Err(format!("'<' in a value: {value}"));
        }
        let before = element
            .attributes
            .insert(key.to_string(), unescaped(value)?);
        if before.is_some() {
            return Err(format!("twice {key} in <{name}>"));
        }
        rest = after;
    }
    Ok(element)
}

/// A name, and what stands after it.
fn name(text: &str) -> Result<(&str, &str), String> {
    let end = text.find(|c: char| !(c.is_ascii_alphanumeric() || c == '-'));
    let (name, rest) = text.split_at(end.unwrap_or(text.len()));
    match name.starts_with(|c: char| c.is_ascii_alphabetic()) {
        true => Ok((name, rest)),
        false => Err(format!("no name: {text:.40}")),
    }
}

fn unescaped(text: &str) -> Result<String, String> {
    if text.contains("]]>") {
        return Err("]]> in text".to_string());
    }
    let mut parts = text.split('&');
    let mut plain = parts.next().unwrap_or_default().to_string();
    for part in parts {
        let (entity, rest) = part.split_once(';').ok_or("an entity without end")?;
        plain.push(match entity {
            "amp" => '&',
            "lt" => '<',
            "gt" => '>',
            "quot" => '"',
            "apos" => '\'',
            _ => return Err(format!("an unknown entity: {entity}")),
        });
        plain += rest;
    }
    Ok(plain)
}

/// XML 1.0, production 2.
fn is_permitted(c: char) -> bool {
    matches!(c, '\t' | '\n' | '\r' | ' '..='\u{fffd}' | '\u{10000}'..)
}

#[test]
fn what_is_no_xml() {
    let wrong = [
        "",
        "<a/><b/>",
        "<a>",
        "<a></b>",
        "<a><b></a></b>",
        "</a>",
        "<a/>words",
        "<a>&nbsp;</a>",
        "<a>&</a>",
        "<a b=c/>",
        "<a b='c'/>",
        "<a b=\"c\" b=\"d\"/>",
        "<a b=\"<\"/>",
        "<a b=\"c\"d=\"e\"/>",
        "<a>\u{1}</a>",
        "<a>\u{ffff}</a>",
        "<1/>",
        "<!-- a --><a/>",
    ];
    for text in wrong {
        assert!(parse(&format!("{DECLARATION}{text}")).is_err(), "{text}");
    }
    assert!(parse("<a/>").is_err());
    let right = parse(&format!("{DECLARATION}<a b=\"&lt;\">c<d/>&amp;</a>\n")).expect("it is XML");
    assert_eq!((right.attribute("b"), &right.text[..]), ("<", "c&"));
    assert_eq!(right.children.len(), 1);
}
