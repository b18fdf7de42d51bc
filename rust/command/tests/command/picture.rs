//! What a picture owes: it is SVG, has each node once, and the roles that are held.

use crate::common::pilzdamo_fed;
use crate::draft::mask;
use crate::xml::{self, Element};
use std::collections::BTreeMap;
use text::Records;

/// The picture that the command prints, read as XML.
pub fn picture(words: &[&str], input: &[u8]) -> Element {
    let answer = pilzdamo_fed(&[&["show", "--svg"], words].concat(), input);
    assert_eq!((answer.status, &answer.err[..]), (0, ""), "{words:?}");
    let svg = xml::parse(answer.text()).unwrap_or_else(|why| panic!("{why}\n{words:?} {input:?}"));
    fits(&svg);
    svg
}

/// The elements of SVG 1.1 that pictures have, with the attributes that they need and
/// those that they may have.
const ELEMENTS: [(&str, &str, &str); 7] = [
    ("svg", "xmlns version width height viewBox", ""),
    ("title", "", ""),
    ("style", "type", ""),
    ("g", "class", "id"),
    ("rect", "width height", "class x y rx fill"),
    ("path", "class d", ""),
    ("text", "x y", "class"),
];

/// Its elements and attributes are those of SVG, and shapes have no elements in them.
fn is_svg(svg: &Element) {
    for element in svg.all() {
        let known = ELEMENTS.iter().find(|(name, ..)| *name == element.name);
        let (_, needs, may) = known.unwrap_or_else(|| panic!("{element:?}"));
        let has = |name: &str| element.attributes.contains_key(name);
        assert!(needs.split_whitespace().all(has), "{element:?}");
        let is_known = |name: &String| {
            needs
                .split(' ')
                .chain(may.split(' '))
                .any(|known| known == name)
        };
        assert!(element.attributes.keys().all(is_known), "{element:?}");
        let holds = matches!(&element.name[..], "svg" | "g");
        assert!(holds || element.children.is_empty(), "{element:?}");
        assert!(!holds || element.children[0].name == "title", "{element:?}");
        assert!(!holds || element.text.trim().is_empty(), "{element:?}");
    }
}

/// It is an SVG with all shapes inside it, and no node lies over another.
fn fits(svg: &Element) {
    is_svg(svg);
    assert_eq!(svg.name, "svg");
    assert_eq!(svg.attribute("xmlns"), "http://www.w3.org/2000/svg");
    let (wide, high) = (svg.number("width"), svg.number("height"));
    assert_eq!(svg.attribute("viewBox"), format!("0 0 {wide} {high}"));
    let all = svg.all();
    for shape in all.iter().filter(|shape| shape.name == "rect") {
        let (right, below) = ends(shape);
        assert!(right <= wide && below <= high, "{shape:?}");
    }
    let mut nodes: Vec<[usize; 4]> = svg.of_class("node").into_iter().map(extent).collect();
    nodes.sort_unstable();
    for two in nodes.windows(2) {
        let [[y, _, below, right], [next_y, next_x, ..]] = [two[0], two[1]];
        assert!(
            below <= next_y || (y == next_y && right <= next_x),
            "{two:?}"
        );
    }
}

/// The right and the lower end of a rectangle.
fn ends(rect: &Element) -> (usize, usize) {
    let number = |name: &str| match rect.attributes.contains_key(name) {
        true => rect.number(name),
        false => 0,
    };
    (
        number("x") + number("width"),
        number("y") + number("height"),
    )
}

/// Top, left, bottom and right of a node's row with its bands.
fn extent(node: &Element) -> [usize; 4] {
    let all = node.all();
    let rects = || all.iter().filter(|shape| shape.name == "rect");
    let left = rects().map(|rect| rect.number("x")).min();
    let shape = rects().find(|rect| rect.has_class("box")).expect("a box");
    let (right, below) = ends(shape);
    [shape.number("y"), left.expect("a box"), below, right]
}

/// The nodes by number. None is there twice.
pub fn nodes(svg: &Element) -> BTreeMap<usize, &Element> {
    let mut nodes = BTreeMap::new();
    for element in svg.all() {
        if let Some(id) = element.attributes.get("id") {
            let number = id.strip_prefix("node-").expect("a node");
            let number = number.parse().expect("a number");
            assert!(nodes.insert(number, element).is_none(), "{id} twice");
        }
    }
    assert_eq!(nodes.len(), svg.of_class("node").len());
    nodes
}

/// The roles of the parts of a node that have a class, as a mask.
pub fn roles(node: &Element, class: &str) -> u16 {
    let mut roles = 0;
    for part in node.of_class(class) {
        let classes = part.attribute("class").split(' ');
        let role = classes.filter_map(|word| word.strip_prefix("role-"));
        let role: u16 = role.map(|role| role.parse::<u16>().expect("a role")).sum();
        assert_eq!(roles & mask(&[role]), 0, "{role} twice");
        roles |= mask(&[role]);
    }
    roles
}

/// Each node of a file that refusals 1 to 9 let through is there once, with a band for
/// each role held and a mark where one goes on or off.
pub fn has_all(svg: &Element, file: &[u8]) {
    let records = Records::of(file).expect("records");
    let written = text::unpack(file).expect("a text");
    let held = text::held(&text::pack(&written).expect("a text"));
    let nodes = nodes(svg);
    assert!(nodes.keys().copied().eq(1..=records.nodes.len()));
    for ((node, [tag, role, _]), held) in nodes.values().zip(&records.nodes).zip(held) {
        assert_eq!(roles(node, "band"), held, "{node:?}");
        let turned = |due: u16| if *tag == due { mask(&[*role]) } else { 0 };
        assert_eq!(roles(node, "on"), turned(7), "{node:?}");
        assert_eq!(roles(node, "off"), turned(8), "{node:?}");
    }
    let lines = svg.of_class("line").len();
    assert_eq!(lines + records.sessions.len(), records.nodes.len());
}

/// A refusal's node is marked once, and no other; the sentence stands at the foot.
pub fn is_marked(svg: &Element, file: &[u8]) {
    let verdict = pilzdamo::check(file);
    let nodes = nodes(svg);
    let place = usize::from(verdict.place);
    let due = matches!(verdict.number, 8..=13) && nodes.contains_key(&place);
    let refused = svg.of_class("refused");
    assert_eq!(refused.len(), usize::from(due), "{verdict}");
    assert_eq!(svg.of_class("refusal").len(), refused.len());
    for node in refused {
        assert_eq!(node.attribute("id"), format!("node-{place}"));
        let mark = node.of_class("refusal")[0].child("text");
        assert_eq!(mark, format!("!! refused {}", verdict.number));
        assert!(node.of_class("wrong")[0].has_class("box"));
    }
    let foot: Vec<&str> = svg
        .of_class("foot")
        .iter()
        .map(|line| &line.text[..])
        .collect();
    let shown = pilzdamo_fed(&["show", "-"], file);
    let mark = shown.text().lines().find(|line| line.starts_with("!! "));
    assert_eq!(foot.join(" "), mark.unwrap_or_default());
}
