//! `show --svg`: each session's tree as a picture, with the roles held at each node.

mod draw;
mod figure;
mod labels;
mod layout;
mod style;
mod xml;

use crate::clinic::{Clinic, ROLES};
use crate::input::Input;
use crate::names::{items, planned, several};
use crate::output::{self, Out};
use crate::report;
use crate::show;
use crate::{Outcome, WrongUse};
use draw::{Block, BOLD};
use figure::{Figure, Subject};
use labels::Labels;
use layout::{PADDING, SMALL, WORDS};
use xml::{cut, escaped, width, wrapped, Drawing, Size, Spot};

/// Around the picture, and between frames.
const MARGIN: usize = 20;

/// How wide a picture may become, its margins counted, before a session stands below those
/// before it, if none is wider by itself; and how wide it is at least, without them.
const WIDE: usize = 1_600;
const NARROW: usize = 560;

/// How high a line of text is.
const LINE: usize = 18;

/// The size of the file's name, and the most characters of it.
const NAME: usize = 16;
const IN_NAME: usize = 50;

/// Writes the picture of a file where it is wanted.
pub fn show(input: &Input, out: &Out) -> Result<Outcome, WrongUse> {
    output::deliver_text(picture(input).as_bytes(), out)?;
    if out.path.is_some() {
        output::say(&format!("{}: drawn{}", input.name, out.told(" in")));
    }
    Ok(Outcome::Answer)
}

/// The picture of any file, as far as it can be followed. What the check refuses is
/// marked.
fn picture(input: &Input) -> String {
    let subject = Subject::of(input);
    let figures = subject.figures();
    let labels = Labels::of(input, subject.verdict.number);
    let roles = roles(&subject.clinic, &figures);
    let blocks: Vec<Block> = figures
        .iter()
        .map(|figure| Block::of(figure, &labels))
        .collect();
    let (places, shelves) = shelves(&blocks);
    let name = width(&file_name(input), NAME + BOLD);
    let room = shelves.wide.max(name).max(NARROW);
    let mut drawing = Drawing::default();
    let mut y = head(&mut drawing, &subject, room);
    y = legend(&mut drawing, &roles, input, room, y);
    for (block, place) in blocks.iter().zip(places) {
        block.draw(&mut drawing, place.moved(MARGIN, y), &labels);
    }
    y = foot(&mut drawing, &subject, room, y + shelves.high);
    document(
        &subject,
        &drawing,
        &style::style(&roles),
        room + 2 * MARGIN,
        y,
    )
}

/// The roles of the file, and others that are held, or that a step puts on or off.
fn roles(clinic: &Clinic, figures: &[Figure]) -> Vec<u16> {
    let mut mask = (1_u32 << clinic.count(ROLES)) - 1;
    for step in figures.iter().flat_map(|figure| &figure.steps) {
        mask |= u32::from(step.held);
        let turned = step.turned.as_ref().and_then(|turned| turned.role);
        mask |= turned.map_or(0, |role| 1 << (role - 1));
    }
    items(mask).map(|role| role as u16).collect()
}

/// Where each frame goes, beside the one before or below, and the size of all.
fn shelves(blocks: &[Block]) -> (Vec<Spot>, Size) {
    let widest = blocks.iter().map(|block| block.size.wide).max();
    let room = widest.unwrap_or(0).max(WIDE - 2 * MARGIN);
    let mut places = Vec::new();
    let (mut corner, mut all) = (Spot { x: 0, y: 0 }, Size { wide: 0, high: 0 });
    for Block { size, .. } in blocks {
        if corner.x > 0 && corner.x + size.wide > room {
            corner = Spot { x: 0, y: all.high };
        }
        places.push(corner);
        all.wide = all.wide.max(corner.x + size.wide);
        all.high = all.high.max(corner.y + size.high + MARGIN);
        corner.x += size.wide + MARGIN;
    }
    (places, all)
}

/// The last part of the file's name, or as much of it as there is room for.
fn file_name(input: &Input) -> String {
    let name = input.name.rsplit('/').next().unwrap_or_default();
    cut(name, IN_NAME)
}

/// The file's name and what the check says; gives the place below.
fn head(drawing: &mut Drawing, subject: &Subject, room: usize) -> usize {
    let clinic = &subject.clinic;
    let name = Spot {
        x: MARGIN,
        y: MARGIN + NAME,
    };
    drawing.text("name", name, &file_name(subject.input));
    let judged = show::judged(clinic, subject.verdict);
    let (on_steps, planned) = (clinic.on_steps(), planned(subject.input));
    let line = format!("check: {judged}; {}{planned}", several(on_steps, "on step"));
    lines(drawing, "", &line, room, name.y + 6)
}

/// The roles with their colours; gives the place below.
fn legend(drawing: &mut Drawing, roles: &[u16], input: &Input, room: usize, y: usize) -> usize {
    if roles.is_empty() {
        return y + MARGIN;
    }
    let what = "A band beside a node: the role is held when it is reached; + on, - off.";
    let y = lines(drawing, "remark", what, room, y) + 10;
    let (mut x, mut y) = (0, y);
    for &role in roles {
        let name = match input.text {
            Some(_) => input.role(role),
            None => format!("role {role}"),
        };
        let shown = cut(&name, 30);
        let wide = width(&shown, SMALL) + 2 * PADDING;
        if x > 0 && x + wide > room {
            (x, y) = (0, y + LINE + 6);
        }
        let corner = Spot { x: MARGIN + x, y };
        drawing.group(&format!("class=\"legend role-{role}\""), &name, |drawing| {
            drawing.rect("", corner, Size { wide, high: LINE }, 3);
            drawing.text("small", corner.moved(wide / 2, 13), &shown);
        });
        x += wide + PADDING;
    }
    y + LINE + MARGIN
}

/// The refusal, and what is missing; gives the place below.
fn foot(drawing: &mut Drawing, subject: &Subject, room: usize, y: usize) -> usize {
    let Subject {
        input,
        clinic,
        verdict,
        ..
    } = subject;
    let mut below = y;
    for remark in subject.remarks() {
        below = lines(drawing, "remark", &format!("({remark})"), room, below);
    }
    if !verdict.is_clean() {
        below = lines(
            drawing,
            "foot",
            &report::mark(clinic, *verdict),
            room,
            below,
        );
        let text = input.text.as_ref();
        let why = text.and_then(|text| text::why(&text.packed, verdict.number, verdict.place));
        if let Some(why) = why {
            let line = format!("line {}: {}", why.at.line, why.what);
            below = lines(drawing, "foot", &line, room, below);
        }
    }
    if below > y {
        below + MARGIN
    } else {
        y
    }
}

/// Lines of text below a place; gives the place below them.
fn lines(drawing: &mut Drawing, class: &str, text: &str, room: usize, y: usize) -> usize {
    let mut y = y;
    for line in wrapped(text, WORDS + 1, room) {
        y += LINE;
        drawing.text(class, Spot { x: MARGIN, y }, &line);
    }
    y
}

fn document(subject: &Subject, drawing: &Drawing, style: &str, wide: usize, high: usize) -> String {
    let name = escaped(&subject.input.name);
    let namespace = "http://www.w3.org/2000/svg";
    let size = format!("width=\"{wide}\" height=\"{high}\" viewBox=\"0 0 {wide} {high}\"");
    format!(
        "<?xml version=\"1.0\" encoding=\"UTF-8\"?>\n\
         <svg xmlns=\"{namespace}\" version=\"1.1\" {size}>\n\
         <title>{name}</title>\n{style}\
         <rect width=\"{wide}\" height=\"{high}\" fill=\"#fff\"/>\n{}</svg>\n",
        drawing.0
    )
}
