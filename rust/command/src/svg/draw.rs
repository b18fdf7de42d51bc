//! A figure drawn: its frame and heading, lines, bands and boxes.

use super::figure::{Figure, Step};
use super::labels::{Labels, Mark};
use super::layout::{layout, number_width, Column};
use super::layout::{ABOVE_BOX, BESIDE, BOX, PADDING, ROW, SMALL, WORDS};
use super::xml::{cut, width, Drawing, Size, Spot};
use crate::names::items;

/// Around what a frame has in it, and for its heading.
const INSIDE: usize = 14;
const HEADING: usize = 26;

/// The most characters of a heading.
const IN_HEADING: usize = 90;

/// How much wider bold letters are.
pub const BOLD: usize = 2;

/// A figure whose nodes have their places.
pub struct Block<'a> {
    figure: &'a Figure,
    heading: String,
    columns: Vec<Column>,
    tree: Size,
    /// Its frame's.
    pub size: Size,
}

impl Block<'_> {
    pub fn of<'a>(figure: &'a Figure, labels: &Labels) -> Block<'a> {
        let (columns, tree) = layout(figure, labels);
        let mark = if figure.is_refused { "!! " } else { "" };
        let heading = format!("{mark}{}", cut(&figure.heading, IN_HEADING));
        let remark = figure.remark.map_or(0, |remark| width(remark, WORDS));
        let heads = width(&heading, WORDS + BOLD).max(remark);
        let foot = if figure.remark.is_some() { ROW / 2 } else { 0 };
        Block {
            figure,
            heading,
            columns,
            size: Size {
                wide: tree.wide.max(heads) + 2 * INSIDE,
                high: HEADING + tree.high + foot + INSIDE,
            },
            tree,
        }
    }

    /// Draws it with the upper left of its frame here.
    pub fn draw(&self, drawing: &mut Drawing, at: Spot, labels: &Labels) {
        let frame = match self.figure.is_refused {
            true => "frame wrong",
            false => "frame",
        };
        drawing.rect(frame, at, self.size, 6);
        drawing.text("heading", at.moved(INSIDE, 20), &self.heading);
        let tree = at.moved((self.size.wide - self.tree.wide) / 2, HEADING);
        self.lines(drawing, tree);
        for column in &self.columns {
            for (row, at) in (column.row..).zip(column.steps.clone()) {
                let corner = tree.moved(column.x, row * ROW);
                node(drawing, corner, column, &self.figure.steps[at], labels);
            }
        }
        if let Some(remark) = self.figure.remark {
            let below = at.moved(INSIDE, HEADING + self.tree.high + INSIDE);
            drawing.text("remark", below, &format!("({remark})"));
        }
    }

    /// The lines from parents to children.
    fn lines(&self, drawing: &mut Drawing, tree: Spot) {
        if !self.figure.is_tree {
            return;
        }
        for column in &self.columns {
            let middle = column.middle();
            let top = |row| tree.moved(middle, row * ROW + ABOVE_BOX);
            if let Some(parent) = column.parent {
                let fork = self.columns[parent].middle();
                let from = tree.moved(fork, column.row * ROW - ABOVE_BOX);
                drawing.line(from, top(column.row));
            }
            for row in column.row + 1..column.row + column.steps.len() {
                drawing.line(tree.moved(middle, row * ROW - ABOVE_BOX), top(row));
            }
        }
    }
}

/// A node with the bands beside it, in a row that begins here.
fn node(drawing: &mut Drawing, at: Spot, column: &Column, step: &Step, labels: &Labels) {
    let class = match step.is_refused {
        true => "node refused",
        false => "node",
    };
    let id = format!("id=\"node-{}\" class=\"{class}\"", step.node);
    drawing.group(&id, &title(step, labels), |drawing| {
        bands(drawing, at, column, step, labels);
        let corner = at.moved(column.bands(), ABOVE_BOX);
        let size = Size {
            wide: column.boxes,
            high: BOX,
        };
        let outline = if step.is_refused { "box wrong" } else { "box" };
        drawing.rect(outline, corner, size, 4);
        let number = corner.moved(PADDING, 16);
        drawing.text("number", number, &step.node.to_string());
        let words = number.moved(number_width(step), 0);
        drawing.text("", words, &labels.words(step));
        let mut right = column.boxes;
        for mark in labels.marks(step).iter().rev() {
            right -= mark.wide + PADDING / 2;
            draw_mark(drawing, corner.moved(right, BESIDE), mark);
        }
    });
}

/// What a node is, in a sentence.
fn title(step: &Step, labels: &Labels) -> String {
    let held: Vec<&str> = items(step.held.into())
        .map(|role| labels.role(role as u16))
        .collect();
    let held = match &held[..] {
        [] => String::new(),
        roles => format!("; held: {}", roles.join(", ")),
    };
    format!("node {}: {}{held}", step.node, step.words)
}

/// A band for each role that is held, in the role's lane.
fn bands(drawing: &mut Drawing, at: Spot, column: &Column, step: &Step, labels: &Labels) {
    let mut x = 0;
    for &(role, wide) in &column.lanes {
        if step.held >> (role - 1) & 1 == 1 {
            let corner = at.moved(x, 0);
            let class = format!("class=\"band role-{role}\"");
            let title = format!("role {} is held at node {}", labels.role(role), step.node);
            drawing.group(&class, &title, |drawing| {
                drawing.rect("", corner, Size { wide, high: ROW }, 0);
                let words = corner.moved(wide / 2, ROW / 2 + 4);
                drawing.text("small", words, &labels.band(role));
            });
        }
        x += wide;
    }
}

/// A mark that ends at the box's right.
fn draw_mark(drawing: &mut Drawing, at: Spot, mark: &Mark) {
    let class = format!("class=\"{}\"", mark.class);
    drawing.group(&class, &mark.words, |drawing| {
        let size = Size {
            wide: mark.wide,
            high: BOX - 2 * BESIDE,
        };
        drawing.rect("mark", at, size, 8);
        let words = at.moved(mark.wide / 2, 2 + SMALL);
        drawing.text("small", words, &mark.words);
    });
}
