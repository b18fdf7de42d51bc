//! Where the nodes of a figure stand: children below their parent, a fork's two branches
//! side by side.

use super::figure::{Figure, Step};
use super::labels::Labels;
use super::xml::{width, Size};
use crate::names::items;
use std::ops::Range;

/// How high a row is, and the box in it; what is above the box.
pub const ROW: usize = 38;
pub const BOX: usize = 24;
pub const ABOVE_BOX: usize = (ROW - BOX) / 2;

/// What is between words in a box and its sides.
pub const PADDING: usize = 8;

/// Between bands and boxes.
pub const BESIDE: usize = 4;

/// Between columns.
const BETWEEN: usize = 22;

/// The font's size in boxes, and in bands and marks.
pub const WORDS: usize = 12;
pub const SMALL: usize = 10;

/// How many nodes of a list stand below each other.
const LISTED: usize = 40;

/// Nodes that stand below each other: up to a fork or an end, or some of a list.
pub struct Column {
    /// Its nodes, by index.
    pub steps: Range<usize>,
    /// The column that ends in the fork above it.
    pub parent: Option<usize>,
    /// The row of its first node.
    pub row: usize,
    /// The roles that are held in it, and the width of their bands.
    pub lanes: Vec<(u16, usize)>,
    /// The width of its boxes.
    pub boxes: usize,
    /// Its left side.
    pub x: usize,
    /// The width of all that stands below it, and of this and itself.
    below: usize,
    whole: usize,
}

impl Column {
    fn new(steps: Range<usize>, parent: Option<usize>, row: usize) -> Column {
        Column {
            steps,
            parent,
            row,
            lanes: Vec::new(),
            boxes: 0,
            x: 0,
            below: 0,
            whole: 0,
        }
    }

    /// The width of its bands, with what is between them and the boxes.
    pub fn bands(&self) -> usize {
        match self.lanes.iter().map(|&(_, wide)| wide).sum() {
            0 => 0,
            wide => wide + BESIDE,
        }
    }

    fn own(&self) -> usize {
        self.bands() + self.boxes
    }

    /// The middle of its boxes.
    pub fn middle(&self) -> usize {
        self.x + self.bands() + self.boxes / 2
    }

    /// The row after its last node.
    fn end(&self) -> usize {
        self.row + self.steps.len()
    }
}

/// The columns of a figure, those above before those below, and the size of all.
pub fn layout(figure: &Figure, labels: &Labels) -> (Vec<Column>, Size) {
    let mut columns = match figure.is_tree {
        true => branches(&figure.steps),
        false => listed(figure.steps.len()),
    };
    for column in &mut columns {
        measure(column, &figure.steps[column.steps.clone()], labels);
    }
    let wide = spread(&mut columns);
    let high = columns.iter().map(Column::end).max().unwrap_or(0) * ROW;
    (columns, Size { wide, high })
}

/// A tree's columns. Its nodes are in preorder, so that those of a column follow each
/// other.
fn branches(steps: &[Step]) -> Vec<Column> {
    let mut columns: Vec<Column> = Vec::new();
    let mut forks = Vec::new();
    let (mut start, mut parent) = (0, None);
    for (at, step) in steps.iter().enumerate() {
        let is_last = at + 1 == steps.len();
        if !(matches!(step.tag, 0 | 1) || is_last) {
            continue;
        }
        let row = parent.map_or(0, |parent: usize| columns[parent].end());
        columns.push(Column::new(start..at + 1, parent, row));
        start = at + 1;
        parent = match step.tag {
            1 => {
                forks.push(columns.len() - 1);
                forks.last().copied()
            }
            _ => forks.pop(),
        };
    }
    columns
}

/// A list's columns.
fn listed(count: usize) -> Vec<Column> {
    let starts = (0..count).step_by(LISTED);
    let column = |start: usize| Column::new(start..(start + LISTED).min(count), None, 0);
    starts.map(column).collect()
}

/// How wide its bands and boxes are.
fn measure(column: &mut Column, steps: &[Step], labels: &Labels) {
    let held = steps.iter().fold(0, |held, step| held | step.held);
    let roles = items(held.into()).map(|role| role as u16);
    let lane = |role| (role, width(&labels.band(role), SMALL) + PADDING);
    column.lanes = roles.map(lane).collect();
    let boxes = steps.iter().map(|step| box_width(step, labels));
    column.boxes = boxes.max().unwrap_or(0);
}

/// How wide a node's box is, with its number, its words and its marks.
fn box_width(step: &Step, labels: &Labels) -> usize {
    let marks = labels.marks(step);
    let marks: usize = marks.iter().map(|mark| mark.wide + PADDING).sum();
    let words = width(&labels.words(step), WORDS) + PADDING;
    PADDING + number_width(step) + words + marks
}

/// How wide a node's number is, with the space after it.
pub fn number_width(step: &Step) -> usize {
    width(&step.node.to_string(), SMALL) + PADDING
}

/// Gives each column its side; says how wide they are together.
fn spread(columns: &mut [Column]) -> usize {
    let mut all = 0;
    for at in (0..columns.len()).rev() {
        let whole = columns[at].own().max(columns[at].below);
        columns[at].whole = whole;
        let beside = match columns[at].parent {
            Some(parent) => &mut columns[parent].below,
            None => &mut all,
        };
        *beside += whole + if *beside > 0 { BETWEEN } else { 0 };
    }
    // Where the next column below each one begins; the last is for those below none.
    let mut next = vec![0; columns.len() + 1];
    for at in 0..columns.len() {
        let above = columns[at].parent.unwrap_or(columns.len());
        let column = &mut columns[at];
        let left = next[above];
        next[above] += column.whole + BETWEEN;
        column.x = left + (column.whole - column.own()) / 2;
        next[at] = left + (column.whole - column.below) / 2;
    }
    all
}
