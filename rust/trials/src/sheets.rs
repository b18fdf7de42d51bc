//! The group's sheet by both implementations: compared, judged by placing each file by
//! itself, and counted.

mod deal;
mod tally;

pub use deal::{deal_sheet, full_sheet, typical_sheet, Dealing};
pub use tally::SheetTally;

use crate::placing::engine_place;
use second::draft::Draft;
use second::{Sheet, ROOM};
use std::fmt::Display;

/// The engine's answer, in the second implementation's form.
pub fn engine_sheet(input: &[u8]) -> Sheet {
    let sheet = pilzdamo::sheet(input);
    Sheet {
        files: sheet.files,
        refused: sheet.refused,
        sessions: sheet.sessions,
        on_steps: sheet.on_steps,
        most: sheet.most,
        quotient: sheet.quotient,
        remainder: sheet.remainder,
    }
}

/// What both answer. Panics if they differ.
pub fn agreed_sheet(input: &[u8], origin: impl Display) -> Sheet {
    let (engine, second) = (engine_sheet(input), second::sheet(input));
    assert_eq!(engine, second, "engine and second at {origin}");
    engine
}

/// What a file brings to a sheet: the number that it is refused with, or the on steps of
/// each session.
pub type Brought = Result<Vec<u32>, u16>;

/// What the engine's placing says of a file by itself, from the bytes that it writes.
fn brought(file: &[u8]) -> Brought {
    let mut out = [0; ROOM];
    let placed = engine_place(file, &mut out);
    if placed.number != 0 {
        return Err(placed.number);
    }
    let draft = Draft::of(&out[..placed.length.into()]);
    let roots = draft.sessions.iter().map(|[_, _, root]| *root);
    let ends = roots.clone().skip(1).chain([draft.nodes.len() as u16 + 1]);
    let on_steps = |(root, end): (u16, u16)| {
        let tree = &draft.nodes[usize::from(root) - 1..usize::from(end) - 1];
        tree.iter().filter(|[tag, ..]| *tag == 7).count() as u32
    };
    let each: Vec<u32> = roots.zip(ends).map(on_steps).collect();
    assert_eq!(each.iter().sum::<u32>(), placed.on_steps.into());
    Ok(each)
}

/// The sheet of these files, by placing each of them.
pub fn by_placing(files: &[Vec<u8>]) -> (Sheet, Vec<Brought>) {
    let all: Vec<Brought> = files.iter().map(|file| brought(file)).collect();
    let mut sheet = Sheet::default();
    for brought in &all {
        sheet.files += 1;
        match brought {
            Err(number) => sheet.refused[usize::from(*number) - 1] += 1,
            Ok(each) => {
                sheet.sessions += each.len() as u32;
                sheet.on_steps += each.iter().sum::<u32>();
                sheet.most = each.iter().copied().chain([sheet.most]).max().unwrap_or(0);
            }
        }
    }
    if sheet.sessions > 0 {
        sheet.quotient = 1_000 * sheet.on_steps / sheet.sessions;
        sheet.remainder = 1_000 * sheet.on_steps % sheet.sessions;
    }
    (sheet, all)
}

/// Deals `sheets` inputs to both and panics at the first difference: between them, to
/// placing each file by itself, or to the same files in another order.
pub fn compare_sheets(seed: u64, sheets: u64) -> SheetTally {
    let mut tally = SheetTally::default();
    for index in 0..sheets {
        let dealing = deal_sheet(seed, index);
        let origin = format!("trials::deal_sheet({seed}, {index})");
        let sheet = agreed_sheet(&dealing.input(), &origin);
        let (due, brought) = by_placing(dealing.whole());
        assert_eq!(sheet, due, "by placing each at {origin}");
        if let Some(other) = dealing.shuffled() {
            assert_eq!(agreed_sheet(&other, &origin), sheet, "shuffled at {origin}");
        }
        tally.count(&dealing, &sheet, &brought);
    }
    tally
}
