//! Two files in one by both implementations: compared, judged and counted.

mod aim;
mod deal;
mod steps;
mod tally;

pub use deal::{deal_pair, largest_pair, typical_pair, Pair};
pub use steps::{run_in_house, HouseSteps};
pub use tally::MergeTally;

use crate::answers::{engine_check, engine_read, Answer};
use crate::measuring::engine_measure;
use crate::placing::engine_place;
use second::draft::{word_at, Draft};
use second::{Placed, Written, MERGED_ROOM, ROOM};
use std::fmt::Display;

/// The engine's answer, in the second implementation's form.
pub fn engine_merge(first: &[u8], second: &[u8], out: &mut [u8]) -> Written {
    let written = pilzdamo::merge(first, second, out);
    Written {
        number: written.number,
        place: written.place,
        length: written.length,
    }
}

/// The bytes that a file is read as: zero bytes are the file without a record.
pub fn as_read(file: &[u8]) -> Vec<u8> {
    match file {
        [] => Draft::default().bytes(),
        _ => file.to_vec(),
    }
}

/// What both answer, and what both leave in the output. Panics if they differ, or if
/// the answer is wrong.
pub fn agreed_merge(pair: &Pair, origin: impl Display) -> (Written, Vec<u8>) {
    let Pair {
        first,
        second,
        before,
    } = pair;
    let (mut out, mut of_second) = (before.clone(), before.clone());
    let written = engine_merge(first, second, &mut out);
    let other = second::merge(first, second, &mut of_second);
    let fail = |fault: &str| {
        panic!(
            "{fault} at {origin}: engine {written:?}, second {other:?}, {}",
            pair.told()
        )
    };
    if written != other {
        fail("the answer differs");
    }
    if let Some(at) = (0..out.len()).find(|&at| out[at] != of_second[at]) {
        fail(&format!("output byte {at} differs"));
    }
    if let Err(fault) = judge(pair, &out, written) {
        fail(&fault);
    }
    (written, out)
}

/// Judges what is known of every answer without merging anew.
fn judge(pair: &Pair, out: &[u8], written: Written) -> Result<(), String> {
    let length = usize::from(written.length);
    if out[length..] != pair.before[length..] {
        return Err("a byte past the length".to_string());
    }
    if written.number != 0 {
        return match written.length {
            0 => Ok(()),
            _ => Err("more than a refusal".to_string()),
        };
    }
    if written.place != 0 {
        return Err("a place, but no refusal".to_string());
    }
    House::of(pair, &out[..length]).judge()
}

/// Two files as they are read, and what they become.
struct House<'a> {
    both: [Vec<u8>; 2],
    merged: &'a [u8],
    /// The nodes of the first.
    nodes: u16,
}

impl House<'_> {
    fn of<'a>(pair: &Pair, merged: &'a [u8]) -> House<'a> {
        let both = [as_read(&pair.first), as_read(&pair.second)];
        House {
            nodes: word_at(&both[0], 6),
            both,
            merged,
        }
    }

    /// A place of the second file, in the merged one.
    fn moved(&self, place: u16) -> u16 {
        match place {
            0 => 0,
            node => node + self.nodes,
        }
    }

    fn judge(&self) -> Result<(), String> {
        if engine_read(self.merged) != (0, 0) {
            return Err("what is merged is refused by 1 to 10".to_string());
        }
        self.judge_check()?;
        self.judge_measuring()
    }

    /// It passes exactly if both do, and else is refused where the first of them is.
    fn judge_check(&self) -> Result<(), String> {
        let [one, (number, place)] = self.both.each_ref().map(|file| engine_check(file));
        let due: Answer = match one {
            (0, _) => (number, self.moved(place)),
            _ => one,
        };
        let answer = engine_check(self.merged);
        if answer != due {
            return Err(format!("the check answers {answer:?}, due is {due:?}"));
        }
        Ok(())
    }

    /// The on steps and the bytes put in are those of both, and the merged file is
    /// placed as the placed ones are merged, unless it has too many nodes. It is
    /// refused by 14 and 15 where one of them is.
    fn judge_measuring(&self) -> Result<(), String> {
        let [one, other] = self.both.each_ref().map(|file| engine_measure(file));
        let placed = engine_measure(self.merged);
        let (first, second) = (turn(one), turn(other));
        let due = match first.min(second) {
            NOT_REFUSED if placed.number == 16 => Placed::refused(16, 0),
            NOT_REFUSED => {
                let more = one.length + other.length - self.length_of_both();
                let length = self.merged.len() as u16 + more;
                self.judge_placing()?;
                Placed::written(length, one.on_steps + other.on_steps)
            }
            earliest if earliest == first => one,
            _ => Placed::refused(other.number, self.moved(other.place)),
        };
        if placed != due {
            return Err(format!("{placed:?} is measured, due is {due:?}"));
        }
        Ok(())
    }

    fn length_of_both(&self) -> u16 {
        let [one, other] = &self.both;
        (one.len() + other.len()) as u16
    }

    fn judge_placing(&self) -> Result<(), String> {
        let place = |file: &[u8]| {
            let mut out = vec![0; ROOM];
            let placed = engine_place(file, &mut out);
            out.truncate(placed.length.into());
            out
        };
        let [one, other] = self.both.each_ref().map(|file| place(file));
        let mut out = vec![0; MERGED_ROOM];
        let written = engine_merge(&one, &other, &mut out);
        out.truncate(written.length.into());
        if out != place(self.merged) {
            return Err("the placed files in one are another file".to_string());
        }
        Ok(())
    }
}

/// The turn of what is not refused.
const NOT_REFUSED: u16 = 4;

/// The turn that a refusal of placing has: a mask, an on or off, a want of a role, and
/// too many nodes.
fn turn(placed: Placed) -> u16 {
    match (placed.number, placed.place) {
        (14, 0) => 0,
        (14, _) => 1,
        (15, _) => 2,
        (16, _) => 3,
        _ => NOT_REFUSED,
    }
}

/// Deals `pairs` pairs to both and panics at the first difference.
pub fn compare_merging(seed: u64, pairs: u64) -> MergeTally {
    let mut tally = MergeTally::default();
    for index in 0..pairs {
        let pair = deal_pair(seed, index);
        let origin = format_args!("trials::deal_pair({seed}, {index})");
        let (written, out) = agreed_merge(&pair, origin);
        tally.count(&pair, written, &out);
    }
    tally
}
