//! Rows to columns and back: refusal 17, 1 to 5, and the turned file.

use crate::cause::{Cause, Refusal};
use crate::draft::set_word;
use crate::file::{File, Version};
use crate::nodes::Room;

/// The bytes that the output must have, whatever is written there.
pub const TURNED_ROOM: usize = Version::Three.largest();

/// Refusal 17, and 1 to 5 where files of version `from` alone are taken.
pub fn judge(file: &[u8], from: Version, room: usize) -> Result<File<'_>, Refusal> {
    if room < TURNED_ROOM {
        return Err(Refusal {
            cause: Cause::OutputTooShort,
            place: 0,
        });
    }
    File::open_only(file, from)
}

/// Writes the file in version `to`, which has the same records, at the start of `out`,
/// and gives its length. The output is long enough.
pub fn write(file: &File, to: Version, out: &mut [u8]) -> u16 {
    let before = file.before_nodes();
    let (start, nodes) = out[..file.bytes.len()].split_at_mut(before.len());
    start.copy_from_slice(before);
    set_word(start, 0, to.number());
    let mut room = Room::of(to, nodes);
    for index in 0..file.nodes.len() {
        room.put(index, file.nodes.at(index));
    }
    file.bytes.len() as u16
}
