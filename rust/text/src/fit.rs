//! Whether names fit a file.

use crate::names::Names;
use crate::records::{Records, NEW, RECEIVE};
use crate::tree;
use crate::unpack::write;
use crate::{pack, unpack_named};

/// What is wrong with names for a file that 1 to 5 let through: a count that differs from
/// the file's, or a name that isn't allowed in its place. `None` if they fit, or if 1 to
/// 6, 8 or 9 refuse the file.
pub fn misfit(bytes: &[u8], names: &Names) -> Option<String> {
    let records = Records::of(bytes)?;
    if let Some(other) = other_count(&records, names) {
        return Some(other);
    }
    let spots = tree::follow(&records)?;
    for (index, session) in names.sessions.iter().enumerate() {
        let nodes = spots.iter().zip(&records.nodes);
        let own = nodes.filter(|(spot, _)| spot.session == index);
        let binders = own.filter(|(_, node)| matches!(node[0], NEW | RECEIVE));
        let (there, due) = (session.variables.len(), binders.count());
        if there != due {
            let (there, name) = (several(there, "variable"), &session.name);
            return Some(format!(
                "session {name} has {there} in them, and {due} in the file"
            ));
        }
    }
    let text = write(&records, &spots, names)?;
    match pack(&text) {
        Err(flaws) => {
            let what = &flaws.first()?.what;
            // A line of a text that nobody has is left away.
            let line = what.find(" (line ").unwrap_or(what.len());
            Some(what[..line].to_string())
        }
        // Names that change what the text says, such as a name with a space in it.
        Ok(_) if unpack_named(bytes, names).is_none() => Some("a name is no name".to_string()),
        Ok(_) => None,
    }
}

/// The first table that has another number of names than the file has records.
fn other_count(records: &Records, names: &Names) -> Option<String> {
    let counts = [
        ("kind", names.kinds.len(), records.kinds.len()),
        ("role", names.roles.len(), records.roles.len()),
        ("user", names.users.len(), records.users.len()),
        ("channel", names.channels.len(), records.channels.len()),
        ("session", names.sessions.len(), records.sessions.len()),
    ];
    let (one, there, due) = counts.into_iter().find(|(_, there, due)| there != due)?;
    let there = several(there, one);
    Some(format!("they have {there}, and the file has {due}"))
}

/// A number of things: `1 user`, `2 users`.
pub fn several(count: usize, one: &str) -> String {
    let many = if count == 1 { "" } else { "s" };
    format!("{count} {one}{many}")
}
