//! Roles in tables of seats and hours, which go by name where the file has names.

use crate::input::Input;
use crate::words::near;
use text::shown;

/// The names by which a table has a file's roles; none for bytes without names, whose roles
/// go by number.
pub fn roles(input: &Input) -> Option<&[String]> {
    let text = input.text.as_ref()?;
    Some(&text.packed.names.roles)
}

/// The number of the role that a word of a table names.
pub fn role(word: &[u8], roles: &[String]) -> Result<u16, String> {
    let at = roles.iter().position(|role| role.as_bytes() == word);
    at.map(|at| at as u16 + 1).ok_or_else(|| {
        let names = roles.iter().map(String::as_str);
        let hint = near::hint(&String::from_utf8_lossy(word), names);
        let there = match roles {
            [] => "there are no roles".to_string(),
            roles => format!("roles: {}", roles.join(", ")),
        };
        format!("there is no role '{}' ({there}){hint}", shown(word))
    })
}

/// The name that an example of a table has for the role of a number; that of the first where
/// there is no such role.
pub fn example(roles: &[String], number: u16) -> &str {
    let at = usize::from(number).checked_sub(1);
    let role = at.and_then(|at| roles.get(at)).or(roles.first());
    role.map_or("holder", String::as_str)
}
