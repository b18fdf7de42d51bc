//! What is wrong with a file's head or records, in words: what 1 to 7 and 21 object to.

use crate::clinic::{Clinic, Section};
use crate::clinic::{CHANNELS, COUNTED, JUNIORS, KINDS, ROLES, USERS};
use crate::length::Length;
use crate::names::{items, list, several};
use pilzdamo::Verdict;

/// The lengths, version, count, offset or record that a refusal of bytes is about.
pub fn told(clinic: &Clinic, verdict: Verdict) -> Option<String> {
    let place = usize::from(verdict.place);
    match verdict.number {
        1 => Some(length(clinic)),
        2 => Some(format!("it has version {}", clinic.version())),
        3 => counts(clinic),
        4 => offset(clinic),
        5 => {
            let (there, due) = (clinic.length, 2 * clinic.words());
            Some(format!("it has {there}, and its counts give {due}"))
        }
        6 => record(clinic, place),
        7 => session(clinic, place.checked_sub(1)?),
        21 => junior(clinic, place),
        _ => None,
    }
}

/// A length that no file has.
fn length(clinic: &Clinic) -> String {
    let there = clinic.length;
    let head = if clinic.has_juniors() { 28 } else { 26 };
    match there {
        Length::Exactly(short) if short < head => {
            format!("it has {there}, and its head alone has {head}")
        }
        _ => format!("it has {there}, and a word has 2: one is left over"),
    }
}

/// The counts that are out of range.
fn counts(clinic: &Clinic) -> Option<String> {
    let counts = clinic.counted().iter().zip(&COUNTED);
    let wrong: Vec<String> = counts
        .filter(|(&count, section)| count > section.most)
        .map(|(&count, section)| {
            let (there, most) = (several(count.into(), section.one), section.most);
            format!("it has {there} (at most {most})")
        })
        .collect();
    (!wrong.is_empty()).then(|| wrong.join("; "))
}

/// The first offset that isn't the one due.
fn offset(clinic: &Clinic) -> Option<String> {
    let mut offsets = clinic.offsets();
    let (section, offset) =
        offsets.find(|&(section, offset)| usize::from(offset) != clinic.start(section))?;
    let (name, due) = (section.name, clinic.start(section));
    Some(format!(
        "the offset of the {name} is {offset}, and {due} is due"
    ))
}

/// The index of the record of a section that begins at a word.
fn index(clinic: &Clinic, section: Section, word: usize) -> Option<usize> {
    let words = word.checked_sub(clinic.start(section))?;
    (words < section.width * clinic.count(section)).then_some(words / section.width)
}

/// `and there are 2 roles`.
pub fn there(clinic: &Clinic, section: Section) -> String {
    match clinic.count(section) {
        0 => format!("and there are no {}", section.name),
        1 => format!("and there is 1 {}", section.one),
        count => format!("and there are {count} {}", section.name),
    }
}

/// What a user, role, kind or channel names that isn't there.
fn record(clinic: &Clinic, word: usize) -> Option<String> {
    let out = |mask: u32, section: Section| {
        let count = clinic.count(section) as u32;
        items(mask).find(move |&item| item > count)
    };
    if let Some(i) = index(clinic, USERS, word) {
        let [mask] = *clinic.users.get(i)?;
        let role = out(mask.into(), ROLES)?;
        return Some(format!(
            "user {} has role {role}, {}",
            i + 1,
            there(clinic, ROLES)
        ));
    }
    if let Some(i) = index(clinic, ROLES, word) {
        let [a, b, c, d] = clinic.roles.get(i)?.map(u32::from);
        let sends = out(b << 16 | a, KINDS).map(|kind| ("send", kind));
        let receives = || out(d << 16 | c, KINDS).map(|kind| ("receive", kind));
        let (act, kind) = sends.or_else(receives)?;
        let there = there(clinic, KINDS);
        return Some(format!("role {} may {act} on kind {kind}, {there}", i + 1));
    }
    if let Some(i) = index(clinic, KINDS, word) {
        let [kind] = *clinic.kinds.get(i)?;
        let there = there(clinic, KINDS);
        return Some(format!("kind {} carries kind {kind}, {there}", i + 1));
    }
    let i = index(clinic, CHANNELS, word)?;
    let [owner, kind] = *clinic.channels.get(i)?;
    let is_user = (1..=clinic.count(USERS)).contains(&owner.into());
    Some(match is_user {
        false => format!(
            "channel {}'s owner is user {owner}, {}",
            i + 1,
            there(clinic, USERS)
        ),
        true => format!(
            "channel {}'s kind is {kind}, {}",
            i + 1,
            there(clinic, KINDS)
        ),
    })
}

/// A session's user, or a starting role that isn't assigned.
fn session(clinic: &Clinic, i: usize) -> Option<String> {
    let [user, mask, _] = *clinic.sessions.get(i)?;
    let number = i + 1;
    let record = usize::from(user).checked_sub(1);
    let Some([assigned]) = record.and_then(|record| clinic.users.get(record)) else {
        let there = there(clinic, USERS);
        return Some(format!("session {number}'s user is {user}, {there}"));
    };
    let role = items(u32::from(mask & !assigned)).next()?;
    let has = list("role", u32::from(*assigned), clinic.count(ROLES));
    Some(format!(
        "session {number} starts with role {role}, and user {user} has {has}"
    ))
}

/// A junior that isn't lower than its senior.
fn junior(clinic: &Clinic, word: usize) -> Option<String> {
    let i = index(clinic, JUNIORS, word)?;
    let [mask] = *clinic.juniors.get(i)?;
    let junior = items(mask.into()).find(|&junior| junior as usize > i)?;
    let senior = i + 1;
    Some(format!(
        "role {senior}'s junior is role {junior}, which isn't a lower one"
    ))
}
