//! A file as a person reads it.

use crate::clinic::{Clinic, Section};
use crate::clinic::{CHANNELS, COUNTED, JUNIORS, KINDS, ROLES, USERS};
use crate::input::Input;
use crate::length::{Bytes, Length};
use crate::names::{carries, grants, juniors, list, record, several};
use crate::objects;
use crate::page::{Page, Spot};
use crate::reading::Start;
use crate::sessions;
use pilzdamo::Verdict;

/// Said of a file whose counts say nothing.
pub(crate) const NO_RECORDS: &str =
    "no records can be recognized: that takes a head of version 1 to 3, counts in range";

/// Any bytes whatever, as far as they can be followed as a clinic's file. What
/// the engine's check refuses is marked at its place.
pub fn text(bytes: &[u8]) -> String {
    of(bytes)
}

/// The same where perhaps only the start was read.
pub(crate) fn of<B: Bytes + ?Sized>(file: &B) -> String {
    let verdict = pilzdamo::check(file.start());
    let clinic = Clinic::of(file);
    let mut page = Page::new(&clinic, verdict);
    head(&mut page, &clinic, verdict);
    if clinic.counts.is_some() {
        tables(&mut page, &clinic);
        sessions::show(&mut page, &clinic);
    }
    page.text()
}

/// The same as an object, in JSON.
pub fn json(bytes: &[u8]) -> String {
    let input = Input::of_bytes("-".to_string(), Start::whole(bytes.to_vec()));
    objects::line(&objects::shown("-", &input))
}

fn head(page: &mut Page, clinic: &Clinic, verdict: Verdict) {
    page.line(&format!("check: {}", judged(clinic, verdict)));
    page.marked(&length(clinic), Spot::Length);
    if !clinic.head.is_empty() {
        let form = match clinic.is_by_column() {
            true => ", nodes by column",
            false => "",
        };
        let version = format!("version: {}{form}", clinic.version());
        page.marked(&version, Spot::Version);
    }
    if clinic.has_head() {
        page.marked(&count_line(clinic.counted()), Spot::Counts);
        page.marked(&offset_line(clinic), Spot::Offsets);
    } else if !clinic.head.is_empty() {
        let words: Vec<String> = clinic.head.iter().map(u16::to_string).collect();
        page.line(&format!("head: {}", words.join(" ")));
    }
    match clinic.counts {
        Some(_) => page.line(&format!("on steps: {}", clinic.on_steps())),
        None => page.line(&format!("({NO_RECORDS})")),
    }
}

/// What the check says.
pub(crate) fn judged(clinic: &Clinic, verdict: Verdict) -> String {
    match verdict.number {
        0 => "passes".to_string(),
        13 if clinic.is_bare() => {
            "refused 13, marked !!; it has no on or off yet: place it".to_string()
        }
        number => format!("refused {number}, marked !!"),
    }
}

/// The length, and the one that the counts give, if it is another.
fn length(clinic: &Clinic) -> String {
    let due = Length::Exactly(2 * clinic.words() as u64);
    match clinic.length {
        Length::Exactly(0) => "length: 0 bytes: nothing is planned; read as these 26".to_string(),
        length if clinic.counts.is_some() && length != due => {
            let due = 2 * clinic.words();
            format!("length: {length} ({due} by the counts)")
        }
        length => format!("length: {length}"),
    }
}

fn count_line(counts: &[u16]) -> String {
    let counts = counts.iter().zip(&COUNTED).map(|(&count, section)| {
        let text = several(usize::from(count), section.one);
        match section.most {
            most if count > most => format!("{text} (at most {most})"),
            _ => text,
        }
    });
    format!("counts: {}", counts.collect::<Vec<_>>().join(", "))
}

fn offset_line(clinic: &Clinic) -> String {
    let offsets = clinic.offsets().map(|(section, offset)| {
        let (name, due) = (section.name, clinic.start(section));
        match clinic.counts {
            Some(_) if usize::from(offset) != due => format!("{name} {offset} ({due} is due)"),
            _ => format!("{name} {offset}"),
        }
    });
    format!("offsets: {}", offsets.collect::<Vec<_>>().join(", "))
}

/// Users, roles, kinds and channels.
fn tables(page: &mut Page, clinic: &Clinic) {
    let roles = clinic.count(ROLES);
    let kinds = clinic.count(KINDS);
    section(page, clinic, USERS, &clinic.users, |[mask]| {
        format!(": {}", list("role", u32::from(mask), roles))
    });
    role_table(page, clinic);
    section(page, clinic, KINDS, &clinic.kinds, |kind| {
        format!(" {}", carries(kind, kinds))
    });
    section(page, clinic, CHANNELS, &clinic.channels, |[owner, kind]| {
        let owner = record("user", owner, clinic.count(USERS));
        format!(": owner {owner}, {}", record("kind", kind, kinds))
    });
}

/// The roles, in versions 2 and 3 with their juniors.
fn role_table(page: &mut Page, clinic: &Clinic) {
    let kinds = clinic.count(KINDS);
    if clinic.count(ROLES) > 0 {
        page.line("");
    }
    for (i, &role) in clinic.roles.iter().enumerate() {
        let juniors = match clinic.juniors.get(i) {
            Some(&[mask]) if mask != 0 => juniors(mask, i + 1, clinic.count(ROLES)),
            _ => String::new(),
        };
        let line = format!("role {}: {}{juniors}", i + 1, grants(role, kinds));
        page.marked(&line, Spot::Word(clinic.start(ROLES) + ROLES.width * i));
        if clinic.has_juniors() {
            page.mark(Spot::Word(clinic.start(JUNIORS) + i));
        }
    }
    cut_off(page, clinic, ROLES, clinic.roles.len());
    if clinic.has_juniors() {
        cut_off(page, clinic, JUNIORS, clinic.juniors.len());
    }
}

/// The records of a section, each with its description.
fn section<const W: usize>(
    page: &mut Page,
    clinic: &Clinic,
    section: Section,
    records: &[[u16; W]],
    say: impl Fn([u16; W]) -> String,
) {
    if clinic.count(section) > 0 {
        page.line("");
    }
    for (i, &words) in records.iter().enumerate() {
        let line = format!("{} {}{}", section.one, i + 1, say(words));
        page.marked(&line, Spot::Word(clinic.start(section) + W * i));
    }
    cut_off(page, clinic, section, records.len());
}

/// A remark if the file ends before a section's last record.
pub(crate) fn cut_off(page: &mut Page, clinic: &Clinic, section: Section, there: usize) {
    if let Some(remark) = missing(clinic, section, there) {
        page.line(&format!("({remark})"));
    }
}

/// The line for a file that ends before a section's last record.
pub(crate) fn missing(clinic: &Clinic, section: Section, there: usize) -> Option<String> {
    let missing = clinic.count(section) - there;
    let records = || several(missing, section.one);
    (missing > 0).then(|| format!("the file ends here; {} missing", records()))
}
