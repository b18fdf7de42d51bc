//! The records before the nodes: refusals 6, 21 and 7.

use crate::cause::{Cause, Refusal};
use crate::file::{numbered, three, word, File, Section};

/// Every 6 comes before every 21, and every 21 before every 7.
pub fn judge(file: &File) -> Result<(), Refusal> {
    let mut at = file.version.header() as u16;
    judge_records(file.users, Section::Users, &mut at, |r| user(file, r))?;
    judge_records(file.roles, Section::Roles, &mut at, |r| role(file, r))?;
    let juniors_at = at;
    at += file.juniors.len() as u16;
    judge_records(file.kinds, Section::Kinds, &mut at, |r| kind(file, r))?;
    judge_records(file.channels, Section::Channels, &mut at, |r| {
        channel(file, r)
    })?;
    for ((role, record), place) in numbered(file.juniors).zip(juniors_at..) {
        juniors(file, role, record).map_err(|cause| Refusal { cause, place })?;
    }
    for (place, record) in numbered(file.sessions) {
        session(file, record).map_err(|cause| Refusal { cause, place })?;
    }
    Ok(())
}

/// Judges a section's records; `at` goes from its first word to past its last.
fn judge_records<const N: usize>(
    records: &[[u8; N]],
    section: Section,
    at: &mut u16,
    judge: impl Fn(&[u8; N]) -> Result<(), Cause>,
) -> Result<(), Refusal> {
    for record in records {
        judge(record).map_err(|cause| Refusal { cause, place: *at })?;
        *at += section.width();
    }
    Ok(())
}

/// The bits of a mask that stand for items above the count.
fn above(mask: u32, count: usize) -> u32 {
    mask.checked_shr(count as u32).unwrap_or(0)
}

fn unless(wrong: bool, cause: Cause) -> Result<(), Cause> {
    if wrong {
        Err(cause)
    } else {
        Ok(())
    }
}

fn user(file: &File, record: &[u8; 2]) -> Result<(), Cause> {
    let roles = u32::from(word(record, 0));
    unless(above(roles, file.roles.len()) != 0, Cause::UserRoles)
}

fn role(file: &File, record: &[u8; 8]) -> Result<(), Cause> {
    let (sends, receives) = grants(record);
    let kinds = file.kinds.len();
    unless(above(sends, kinds) != 0, Cause::RoleSends)?;
    unless(above(receives, kinds) != 0, Cause::RoleReceives)
}

/// The kinds that a role may send on, and those that it may receive on.
pub fn grants(record: &[u8; 8]) -> (u32, u32) {
    let mask = |i| u32::from(word(record, i)) | u32::from(word(record, i + 1)) << 16;
    (mask(0), mask(2))
}

/// A junior's number is lower than its senior's.
fn juniors(file: &File, senior: u16, record: &[u8; 2]) -> Result<(), Cause> {
    let mask = word(record, 0);
    let lower = (1 << (senior - 1)) - 1;
    let wrong = mask & !lower;
    if wrong == 0 {
        return Ok(());
    }
    let lowest = wrong.trailing_zeros() as usize + 1;
    Err(match lowest {
        lowest if lowest == usize::from(senior) => Cause::JuniorItself,
        lowest if lowest <= file.roles.len() => Cause::JuniorHigher,
        _ => Cause::JuniorAbove,
    })
}

fn kind(file: &File, record: &[u8; 2]) -> Result<(), Cause> {
    let carried = usize::from(word(record, 0));
    unless(carried > file.kinds.len(), Cause::KindCarries)
}

fn channel(file: &File, record: &[u8; 4]) -> Result<(), Cause> {
    let owner = usize::from(word(record, 0));
    let kind = usize::from(word(record, 1));
    unless(owner == 0, Cause::OwnerZero)?;
    unless(owner > file.users.len(), Cause::OwnerAbove)?;
    unless(kind == 0, Cause::ChannelKindZero)?;
    unless(kind > file.kinds.len(), Cause::ChannelKindAbove)
}

fn session(file: &File, record: &[u8; 6]) -> Result<(), Cause> {
    let [user, start, _] = three(record);
    unless(user == 0, Cause::SessionUserZero)?;
    let Some(assigned) = file.users.get(usize::from(user) - 1) else {
        return Err(Cause::SessionUserAbove);
    };
    let roles = file.roles.len();
    unless(above(u32::from(start), roles) != 0, Cause::StartAbove)?;
    unless(start & !word(assigned, 0) != 0, Cause::StartNotAssigned)
}
