//! Cases of two files in one.

use super::{cases, clinic, BOOKING, END};
use crate::draft::{set_word, to_bytes, Draft};
use crate::{is_of_file, Version, Written, MERGED_ROOM};

/// Two files, the length of the output, and what merging does with them.
pub struct MergeCase {
    pub name: &'static str,
    pub first: Vec<u8>,
    pub second: Vec<u8>,
    pub room: usize,
    pub due: DueOfBoth,
}

/// What is due: a refusal's number and place, or the merged file.
pub enum DueOfBoth {
    Refused(u16, u16),
    Merged(Vec<u8>),
}

impl MergeCase {
    /// Fails unless `merge` gives the answer that is due and leaves the output as it
    /// should be, whatever that held before.
    pub fn demand(&self, who: &str, merge: impl Fn(&[u8], &[u8], &mut [u8]) -> Written) {
        let name = self.name;
        for fill in [0, 0xa5] {
            let (mut out, mut due) = (vec![fill; self.room], vec![fill; self.room]);
            let answer = match &self.due {
                &DueOfBoth::Refused(number, place) => Written::refused(number, place),
                DueOfBoth::Merged(file) => {
                    due[..file.len()].copy_from_slice(file);
                    Written::bytes(file.len() as u16)
                }
            };
            let written = merge(&self.first, &self.second, &mut out);
            assert_eq!(written, answer, "{who}: {name}");
            let differs = out.iter().zip(&due).position(|(byte, due)| byte != due);
            assert_eq!(differs, None, "{who}: a byte of the output of {name}");
        }
    }

    fn with_room(self, room: usize) -> MergeCase {
        MergeCase { room, ..self }
    }
}

/// All of them.
pub fn merge_cases() -> Vec<MergeCase> {
    [
        merged(),
        outputs(),
        of_one_file(),
        versions(),
        tables(),
        sums(),
        nothing(),
    ]
    .into_iter()
    .flatten()
    .collect()
}

/// In an output that is just long enough.
fn both(name: &'static str, first: &[u8], second: &[u8], due: DueOfBoth) -> MergeCase {
    MergeCase {
        name,
        first: first.to_vec(),
        second: second.to_vec(),
        room: MERGED_ROOM,
        due,
    }
}

fn refused(name: &'static str, first: &[u8], second: &[u8], number: u16, place: u16) -> MergeCase {
    both(name, first, second, DueOfBoth::Refused(number, place))
}

fn becomes(name: &'static str, first: &[u8], second: &[u8], due: &[u8]) -> MergeCase {
    both(name, first, second, DueOfBoth::Merged(due.to_vec()))
}

/// A clinic with the booking's roles and kinds: user 3 books with user 1 in one branch
/// of a fork, and user 2 starts with role 1.
#[rustfmt::skip]
const OTHER_BOOKING: [u16; 52] = [
    1, 3, 2, 2, 1, 2, 6, 13, 16, 24, 26, 28, 34,
    0, 1, 3,
    1, 0, 0, 0, 3, 0, 0, 0,
    0, 0,
    1, 2,
    3, 0, 1, 2, 1, 5,
    1, 3, 0, 0, 0, 0, 6, 257, 2, 0, 0, 0, 4, 1, 3, 0, 0, 0,
];

/// The booking and that one, word by word: five users, three channels, three sessions,
/// nine nodes.
#[rustfmt::skip]
const BOTH_BOOKINGS: [u16; 70] = [
    1, 5, 2, 2, 3, 3, 9, 13, 18, 26, 28, 34, 43,
    3, 0, 0, 1, 3,
    1, 0, 0, 0, 3, 0, 0, 0,
    0, 0,
    2, 1, 2, 2, 3, 2,
    1, 0, 1, 5, 0, 4, 4, 1, 8,
    6, 257, 2, 6, 258, 2, 0, 0, 0,
    1, 6, 0, 0, 0, 0, 6, 259, 4, 0, 0, 0, 4, 3, 5, 0, 0, 0,
];

/// Nodes with all sorts of operands, in the clinic: users 1 and 2, channels 1 to 3, of
/// kinds 1, 2 and 1.
#[rustfmt::skip]
const ALL_SORTS: [[u16; 3]; 18] = [
    [7, 1, 0], [7, 2, 0], [3, 1, 0],
    [4, 1, 2], [4, 257, 259], [4, 512, 257], [5, 258, 0], [5, 512, 0],
    [6, 257, 2], [6, 258, 259], [6, 258, 512], [6, 513, 514], [4, 1, 514],
    [1, 17, 0], [2, 0, 0], END, [8, 1, 0], END,
];

/// The same after two users, three channels and four nodes.
#[rustfmt::skip]
const ALL_SORTS_BEHIND: [[u16; 3]; 18] = [
    [7, 1, 0], [7, 2, 0], [3, 1, 0],
    [4, 3, 4], [4, 260, 262], [4, 512, 260], [5, 261, 0], [5, 512, 0],
    [6, 260, 4], [6, 261, 262], [6, 261, 512], [6, 513, 514], [4, 3, 514],
    [1, 21, 0], [2, 0, 0], END, [8, 1, 0], END,
];

fn merged() -> Vec<MergeCase> {
    let [booking, other] = [&BOOKING[..], &OTHER_BOOKING].map(to_bytes);
    let few = [[4, 1, 2], [1, 4, 0], END, END];
    let (first, second) = (clinic(&few).bytes(), clinic(&ALL_SORTS).bytes());
    let behind = Draft {
        users: vec![[3], [0], [3], [0]],
        channels: vec![[1, 1], [1, 2], [2, 1], [3, 1], [3, 2], [4, 1]],
        sessions: vec![[1, 0, 1], [3, 0, 5]],
        ..clinic(&[&few[..], &ALL_SORTS_BEHIND].concat())
    };
    vec![
        becomes("two bookings", &booking, &other, &to_bytes(&BOTH_BOOKINGS)),
        becomes("all sorts of operands", &first, &second, &behind.bytes()),
    ]
}

fn outputs() -> Vec<MergeCase> {
    let [booking, other] = [&BOOKING[..], &OTHER_BOOKING].map(to_bytes);
    let due = to_bytes(&BOTH_BOOKINGS);
    let short = |room| refused("17, though it would fit", &booking, &other, 17, 0).with_room(room);
    let wrong = |room| refused("17 before 1", &[1], &[1], 17, 0).with_room(room);
    let longer = |room| becomes("a longer output", &booking, &other, &due).with_room(room);
    vec![
        short(0),
        short(140),
        short(6_873),
        wrong(0),
        wrong(6_873),
        refused("17 of nothing", &[], &[], 17, 0).with_room(6_873),
        longer(6_875),
        longer(6_908),
        longer(70_000),
    ]
}

/// A file's own refusal where two are merged.
fn own((number, place): (u16, u16), file: &[u8]) -> Option<(u16, u16)> {
    match (number, Version::claimed(file)) {
        (1, _) => Some((1, place)),
        (_, Version::Two | Version::Three) => Some((2, 0)),
        _ => is_of_file(number).then_some((number, place)),
    }
}

/// The cases of reading, with a sound file, with one of other tables, and with one
/// that is refused as well.
fn of_one_file() -> Vec<MergeCase> {
    let (booking, odd) = (to_bytes(&BOOKING), [1; 27]);
    let tables_differ = clinic(&[END]).bytes();
    let wrong = cases().into_iter().filter_map(|case| {
        let due = own(case.answer, &case.file)?;
        Some((case.name, case.file, due))
    });
    wrong
        .flat_map(|(name, file, (number, place))| {
            [
                refused(name, &file, &booking, number, place),
                refused(name, &booking, &file, number, place),
                refused(name, &file, &tables_differ, number, place),
                refused(name, &tables_differ, &file, number, place),
                refused(name, &file, &odd, number, place),
                refused(name, &odd, &file, 1, 0),
            ]
        })
        .collect()
}

/// 1 comes before another version, and that before all else.
fn versions() -> Vec<MergeCase> {
    let booking = to_bytes(&BOOKING);
    let second = Draft {
        juniors: Some(vec![[0]; 2]),
        ..Draft::of(&booking)
    };
    let second = second.bytes();
    let with_word = |at, word| {
        let mut file = second.clone();
        set_word(&mut file, at, word);
        file
    };
    let either = |name, file: &[u8], number| {
        [
            refused(name, file, &booking, number, 0),
            refused(name, &booking, file, number, 0),
            refused(name, file, file, number, 0),
        ]
    };
    let third = Draft {
        by_column: true,
        ..Draft::of(&second)
    };
    let third = third.bytes();
    let mut fourth = booking.clone();
    set_word(&mut fourth, 0, 4);
    [
        either("version 2", &second, 2),
        either("version 2 with 33 users", &with_word(1, 33), 2),
        either("version 2 with a wrong offset", &with_word(8, 0), 2),
        either("version 2, cut off", &second[..28], 2),
        either("version 2 of an odd length", &second[..29], 1),
        either("version 2 in 26 bytes", &second[..26], 1),
        either("version 3", &third, 2),
        either("version 3, cut off", &third[..28], 2),
        either("version 3 in 26 bytes", &third[..26], 1),
        either("version 4", &fourth, 2),
        either("two bytes", &second[..2], 1),
    ]
    .into_iter()
    .flatten()
    .chain([
        refused("2 of the first before 1", &second, &[1], 2, 0),
        refused("1 of the first before 2", &[1], &second, 1, 0),
    ])
    .collect()
}

/// The clinic with another routine, and changed.
fn changed(change: impl Fn(&mut Draft)) -> Vec<u8> {
    let mut draft = clinic(&[END]);
    change(&mut draft);
    draft.bytes()
}

fn tables() -> Vec<MergeCase> {
    let first = clinic(&[[4, 1, 1], END]).bytes();
    let differ = |name, change: fn(&mut Draft)| {
        let other = changed(change);
        [
            refused(name, &first, &other, 25, 0),
            refused(name, &other, &first, 25, 0),
        ]
    };
    // One role and five kinds, and two roles and one kind, in the same words.
    let one_role = Draft {
        roles: vec![[1, 0, 1, 0]],
        kinds: vec![[0], [0], [1], [0], [0]],
        ..Draft::default()
    };
    let two_roles = Draft {
        roles: vec![[1, 0, 1, 0], [0, 0, 1, 0]],
        kinds: vec![[0]],
        ..Draft::default()
    };
    let crowd = |draft: &mut Draft| draft.users.resize(32, [0]);
    let mut of = [
        differ("one role more", |d| d.roles.push([0; 4])),
        differ("one role less", |d| {
            d.roles.truncate(1);
            d.users[0] = [1];
        }),
        differ("no roles", |d| {
            d.roles.clear();
            d.users[0] = [0];
        }),
        differ("the first role sends on more", |d| d.roles[0][0] = 3),
        differ("the last role sends on less", |d| d.roles[1][0] = 0),
        differ("the first role receives on another", |d| d.roles[0][2] = 2),
        differ("the last role receives on more", |d| d.roles[1][2] = 3),
        differ("the roles in another order", |d| d.roles.reverse()),
        differ("one kind more", |d| d.kinds.push([0])),
        differ("the last kind carries another", |d| d.kinds[1] = [2]),
        differ("the first kind carries another", |d| d.kinds[0] = [1]),
    ]
    .into_iter()
    .flatten()
    .collect::<Vec<_>>();
    let high = |word: usize| {
        let mut draft = Draft {
            roles: vec![[0; 4]],
            kinds: vec![[0]; 32],
            ..Draft::default()
        };
        let plain = draft.bytes();
        draft.roles[0][word] = 0x8000;
        refused("a kind above 16", &plain, &draft.bytes(), 25, 0)
    };
    of.extend([high(1), high(3)]);
    let [one_role, two_roles] = [one_role, two_roles].map(|draft| draft.bytes());
    of.extend([
        refused("the same words", &one_role, &two_roles, 25, 0),
        refused(
            "25 before 3",
            &changed(crowd),
            &changed(|draft| {
                crowd(draft);
                draft.kinds[1] = [0];
            }),
            25,
            0,
        ),
        becomes(
            "the same tables, other users and channels",
            &changed(|_| {}),
            &changed(|draft| {
                draft.users = vec![[1]];
                draft.channels = vec![[1, 2]];
                draft.sessions[0][1] = 1;
            }),
            &changed(|draft| {
                draft.users.push([1]);
                draft.channels.push([3, 2]);
                draft.sessions.push([3, 1, 2]);
                draft.nodes.push(END);
            }),
        ),
    ]);
    of
}

/// How many users, channels, sessions and nodes a file has.
type Size = [u16; 4];

/// A file of this size with one kind. Its channels are all its last user's, its
/// sessions its first's; they have one node each, but for the last.
fn sized([users, channels, sessions, nodes]: Size) -> Draft {
    let mut draft = Draft {
        users: vec![[0]; users.into()],
        kinds: vec![[0]],
        channels: vec![[users, 1]; channels.into()],
        sessions: (1..=sessions).map(|root| [1, 0, root]).collect(),
        nodes: vec![END; nodes.into()],
        ..Draft::default()
    };
    for node in usize::from(sessions)..nodes.into() {
        draft.nodes[node - 1] = [2, 0, 0];
    }
    draft
}

/// Two files of these sizes in one.
fn sized_both(one: Size, other: Size) -> Draft {
    let ([users, channels, _, nodes], [more_users, more_channels, ..]) = (one, other);
    let (first, second) = (sized(one), sized(other));
    let owners = |user, count: u16| vec![[user, 1]; count.into()];
    let sessions = second.sessions.iter();
    let sessions = sessions.map(|[_, _, root]| [1 + users, 0, root + nodes]);
    Draft {
        users: vec![[0]; usize::from(users + more_users)],
        channels: [
            owners(users, channels),
            owners(users + more_users, more_channels),
        ]
        .concat(),
        sessions: first.sessions.into_iter().chain(sessions).collect(),
        nodes: [first.nodes, second.nodes].concat(),
        ..sized([0; 4])
    }
}

/// Each sum at its limit, and one above it.
fn sums() -> Vec<MergeCase> {
    let limits: [(&str, Size, Size, Size); 10] = [
        ("users", [16, 0, 0, 0], [16, 0, 0, 0], [17, 0, 0, 0]),
        ("users", [31, 0, 0, 0], [1, 0, 0, 0], [2, 0, 0, 0]),
        ("users", [32, 0, 0, 0], [0, 0, 0, 0], [1, 0, 0, 0]),
        ("channels", [1, 32, 0, 0], [2, 32, 0, 0], [2, 33, 0, 0]),
        ("channels", [1, 1, 0, 0], [1, 63, 0, 0], [1, 64, 0, 0]),
        ("sessions", [1, 0, 16, 16], [1, 0, 16, 16], [1, 0, 17, 17]),
        ("sessions", [1, 0, 31, 31], [1, 0, 1, 1], [1, 0, 2, 2]),
        ("nodes", [1, 0, 1, 512], [1, 0, 1, 512], [1, 0, 1, 513]),
        ("nodes", [1, 0, 1, 1_023], [1, 0, 1, 1], [1, 0, 1, 2]),
        (
            "everything",
            [16, 32, 16, 512],
            [16, 32, 16, 512],
            [17, 33, 17, 513],
        ),
    ];
    limits
        .into_iter()
        .flat_map(|(name, one, other, above)| {
            let [first, second, large] = [one, other, above].map(|size| sized(size).bytes());
            let due = [(one, other), (other, one)];
            let [due, turned] = due.map(|(one, other)| sized_both(one, other).bytes());
            [
                becomes(name, &first, &second, &due),
                becomes(name, &second, &first, &turned),
                refused(name, &first, &large, 3, 0),
                refused(name, &large, &first, 3, 0),
            ]
        })
        .collect()
}

/// Zero bytes are the file without a record.
fn nothing() -> Vec<MergeCase> {
    let empty = Draft::default().bytes();
    let booking = to_bytes(&BOOKING);
    let plain = Draft {
        users: vec![[0]; 2],
        sessions: vec![[2, 0, 1]],
        nodes: vec![[4, 1, 2], END],
        ..Draft::default()
    };
    let plain = plain.bytes();
    vec![
        becomes("nothing and nothing", &[], &[], &empty),
        becomes("nothing and no records", &[], &empty, &empty),
        becomes("no records and nothing", &empty, &[], &empty),
        becomes("no records twice", &empty, &empty, &empty),
        becomes("nothing before a file", &[], &plain, &plain),
        becomes("nothing behind a file", &plain, &[], &plain),
        becomes("no records before a file", &empty, &plain, &plain),
        refused("nothing before tables", &[], &booking, 25, 0),
        refused("nothing behind tables", &booking, &[], 25, 0),
        refused("nothing before one byte", &[], &[0], 1, 0),
        refused("nothing behind 25 bytes", &empty[..25], &[], 1, 0),
    ]
}
