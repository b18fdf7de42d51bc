//! The files of the folder `examples`, built from their records.

use crate::draft::*;

/// Every binary example: its name there, and its bytes.
pub fn all() -> Vec<(&'static str, Vec<u8>)> {
    let mut all = vec![
        ("nothing.clinic", vec![]),
        ("booking.clinic", booking().bytes()),
        ("overlap.clinic", overlap().bytes()),
        ("overlap-placed.clinic", placed_overlap().bytes()),
        ("theatre.clinic", theatre().bytes()),
        ("theatre-held.clinic", held_theatre().bytes()),
        ("transfer.clinic", transfer().bytes()),
        ("desks.clinic", desks().bytes()),
        ("head-nurse/copied.clinic", copied_grants().bytes()),
        ("head-nurse/juniors.clinic", by_juniors().bytes()),
        ("head-nurse/columns.clinic", by_columns().bytes()),
        ("wards/before.clinic", before().bytes()),
        ("wards/after.clinic", after().bytes()),
        ("house/north.clinic", north().bytes()),
        ("house/south.clinic", south().bytes()),
        ("notices/november.notice", november()),
        ("notices/december.notice", december()),
        ("hours/desk.clinic", hours_desk(&BOTH_SENDS).bytes()),
        ("hours/by-day.clinic", hours_desk_in(1).bytes()),
        ("spring/bare.clinic", spring(&READ_AND_WRITE, false).bytes()),
        ("spring/cut.clinic", spring(&READ_CUT_WRITE, true).bytes()),
        ("seats/asked.clinic", asked().bytes()),
    ];
    all.extend(refused());
    all
}

/// Those that can be placed.
pub const BARE: [&str; 14] = [
    "booking.clinic",
    "overlap.clinic",
    "theatre.clinic",
    "transfer.clinic",
    "desks.clinic",
    "head-nurse/juniors.clinic",
    "head-nurse/columns.clinic",
    "wards/before.clinic",
    "wards/after.clinic",
    "house/north.clinic",
    "house/south.clinic",
    "spring/bare.clinic",
    "seats/asked.clinic",
    "hours/desk.clinic",
];

/// The booking of the paper: user 1 has role 1, which sends on kind 1, and
/// role 2, which sends on both kinds.
pub fn booking() -> Draft {
    booking_of(&[send(channel(1), 2), send(channel(2), 2), END])
}

/// The booking's tables, with another routine for user 1.
fn booking_of(nodes: &[[u16; 3]]) -> Draft {
    Draft::default()
        .user(&[1, 2])
        .user(&[])
        .role(&[1], &[])
        .role(&[1, 2], &[])
        .kind(0)
        .kind(0)
        .channel(2, 1)
        .channel(2, 2)
        .session(1, nodes)
}

/// User 1's three sends, permitted by role 1, by both roles, and by role 2.
pub fn overlap() -> Draft {
    overlap_of(&[
        send(channel(1), 2),
        send(channel(2), 2),
        send(channel(3), 2),
        END,
    ])
}

/// As placed: the cut is after the second send, though role 2 permits it as
/// well as the third.
fn placed_overlap() -> Draft {
    overlap_of(&[
        on(1),
        send(channel(1), 2),
        send(channel(2), 2),
        off(1),
        on(2),
        send(channel(3), 2),
        off(2),
        END,
    ])
}

fn overlap_of(nodes: &[[u16; 3]]) -> Draft {
    Draft::default()
        .user(&[1, 2])
        .user(&[])
        .role(&[1, 2], &[])
        .role(&[2, 3], &[])
        .kind(0)
        .kind(0)
        .kind(0)
        .channel(2, 1)
        .channel(2, 2)
        .channel(2, 3)
        .session(1, nodes)
}

/// In one branch of user 1's routine, five compares between sends that are
/// permitted by role 2, by both roles, and by role 1.
pub fn theatre() -> Draft {
    let compares = [compare(2, 2); 5];
    let before = [fork(11), send(channel(3), 2), send(channel(2), 2)];
    let after = [send(channel(1), 2), END, END];
    overlap_of(&[&before[..], &compares, &after].concat())
}

/// As it was placed before idle nodes counted: role 1 is on at the compares.
fn held_theatre() -> Draft {
    let compares = [compare(2, 2); 5];
    let before = [fork(15), on(2), send(channel(3), 2), off(2)];
    let held = [on(1), send(channel(2), 2)];
    let after = [send(channel(1), 2), off(1), END, END];
    overlap_of(&[&before[..], &held, &compares, &after].concat())
}

/// As placed: no role is on at the compares.
pub fn placed_theatre() -> Draft {
    let compares = [compare(2, 2); 5];
    let before = [fork(15), on(2), send(channel(3), 2), send(channel(2), 2)];
    let after = [on(1), send(channel(1), 2), off(1), END, END];
    overlap_of(&[&before[..], &[off(2)], &compares, &after].concat())
}

/// Wards 1 and 2 ask ward 3 for a bed, each over a channel that it makes for
/// the answer. User 4 stands for the bed.
pub fn transfer() -> Draft {
    Draft::default()
        .user(&[1])
        .user(&[1])
        .user(&[2])
        .user(&[])
        .role(&[1], &[2])
        .role(&[2], &[1])
        .kind(2)
        .kind(0)
        .channel(3, 1)
        .session(1, &ask(1, 4))
        .session(2, &ask(8, 4))
        .session(3, &[REPEAT, receive(channel(1)), send(variable(1), 4), END])
}

/// Makes a channel, sends it in one branch and receives on it in the other, where it
/// waits for this bed. The root is the node of this number.
fn ask(root: u16, bed: u16) -> [[u16; 3]; 7] {
    [
        new(2),
        fork(root + 4),
        send(channel(1), variable(1)),
        END,
        receive(variable(1)),
        compare(variable(2), bed),
        END,
    ]
}

/// A clinic's roles and kinds as the transfer has them: role 1 asks for a bed, role 2
/// answers.
fn asking() -> Draft {
    Draft::default()
        .role(&[1], &[2])
        .role(&[2], &[1])
        .kind(2)
        .kind(0)
}

/// A ward (user 1) asks the desk (user 2). User 3 stands for the bed.
pub fn north() -> Draft {
    asking()
        .user(&[1])
        .user(&[2])
        .user(&[])
        .channel(2, 1)
        .session(1, &ask(1, 3))
        .session(2, &[receive(channel(1)), send(variable(1), 3), END])
}

/// The desk (user 1), which answers again and again, with the bed of user 2, and two
/// wards (users 3 and 4) that ask it.
pub fn south() -> Draft {
    asking()
        .user(&[2])
        .user(&[])
        .user(&[1])
        .user(&[1])
        .channel(1, 1)
        .session(1, &[REPEAT, receive(channel(1)), send(variable(1), 2), END])
        .session(3, &ask(5, 2))
        .session(4, &ask(12, 2))
}

/// Both in one: the south's users are 4 to 7, its channel is 2, its nodes are 11 on.
pub fn house() -> Draft {
    let asks = |root, to, bed| {
        let mut nodes = ask(root, bed);
        nodes[2] = send(channel(to), variable(1));
        nodes
    };
    asking()
        .user(&[1])
        .user(&[2])
        .user(&[])
        .user(&[2])
        .user(&[])
        .user(&[1])
        .user(&[1])
        .channel(2, 1)
        .channel(4, 1)
        .session(1, &asks(1, 1, 3))
        .session(2, &[receive(channel(1)), send(variable(1), 3), END])
        .session(4, &[REPEAT, receive(channel(2)), send(variable(1), 5), END])
        .session(6, &asks(15, 2, 5))
        .session(7, &asks(22, 2, 5))
}

/// The south, whose desk may also ask.
pub fn other_south() -> Draft {
    let mut draft = south();
    draft.roles[1][0] = mask(&[1, 2]);
    draft
}

/// Two sessions of user 1 that book as the booking does, and one of user 2, in role
/// 3, that takes both bookings.
fn desks() -> Draft {
    let mut draft = booking();
    draft.users[1] = [mask(&[3])];
    let takes = [receive(channel(1)), receive(channel(2))];
    draft
        .role(&[], &[1, 2])
        .session(1, &BOTH_SENDS)
        .session(2, &[&takes[..], &takes, &[END]].concat())
}

/// A notice of a file: its first day, its length, its bytes.
fn notice(first_day: u16, file: &[u8]) -> Vec<u8> {
    let length = file.len() as u16;
    [&first_day.to_le_bytes()[..], &length.to_le_bytes(), file].concat()
}

/// The booking, from 1 November 2026 on.
pub fn november() -> Vec<u8> {
    notice(9_801, &booking().bytes())
}

/// Two bookings and the desk that takes them, from 1 December 2026 on.
pub fn december() -> Vec<u8> {
    notice(9_831, &desks().bytes())
}

/// December's notice, cut off by a byte.
fn cut_notice() -> Vec<u8> {
    let mut cut = december();
    cut.pop();
    cut
}

/// A ward: the head nurse (user 1, role 2), a nurse (user 2, role 1) and the
/// desk (user 3, role 3). Kinds 1, 2 and 3 are for notes on beds, rounds and the
/// roster; the desk takes all of them. User 4 stands for a bed.
fn ward(head_nurse: &[u16]) -> Draft {
    let [bed, round, roster] = [1, 2, 3].map(channel);
    Draft::default()
        .user(&[2])
        .user(&[1])
        .user(&[3])
        .user(&[])
        .role(&[1, 2], &[])
        .role(head_nurse, &[])
        .role(&[], &[1, 2, 3])
        .kind(0)
        .kind(0)
        .kind(0)
        .channel(3, 1)
        .channel(3, 2)
        .channel(3, 3)
        .session(1, &[send(bed, 4), send(round, 4), send(roster, 2), END])
        .session(2, &[send(bed, 4), send(round, 4), END])
        .session(3, &[receive(bed), receive(round), receive(roster), END])
}

/// The nurse's grants copied into the head nurse's record: kind 2 is forgotten.
fn copied_grants() -> Draft {
    ward(&[1, 3])
}

/// The nurse's role as junior of the head nurse's, whose own record has what is
/// hers alone.
pub fn by_juniors() -> Draft {
    ward(&[3]).juniors(&[&[], &[1], &[]])
}

/// The same with its nodes by column.
pub fn by_columns() -> Draft {
    by_juniors().in_columns()
}

/// The tables of the surgeon's house: role 1 asks on kind 1, role 2 asks and books on
/// kinds 1 and 2, role 3 is the desk's, which has both channels. Her number and roles,
/// and the desk's number, are those of every file here.
fn surgery(desk: &[u16]) -> Draft {
    Draft::default()
        .user(&[1, 2])
        .user(desk)
        .role(&[1], &[])
        .role(&[1, 2], &[])
        .role(&[], &[1, 2])
        .kind(0)
        .kind(0)
        .channel(2, 1)
        .channel(2, 2)
}

/// The surgeon's steps where they stand from a root on: she asks for a bed and books
/// it, and besides asks once more.
fn surgeon(root: u16) -> [[u16; 3]; 7] {
    let [ask, book] = [1, 2].map(channel);
    [
        fork(root + 4),
        send(ask, 1),
        send(book, 1),
        END,
        compare(1, 1),
        send(ask, 1),
        END,
    ]
}

/// The surgeon and the desk.
fn before() -> Draft {
    let [ask, book] = [1, 2].map(channel);
    surgery(&[3])
        .session(1, &surgeon(1))
        .session(2, &[receive(ask), receive(book), END])
}

/// Another ward has moved in: a nurse with two sessions before the surgeon's, a bed, and
/// a desk with a role and steps more.
fn after() -> Draft {
    let [ask, book] = [1, 2].map(channel);
    surgery(&[1, 3])
        .user(&[2])
        .user(&[])
        .session(3, &[send(book, 4), END])
        .session(3, &[compare(4, 4), send(ask, 4), END])
        .session(1, &surgeon(6))
        .session(2, &[receive(book), receive(ask), receive(ask), END])
}

/// The sends of the booking.
const BOTH_SENDS: [[u16; 3]; 3] = [send(channel(1), 2), send(channel(2), 2), END];

/// The booking's tables, with both sends permitted by role 1, admissions, and by
/// role 2, the night desk's.
fn hours_desk(nodes: &[[u16; 3]]) -> Draft {
    let mut draft = booking_of(nodes);
    draft.roles[0] = draft.roles[1];
    draft
}

/// Placed in one of these roles.
pub fn hours_desk_in(role: u16) -> Draft {
    hours_desk(&holding(role, &BOTH_SENDS))
}

/// A scheduler's steps: reads the free bed, writes the booking.
const READ_AND_WRITE: [[u16; 3]; 3] = [receive(0), send(channel(3), variable(1)), END];

/// The same with the lowest role for each step: cut in between.
const READ_CUT_WRITE: [[u16; 3]; 7] = [
    on(1),
    receive(0),
    off(1),
    on(2),
    send(channel(3), variable(1)),
    off(2),
    END,
];

/// Two schedulers (users 1 and 2) and the desk (user 3). Users 4 and 5 stand
/// for two beds. Role 1 reads free beds; role 2 reads them and books; role 3 is
/// the desk's. The desk's note of the free bed is passed along on channel 4.
fn spring(scheduler: &[[u16; 3]], with_roles: bool) -> Draft {
    let reads = |line| -> Vec<[u16; 3]> {
        let own = |node| {
            if node == receive(0) {
                receive(channel(line))
            } else {
                node
            }
        };
        scheduler.iter().copied().map(own).collect()
    };
    let draft = Draft::default()
        .user(&[1, 2])
        .user(&[1, 2])
        .user(&[3])
        .user(&[])
        .user(&[])
        .role(&[], &[1])
        .role(&[2], &[1])
        .role(&[1], &[1, 2])
        .kind(0)
        .kind(0)
        .channel(1, 1)
        .channel(2, 1)
        .channel(3, 2)
        .channel(3, 1)
        .session(1, &reads(1))
        .session(2, &reads(2));
    desk(draft, with_roles)
}

/// The desk's sessions: the note that bed 4 is free; one session for each
/// scheduler that takes the note, tells it and passes it on; and one that takes
/// a booking, replaces the note by bed 5 and takes another booking.
fn desk(draft: Draft, with_roles: bool) -> Draft {
    let note = channel(4);
    let held = |nodes: &[[u16; 3]]| {
        if with_roles {
            holding(3, nodes)
        } else {
            nodes.to_vec()
        }
    };
    let tell = |line| {
        let passes = send(note, variable(1));
        held(&[receive(note), send(channel(line), variable(1)), passes, END])
    };
    let draft = draft
        .session(3, &held(&[send(note, 4), END]))
        .session(3, &tell(1))
        .session(3, &tell(2));
    let next = draft.nodes.len() as u16;
    let second = if with_roles { next + 8 } else { next + 6 };
    let books = [
        receive(channel(3)),
        receive(note),
        fork(second),
        send(note, 5),
        END,
        receive(channel(3)),
        END,
    ];
    draft.session(3, &held(&books))
}

/// Two schedulers (users 1 and 2) and the desk (user 3). Users 4 to 6 stand for three
/// beds. Role 1 reads free beds; role 2, the bed holder, asks, reads and books; role 3
/// is the desk's. A scheduler makes a channel, asks with it, reads a bed from it, books
/// the bed, and reads from it again what the desk confirms.
fn asked() -> Draft {
    let scheduler = [
        new(1),
        send(ASK, variable(1)),
        receive(variable(1)),
        send(BOOK, variable(2)),
        receive(variable(1)),
        END,
    ];
    let draft = Draft::default()
        .user(&[1, 2])
        .user(&[1, 2])
        .user(&[3])
        .user(&[])
        .user(&[])
        .user(&[])
        .role(&[], &[1])
        .role(&[2, 3], &[1])
        .role(&[1, 4], &[2, 3, 4])
        .kind(0)
        .kind(1)
        .kind(0)
        .kind(0)
        .channel(3, 2)
        .channel(3, 3)
        .channel(3, 4)
        .channel(3, 4)
        .session(1, &scheduler)
        .session(2, &scheduler)
        .session(3, &[send(NOTE, 4), END])
        .session(3, &[send(NEXT, 5), send(NEXT, 6), END]);
    asked_desk(asked_desk(draft))
}

const ASK: u16 = channel(1);
const BOOK: u16 = channel(2);
const NOTE: u16 = channel(3);
const NEXT: u16 = channel(4);

/// A session of the desk: when asked it takes the note and tells the bed on it, and passes
/// the note on. Once it has a booking it takes the note back, confirms the next free bed,
/// and has the note with that.
fn asked_desk(draft: Draft) -> Draft {
    let root = draft.nodes.len() as u16 + 1;
    let tells = [receive(ASK), receive(NOTE), send(variable(1), variable(2))];
    let passes = [send(NOTE, variable(2)), END];
    let books = [
        receive(BOOK),
        receive(NOTE),
        receive(NEXT),
        send(variable(1), variable(5)),
        send(NOTE, variable(5)),
        END,
    ];
    let second = root + (tells.len() + 1 + passes.len()) as u16;
    let nodes = [&tells[..], &[fork(second)], &passes, &books].concat();
    draft.session(3, &nodes)
}

/// A tree with a role on from its root to before each end.
fn holding(role: u16, nodes: &[[u16; 3]]) -> Vec<[u16; 3]> {
    let mut held = vec![on(role)];
    for &node in nodes {
        if node == END {
            held.push(off(role));
        }
        held.push(node);
    }
    held
}

/// A file for each number that a file can be refused with, and one to run for
/// the numbers of a choice.
fn refused() -> Vec<(&'static str, Vec<u8>)> {
    let mut all = refused_heads();
    all.extend(
        [
            ("refused/06-record.clinic", record()),
            ("refused/07-session.clinic", session()),
            ("refused/08-tree.clinic", tree()),
            ("refused/09-name.clinic", name()),
            ("refused/10-kinds.clinic", kinds()),
            ("refused/11-on.clinic", on_another()),
            ("refused/12-off.clinic", off_at_once()),
            ("refused/13-role.clinic", off_too_soon()),
            ("refused/14-placed.clinic", placed()),
            ("refused/15-no-role.clinic", no_role()),
            ("refused/16-too-long.clinic", too_long()),
            ("refused/21-junior.clinic", junior()),
            ("refused/25-tables.clinic", other_south()),
            ("refused/26-start.clinic", two_start()),
            ("refused/choices.clinic", choices()),
        ]
        .map(|(name, draft)| (name, draft.bytes())),
    );
    all.push(("refused/27-cut.notice", cut_notice()));
    all
}

/// The booking with a byte too many, and with one word of the head changed.
fn refused_heads() -> Vec<(&'static str, Vec<u8>)> {
    let booking = booking().bytes();
    let with_word = |at: usize, word: u16| {
        let mut bytes = booking.clone();
        bytes[2 * at..2 * at + 2].copy_from_slice(&word.to_le_bytes());
        bytes
    };
    let longer = |more: &[u8]| [booking.as_slice(), more].concat();
    vec![
        ("refused/01-odd.clinic", longer(&[0])),
        ("refused/02-version.clinic", with_word(0, 9)),
        ("refused/03-count.clinic", with_word(1, 33)),
        ("refused/04-offset.clinic", with_word(9, 24)),
        ("refused/05-length.clinic", longer(&[0, 0])),
    ]
}

/// Channel 2 has kind 3 of 2.
fn record() -> Draft {
    let mut draft = booking();
    draft.channels[1] = [2, 3];
    draft
}

/// The head nurse's role as junior of the nurse's.
fn junior() -> Draft {
    let mut draft = booking().juniors(&[&[2], &[]]);
    draft.users[0] = [mask(&[2])];
    draft
}

/// Both sessions start with role 1.
fn two_start() -> Draft {
    Draft::default()
        .user(&[1])
        .role(&[], &[])
        .session_with(1, &[1], &[END])
        .session_with(1, &[1], &[END])
}

/// The second session belongs to user 2, who has no role, and starts with role 1.
fn session() -> Draft {
    booking().session_with(2, &[1], &[END])
}

/// The fork's second child is node 4, not 5.
fn tree() -> Draft {
    booking_of(&[fork(5), send(channel(1), 2), END, send(channel(2), 2), END])
}

/// There is no channel 3.
fn name() -> Draft {
    booking_of(&[send(channel(1), 2), send(channel(3), 2), END])
}

/// User 1 receives on a channel of user 2.
fn kinds() -> Draft {
    booking_of(&[send(channel(1), 2), receive(channel(2)), END])
}

/// User 2 has no role, and puts on role 1.
fn on_another() -> Draft {
    let mut draft = booking_of(&[on(1), END]);
    draft.sessions[0][0] = 2;
    draft
}

/// Nothing was put on.
fn off_at_once() -> Draft {
    booking_of(&[off(1), END])
}

/// On 1, on 1, off 1: role 1 is off.
fn off_too_soon() -> Draft {
    booking_of(&[on(1), on(1), off(1), send(channel(1), 2), END])
}

/// The booking as it is when placed.
fn placed() -> Draft {
    booking_of(&[on(2), send(channel(1), 2), send(channel(2), 2), off(2), END])
}

/// The second send is of user 2, who has no role.
fn no_role() -> Draft {
    booking().session(2, &[send(channel(1), 1), END])
}

/// Sends on kinds 1 and 2 in turn, 300 times, with no role for both: 600
/// nodes to switch at.
fn too_long() -> Draft {
    let pair = [send(channel(1), 2), send(channel(2), 2)];
    let mut nodes = pair.repeat(300);
    nodes.push(END);
    let mut draft = booking_of(&nodes);
    draft.roles[1] = [mask(&[2]), 0, 0, 0];
    draft
}

/// Runs at once: a compare of two users, and a repeat.
fn choices() -> Draft {
    booking_of(&[compare(1, 2), END]).session(1, &[REPEAT, END])
}
