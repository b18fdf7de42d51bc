//! The engine's functions for Rust.

use crate::raw;
use crate::{
    Closing, InForce, Offers, Placed, Ready, Reason, Round, Seats, Sheet, Thread, Totals, Verdict,
    Written,
};
use std::ops::Range;

/// The least length in bytes of an output of [`place`] for any file, and of
/// [`to_columns`] and [`to_rows`]: that of the largest file of versions 2 and 3. For one
/// file [`room`] says what [`place`] needs.
pub const ROOM: usize = 6_908;

/// The least length in bytes of an output of [`place`] for a version 1 file, and of
/// [`merge`]: that of the largest version 1 file.
pub const ROOM_1: usize = 6_874;

/// The minutes of a week. A minute is counted from Monday 00:00 and is below this.
pub const WEEK: u16 = 10_080;

/// The most rows of a table of hours.
pub const ROWS: usize = 64;

/// The least length in bytes of an output of [`run`] and [`round`], with seats too: that
/// of the largest state.
pub const RUN_ROOM: usize = 1_800;

/// The words of a round's choices: two for each of up to 64 choices.
pub const ROUND_WORDS: usize = 128;

/// The most choices that a [`round`] can follow. Together with the round's own a list
/// has at most 65,535.
pub const BEFORE_ROUND: usize = 65_471;

/// The most roles of a file.
pub const ROLES: usize = 16;

/// The most sessions of a file, and so of a role's line.
pub const SESSIONS: usize = 32;

/// The words of all lines in [`Seats`]: [`SESSIONS`] for each of [`ROLES`].
pub const LINE_WORDS: usize = ROLES * SESSIONS;

/// The most seats of a role.
pub const SEATS: u16 = 32;

/// The most words of a row: 64 threads, 64 made channels, and [`SESSIONS`] in each of
/// [`ROLES`] lines.
pub const ROW_WORDS: usize = 2 + 2 * 64 + 13 * 64 + ROLES * (1 + SESSIONS);

/// Words that are enough for the output of [`offers`] in any state: s threads at a send and r
/// at a receive have at most s times r meetings, every other thread one choice, and s + r is at
/// most 64. This is counted by hand and not proved; less room is answered 17.
pub const OFFERS_ROOM: usize = 32 * 32 * (4 + ROW_WORDS);

/// The records of the list that [`start`] and [`choose`] take.
pub const RECORDS: usize = 64;

/// The words that [`start`] and [`choose`] take beside the list.
pub const BESIDE: usize = 162;

/// The most kinds of a file. [`totals`] has a word for each, and so have the last of
/// the [`BESIDE`] words.
pub const TOTALS: usize = 32;

/// The least length in bytes of an output of [`reason`] and [`phrase`]. No sentence is
/// longer.
pub const SENTENCE: usize = 120;

/// The highest number of a refusal.
pub const NUMBERS: usize = 28;

/// The most files that a [`sheet`] reads.
pub const SHEET_FILES: usize = 1_000;

/// The least length in bytes of [`place`]'s output for this file: [`ROOM`] if its first
/// word is 2 or 3, else [`ROOM_1`].
///
/// ```
/// use pilzdamo::{room, ROOM, ROOM_1};
///
/// assert_eq!((room(&[1, 0]), room(&[2, 0]), room(&[3, 0])), (ROOM_1, ROOM, ROOM));
/// assert_eq!((room(&[]), room(&[2])), (ROOM_1, ROOM_1));
///
/// // With one byte less, 17 comes before any look at the file.
/// let file = std::fs::read("../../examples/head-nurse/juniors.clinic")?;
/// let mut out = vec![0; room(&file)];
/// assert!(pilzdamo::place(&file, &mut out).is_placed());
/// out.pop();
/// assert_eq!(pilzdamo::place(&file, &mut out).to_string(), "refused 17 0");
/// # Ok::<(), std::io::Error>(())
/// ```
pub fn room(file: &[u8]) -> usize {
    match file {
        [2 | 3, 0, ..] => ROOM,
        _ => ROOM_1,
    }
}

/// Checks the form, the names and the kinds of a clinic file: refusals 1 to 10.
///
/// Accepts any input; never panics.
///
/// ```
/// let file = std::fs::read("../../examples/booking.clinic")?;
/// assert!(pilzdamo::read(&file).is_clean());
///
/// // Zero bytes are the file of a clinic with nothing planned. One byte is no file.
/// assert!(pilzdamo::read(&[]).is_clean());
/// assert_eq!(pilzdamo::read(&[1]).number, 1);
///
/// // Another version is refusal 2.
/// assert_eq!(pilzdamo::read(&[9; 26]).number, 2);
/// # Ok::<(), std::io::Error>(())
/// ```
#[inline]
pub fn read(file: &[u8]) -> Verdict {
    raw::read(file)
}

/// Checks a clinic file: refusals 1 to 13. These are those of [`read`], then those of
/// the roles that are active at each node.
///
/// Accepts any input; never panics.
///
/// ```
/// // What `read` refuses, `check` refuses in the same way.
/// assert_eq!(pilzdamo::check(&[9; 26]), pilzdamo::read(&[9; 26]));
///
/// // Role 1 is switched on twice and off once; then node 4 needs it.
/// let file = std::fs::read("../../examples/refused/13-role.clinic")?;
/// assert!(pilzdamo::read(&file).is_clean());
/// assert_eq!(pilzdamo::check(&file).to_string(), "refused 13 4");
/// # Ok::<(), std::io::Error>(())
/// ```
#[inline]
pub fn check(file: &[u8]) -> Verdict {
    raw::check(file)
}

/// [`check`] for a minute of the week, counted from Monday 00:00, with a table of hours:
/// a session can't switch on a role that is closed then.
///
/// `hours` has three words a row, at most [`ROWS`] rows: a role, its first minute and
/// its end minute. A role is open at minute m if one of its rows has first ≤ m < end; a
/// role without rows is always open. A closed role in a starting mask still permits, and
/// so do the closed juniors of an open role.
///
/// The order of refusals: 22 for a minute past the week, a table of broken rows or too
/// many rows; 1 to 8; 23 for a row with no such role, first not below end, or an end
/// past the week; 9 and 10; then 11 to 13 with 24, an on of a closed role, directly
/// after 11.
///
/// Accepts any input; never panics.
///
/// ```
/// // Admissions, role 1, from 07:00 to 15:00 on Monday.
/// let hours = [1, 7 * 60, 15 * 60];
/// let file = std::fs::read("../../examples/hours/by-day.clinic")?;
/// assert!(pilzdamo::check_at(&file, &hours, 7 * 60).is_clean());
///
/// // Its first node switches role 1 on.
/// let verdict = pilzdamo::check_at(&file, &hours, 15 * 60);
/// assert_eq!(verdict.to_string(), "refused 24 1");
///
/// // There is no role 9, and no minute past the week's last.
/// let verdict = pilzdamo::check_at(&file, &[9, 0, 1], 0);
/// assert_eq!(verdict.to_string(), "refused 23 1");
/// let verdict = pilzdamo::check_at(&file, &hours, pilzdamo::WEEK);
/// assert_eq!(verdict.to_string(), "refused 22 0");
/// # Ok::<(), std::io::Error>(())
/// ```
#[inline]
pub fn check_at(file: &[u8], hours: &[u16], minute: u16) -> Verdict {
    raw::check_at(file, hours, minute)
}

/// Places the roles of a clinic file: refusals 17, 1 to 10, 14 to 16. Writes the placed
/// file to the start of `out`.
///
/// Accepts any input; never panics. `out` must have [`room`] bytes or more; [`ROOM`] is
/// enough for any file. A refusal writes nothing, and nothing past the answer's length
/// is written. See [`placed`] for the allocating version.
///
/// ```
/// // Role 1 may send on kind 1, role 2 on kinds 1 and 2; user 1 has both. The
/// // session sends on a channel of kind 1 and on one of kind 2.
/// let words = [
///     1, 2, 2, 2, 2, 1, 3, 13, 15, 23, 25, 29, 32, // version, counts, offsets
///     3, 0, // users
///     1, 0, 0, 0, 3, 0, 0, 0, // roles
///     0, 0, // kinds
///     2, 1, 2, 2, // channels
///     1, 0, 1, // session
///     6, 257, 2, 6, 258, 2, 0, 0, 0u16, // nodes
/// ];
/// let file: Vec<u8> = words.into_iter().flat_map(u16::to_le_bytes).collect();
/// assert_eq!(file, std::fs::read("../../examples/booking.clinic")?);
/// let mut out = [0; pilzdamo::ROOM];
/// let placed = pilzdamo::place(&file, &mut out);
/// assert_eq!(placed.to_string(), "placed in 94 bytes, on steps: 1");
///
/// // Role 2 is on from before the first send until after the second.
/// let nodes: [u16; 15] = [7, 2, 0, 6, 257, 2, 6, 258, 2, 8, 2, 0, 0, 0, 0];
/// assert_eq!(out[64..94], nodes.map(u16::to_le_bytes).concat());
/// assert!(pilzdamo::check(&out[..94]).is_clean());
/// # Ok::<(), std::io::Error>(())
/// ```
#[inline]
pub fn place(file: &[u8], out: &mut [u8]) -> Placed {
    raw::place(file, out)
}

/// [`place`] for a minute of the week, with a table of hours as in [`check_at`]: only
/// open roles are switched on.
///
/// The order of refusals: 17, 22, 1 to 8, 23, 9 and 10, 14 to 16; 15 is for a send or
/// receive that no open role of the user permits. The placed file has its input's users
/// with all their roles.
///
/// ```
/// // Admissions, role 1, closes at 15:00 on Monday. Role 2 is the night desk's.
/// let hours = [1, 7 * 60, 15 * 60];
/// let file = std::fs::read("../../examples/hours/desk.clinic")?;
/// let mut out = [0; pilzdamo::ROOM];
/// let role_at = |minute, out: &mut [u8]| {
///     let placed = pilzdamo::place_at(&file, &hours, minute, out);
///     assert_eq!((placed.number, placed.on_steps), (0, 1));
///     // The role that its first node switches on: the nodes stand last.
///     let nodes = file.len() - 3 * 6;
///     u16::from_le_bytes([out[nodes + 2], out[nodes + 3]])
/// };
/// assert_eq!(role_at(12 * 60, &mut out), 1);
/// assert_eq!(role_at(20 * 60, &mut out), 2);
/// # Ok::<(), std::io::Error>(())
/// ```
#[inline]
pub fn place_at(file: &[u8], hours: &[u16], minute: u16, out: &mut [u8]) -> Placed {
    raw::place_at(file, hours, minute, out)
}

/// The allocating version of [`place_at`]: the placed file and its on steps.
///
/// ```
/// let file = std::fs::read("../../examples/hours/desk.clinic")?;
/// let (placed, on_steps) = pilzdamo::placed_at(&file, &[1, 420, 900], 600)?;
/// assert_eq!(on_steps, 1);
/// assert!(pilzdamo::check_at(&placed, &[1, 420, 900], 600).is_clean());
///
/// // Both its roles closed.
/// let refusal = pilzdamo::placed_at(&file, &[1, 0, 9, 2, 0, 9], 9).unwrap_err();
/// assert_eq!(refusal.to_string(), "refused 15 1");
/// # Ok::<(), Box<dyn std::error::Error>>(())
/// ```
pub fn placed_at(file: &[u8], hours: &[u16], minute: u16) -> Result<(Vec<u8>, u16), Verdict> {
    let mut out = vec![0; ROOM];
    let placed = place_at(file, hours, minute, &mut out);
    kept(placed, out)
}

/// What [`place`] answers in an output that is long enough: the length and on steps of
/// the placed file, or the refusal. Writes nothing and never answers 17.
///
/// ```
/// use pilzdamo::{measure, place, ROOM};
///
/// let file = std::fs::read("../../examples/booking.clinic")?;
/// assert_eq!(measure(&file).to_string(), "placed in 94 bytes, on steps: 1");
/// assert_eq!(measure(&file), place(&file, &mut [0; ROOM]));
///
/// // No role of user 2 permits node 4.
/// let file = std::fs::read("../../examples/refused/15-no-role.clinic")?;
/// assert_eq!(measure(&file).to_string(), "refused 15 4");
/// # Ok::<(), std::io::Error>(())
/// ```
#[inline]
pub fn measure(file: &[u8]) -> Placed {
    raw::measure(file)
}

/// What [`place_at`] answers in an output that is long enough.
///
/// ```
/// // Both roles that permit its sends are closed at minute 9.
/// let hours = [1, 0, 9, 2, 0, 9];
/// let file = std::fs::read("../../examples/hours/desk.clinic")?;
/// let told = |minute| pilzdamo::measure_at(&file, &hours, minute).to_string();
/// assert_eq!(told(8), "placed in 94 bytes, on steps: 1");
/// assert_eq!(told(9), "refused 15 1");
/// assert_eq!(told(pilzdamo::WEEK), "refused 22 0");
/// # Ok::<(), std::io::Error>(())
/// ```
#[inline]
pub fn measure_at(file: &[u8], hours: &[u16], minute: u16) -> Placed {
    raw::measure_at(file, hours, minute)
}

/// The placed file, truncated to its length.
fn kept(placed: Placed, mut out: Vec<u8>) -> Result<(Vec<u8>, u16), Verdict> {
    placed.verdict().result()?;
    out.truncate(placed.length.into());
    Ok((out, placed.on_steps))
}

/// The allocating version of [`place`]: the placed file and its on steps.
///
/// ```
/// let file = std::fs::read("../../examples/transfer.clinic")?;
/// let (placed, on_steps) = pilzdamo::placed(&file)?;
/// assert_eq!(on_steps, 3);
///
/// // A placed file can't be placed again: node 2 switches a role on.
/// let refusal = pilzdamo::placed(&placed).unwrap_err();
/// assert_eq!(refusal.to_string(), "refused 14 2");
/// # Ok::<(), Box<dyn std::error::Error>>(())
/// ```
pub fn placed(file: &[u8]) -> Result<(Vec<u8>, u16), Verdict> {
    let mut out = vec![0; ROOM];
    let placed = place(file, &mut out);
    kept(placed, out)
}

/// Runs a clinic file through a list of choices, two words each: a thread and its
/// partner, 0 if the thread steps alone. Refusals 17, 1 to 10, then that of the first
/// choice that is refused.
///
/// Accepts any input; never panics. `out` must have [`RUN_ROOM`] bytes or more. 17 and 1
/// to 10 write nothing. Otherwise the state after the last choice done is written to the
/// start of `out`, also if a choice is refused; the answer's place is then that choice's
/// number, from 1. Nothing past the state is written.
///
/// The state has these words, low byte first: choices done; the refusal or 0; the number
/// of threads; the number of made channels; for each made channel its owner and kind;
/// for each thread its user, node, mask of active roles, the number of these, and its
/// eight variables. [`State::of`](crate::State::of) reads them.
///
/// ```
/// // Role 1 may send on kind 1, role 2 may receive; user 1 has role 1, user 2
/// // has role 2 and channel 1. Each has a session, in which its role is active.
/// let words = [
///     1, 2, 2, 1, 1, 2, 4, 13, 15, 23, 24, 26, 32, // version, counts, offsets
///     1, 2, // users
///     1, 0, 0, 0, 0, 0, 1, 0, // roles
///     0, // kinds
///     2, 1, // channels
///     1, 1, 1, 2, 2, 3, // sessions
///     6, 257, 1, 0, 0, 0, 5, 257, 0, 0, 0, 0u16, // nodes
/// ];
/// let file: Vec<u8> = words.into_iter().flat_map(u16::to_le_bytes).collect();
/// let mut out = [0; pilzdamo::RUN_ROOM];
///
/// // Thread 1 sends to thread 2 and ends. The other thread then has number 1.
/// assert!(pilzdamo::run(&file, &[1, 2, 1, 0], &mut out).is_clean());
/// let state: [u16; 16] = [2, 0, 1, 0, 2, 4, 2, 1, 1, 0, 0, 0, 0, 0, 0, 0];
/// assert_eq!(out[..32], state.map(u16::to_le_bytes).concat());
///
/// // There is no thread 3: the run halts at its second choice.
/// let verdict = pilzdamo::run(&file, &[1, 2, 3, 0], &mut out);
/// assert_eq!(verdict.to_string(), "refused 18 2");
/// assert_eq!(out[..8], [1, 0, 18, 0, 2, 0, 0, 0]);
/// ```
#[inline]
pub fn run(file: &[u8], choices: &[u16], out: &mut [u8]) -> Verdict {
    raw::run(file, choices, out)
}

/// A dispatcher's round after a list of choices: which threads step next, and with whom.
///
/// The round visits the threads present at its start in order, each once, also one that
/// was met before its visit. A visited thread does its lone step, unless it is refused.
/// A visited sender meets the first receiver in order that it can meet and that has not
/// moved in this round. Threads made meanwhile wait for the next round. An empty round
/// means that no choice can be done.
///
/// Accepts any input; never panics. Refusals 17, also for over [`BEFORE_ROUND`] choices,
/// then those of [`run`]; a list that halts has no round. `out` must have [`RUN_ROOM`]
/// bytes or more. It gets the state after the list and the round's choices; the answer
/// has the state's length. Nothing past it is written.
///
/// ```
/// use pilzdamo::{round, run, State, RUN_ROOM};
///
/// // Two bookings (threads 1 and 2), and the desk that takes them (thread 3).
/// let file = std::fs::read("../../examples/desks.clinic")?;
/// let (file, _) = pilzdamo::placed(&file)?;
/// let mut out = [0; RUN_ROOM];
///
/// // All switch a role on. Then thread 1 meets the desk; thread 2 doesn't, since the
/// // desk has moved in that round.
/// let mut choices = Vec::new();
/// for due in ["choices 1 0, 2 0, 3 0", "choices 1 3"] {
///     let round = round(&file, &choices, &mut out);
///     assert_eq!(round.to_string(), due);
///     choices.extend(round.choices());
/// }
///
/// // The output is that of a run through all of these.
/// let mut due = [0; RUN_ROOM];
/// run(&file, &choices, &mut due).result()?;
/// assert_eq!(State::of(&out), State::of(&due));
///
/// // There is no thread 4: the list stops, and has no round.
/// let stopped = round(&file, &[1, 0, 4, 0], &mut out);
/// assert_eq!(stopped.to_string(), "refused 18 2");
/// assert_eq!(State::of(&out[..stopped.length.into()]).unwrap().done, 1);
/// # Ok::<(), Box<dyn std::error::Error>>(())
/// ```
#[inline]
pub fn round(file: &[u8], choices: &[u16], out: &mut [u8]) -> Round {
    raw::round(file, choices, out)
}

/// The ready pair after a list of choices: the lowest sender that can send, and the
/// lowest receiver that can meet it. The refusals are those of [`run`].
///
/// Accepts any input; never panics. There is no output, so 17 is for the list alone: an
/// odd number of words, or over 65,535 choices.
///
/// ```
/// # let words = [
/// #     1, 2, 2, 1, 1, 2, 4, 13, 15, 23, 24, 26, 32, 1, 2, 1, 0, 0, 0, 0, 0, 1, 0, 0, 2, 1,
/// #     1, 1, 1, 2, 2, 3, 6, 257, 1, 0, 0, 0, 5, 257, 0, 0, 0, 0u16,
/// # ];
/// # let file: Vec<u8> = words.into_iter().flat_map(u16::to_le_bytes).collect();
/// // The file of `run`'s example.
/// let ready = |choices: &[u16]| pilzdamo::ready(&file, choices);
/// assert_eq!(ready(&[]).pair(), Some((1, 2)));
/// assert_eq!(ready(&[1, 2]).to_string(), "no pair can meet");
/// assert_eq!(ready(&[1, 2, 3, 0]).to_string(), "refused 18 2");
/// ```
#[inline]
pub fn ready(file: &[u8], choices: &[u16]) -> Ready {
    raw::ready(file, choices)
}

/// Who is waiting on what after a list of choices: for each kind, how many threads stand
/// at a receive on a channel of that kind, whatever roles they hold.
///
/// Accepts any input; never panics. The refusals are those of [`run`]; there is no
/// output, so 17 is for the list alone. If the list halts, the totals are those of the
/// state before the refused choice.
///
/// ```
/// # let words = [
/// #     1, 2, 2, 1, 1, 2, 4, 13, 15, 23, 24, 26, 32, 1, 2, 1, 0, 0, 0, 0, 0, 1, 0, 0, 2, 1,
/// #     1, 1, 1, 2, 2, 3, 6, 257, 1, 0, 0, 0, 5, 257, 0, 0, 0, 0u16,
/// # ];
/// # let file: Vec<u8> = words.into_iter().flat_map(u16::to_le_bytes).collect();
/// // The file of `run`'s example: thread 2 waits, until thread 1 has sent to it.
/// let totals = |choices: &[u16]| pilzdamo::totals(&file, choices);
/// assert_eq!(totals(&[]).of(1), 1);
/// assert_eq!(totals(&[]).to_string(), "waiting: 1 on kind 1");
/// assert_eq!(totals(&[1, 2]).to_string(), "nobody waits");
///
/// // There is no thread 3: the run stands where it halted.
/// let halted = totals(&[3, 0, 1, 2]);
/// assert_eq!((halted.number, halted.place, halted.of(1)), (18, 1, 1));
/// assert_eq!(halted.to_string(), "refused 18 1, waiting: 1 on kind 1");
/// ```
#[inline]
pub fn totals(file: &[u8], choices: &[u16]) -> Totals {
    raw::totals(file, choices)
}

/// A [`run`] with seats. A table gives each role of the file its seats, one word a role:
/// 0 for no limit, else 1 to [`SEATS`].
///
/// A session has a seat in a role while any of its threads has the role active. An on by
/// a session without a seat gets one exactly if one is free and the line is empty or the
/// session is its head; the head leaves the line as it takes the seat. An on that gets
/// no seat is answered 26: its session is queued at the end of the line, unless it is in
/// it already, and nothing else changes. The run goes on and the choice counts as done;
/// make it again when a seat may be free. [`seats`] says who has a seat and who waits.
///
/// Refusals and output are those of [`run`]. Between 1 to 10 and the choices come two
/// more: 17 for another number of words than roles or a word above [`SEATS`], and 26 for
/// the lowest session whose starting mask, taken in order, overfills a role. The answer
/// has the length of what is written, also if a choice halts the run.
///
/// ```
/// use pilzdamo::{run, run_seated, State, RUN_ROOM};
///
/// // Two schedulers that switch on role 1 and, later, role 2. Role 1 has one seat.
/// let file = std::fs::read("../../examples/spring/cut.clinic")?;
/// let (seats, mut out) = ([1, 0, 0], [0; RUN_ROOM]);
/// let written = run_seated(&file, &[1, 0, 2, 0], &seats, &mut out);
/// written.verdict().result()?;
/// let state = State::of(&out[..written.length.into()]).unwrap();
///
/// // The second is still at its on and waits. Both choices are done.
/// assert_eq!(state.done, 2);
/// assert_eq!((state.threads[0].mask, state.threads[1].mask), (1, 0));
///
/// // Without limits it is a plain run.
/// let mut due = [0; RUN_ROOM];
/// run(&file, &[1, 0, 2, 0], &mut due).result()?;
/// let written = run_seated(&file, &[1, 0, 2, 0], &[0, 0, 0], &mut out);
/// assert_eq!(State::of(&out[..written.length.into()]), State::of(&due));
///
/// // The file has three roles.
/// let written = run_seated(&file, &[], &[1, 0], &mut out);
/// assert_eq!(written.to_string(), "refused 17 0");
/// # Ok::<(), Box<dyn std::error::Error>>(())
/// ```
#[inline]
pub fn run_seated(file: &[u8], choices: &[u16], seats: &[u16], out: &mut [u8]) -> Written {
    raw::run_seated(file, choices, seats, out)
}

/// A dispatcher's [`round`] with seats, as in [`run_seated`]. A visit that gets no seat is
/// in the round's list, and its session is queued.
///
/// Refusals and output are those of [`round`], with 17 and 26 for the seats as in
/// [`run_seated`].
///
/// ```
/// use pilzdamo::{round_seated, RUN_ROOM};
///
/// // Both schedulers, and four sessions of the desk; role 1 has one seat.
/// let file = std::fs::read("../../examples/spring/cut.clinic")?;
/// let mut out = [0; RUN_ROOM];
/// let round = round_seated(&file, &[], &[1, 0, 0], &mut out);
/// assert_eq!(round.to_string(), "choices 1 0, 2 0, 3 0, 4 0, 5 0, 6 0");
///
/// // The second of these choices got no seat.
/// let seats = pilzdamo::seats(&file, round.choices(), &[1, 0, 0]);
/// assert_eq!((seats.waited, seats.line_of(1)), (1, &[2][..]));
/// # Ok::<(), std::io::Error>(())
/// ```
#[inline]
pub fn round_seated(file: &[u8], choices: &[u16], seats: &[u16], out: &mut [u8]) -> Round {
    raw::round_seated(file, choices, seats, out)
}

/// Who has a role and who waits for a seat, after a list of choices with a table of
/// seats as in [`run_seated`].
///
/// Accepts any input; never panics. The refusals are those of [`run_seated`]; there is
/// no output, so 17 is for the list and the table alone. If the list halts, the answer
/// is about the state before the refused choice.
///
/// ```
/// // Role 1 has one seat, and both schedulers ask for it.
/// let file = std::fs::read("../../examples/spring/cut.clinic")?;
/// let seats = |choices: &[u16]| pilzdamo::seats(&file, choices, &[1, 0, 0]);
/// let asked = seats(&[1, 0, 2, 0]);
/// assert_eq!((asked.in_role(1), asked.line_of(1)), (1, &[2][..]));
/// assert_eq!((asked.waited, asked.last), (1, 26));
///
/// // The second asks again, while the first still has the seat.
/// let again = seats(&[1, 0, 2, 0, 2, 0]);
/// assert_eq!((again.line_of(1), again.waited), (&[2][..], 2));
/// # Ok::<(), std::io::Error>(())
/// ```
#[inline]
pub fn seats(file: &[u8], choices: &[u16], seats: &[u16]) -> Seats {
    raw::seats(file, choices, seats)
}

/// Judges a certificate for all lists of choices with a table of seats, as in
/// [`run_seated`]. A table of zeros stands for runs without seats, as in [`run`].
///
/// A certificate is what a search found: the states, and for each choice that is done the
/// state that follows. [`offers`] has them, state by state, and [`closed_part`] judges a part.
/// If it holds, every list of choices leads to a state that is a row,
/// and every row is a state that some list leads to. What no row has can't happen, whatever
/// is chosen.
///
/// Row k, counted from 0, begins at word `places[k]` of `states`. Its words are: the run's
/// output from its third word on (the numbers of threads and of made channels; owner and
/// kind of each made channel; for each thread its user, node, mask, the number of roles in
/// the mask and its eight variables); the session of each thread; for each word of `seats`
/// how many sessions wait for that role, and these sessions in order.
///
/// `next` has the number of a row, counted from 0, for each choice that is done, a choice
/// that waits for a seat included: rows in order, in each row the threads from 1 on, with
/// each thread the partners from 0 to the number of threads. Row 0 is the file's start. The
/// others are numbered in the order in which `next` first names them, as a breadth-first
/// search numbers them. Numbers past the last choice that is done are not read.
///
/// Accepts any input; never panics. Refusals, in this order: 17 for no row, or for 2^32 − 1
/// rows or more; 1 to 10; 17 and 26 for the seats as in [`run_seated`]; 18 at place 0, with
/// the row at fault, counted from 1. The row at fault is the first if it isn't the file's
/// start; else the lowest row that no choice of a row before it leads to, or that has a
/// choice whose number in `next` is missing, names no row, names a new row that is not the
/// next new one, or names a row with other words than the state that follows.
///
/// ```
/// # let words = [
/// #     1, 2, 2, 1, 1, 2, 4, 13, 15, 23, 24, 26, 32, 1, 2, 1, 0, 0, 0, 0, 0, 1, 0, 0, 2, 1,
/// #     1, 1, 1, 2, 2, 3, 6, 257, 1, 0, 0, 0, 5, 257, 0, 0, 0, 0u16,
/// # ];
/// # let file: Vec<u8> = words.into_iter().flat_map(u16::to_le_bytes).collect();
/// // The file of `run`'s example: thread 1 sends user 1 to thread 2, and both end.
/// let thread = |user, node, role, value| [user, node, role, 1, value, 0, 0, 0, 0, 0, 0, 0];
/// let (sends, receives) = (thread(1, 1, 1, 0), thread(2, 3, 2, 0));
/// let (sent, received) = (thread(1, 2, 1, 0), thread(2, 4, 2, 1));
/// let row = |threads: &[[u16; 12]], sessions: &[u16]| {
///     let counts = [threads.len() as u16, 0];
///     [&counts, threads.as_flattened(), sessions, &[0, 0]].concat()
/// };
/// let rows = [
///     row(&[sends, receives], &[1, 2]),
///     row(&[sent, received], &[1, 2]),
///     row(&[received], &[2]),
///     row(&[sent], &[1]),
///     row(&[], &[]),
/// ];
/// let (states, places) = (rows.concat(), [0, 30, 60, 77, 94]);
/// let closed = |next: &[u32]| pilzdamo::closed(&file, &[0, 0], &states, &places, next);
/// assert!(closed(&[1, 2, 3, 4, 4]).is_closed());
///
/// // Row 3, as they are counted in refusals, ends in the last and not in itself.
/// assert_eq!(closed(&[1, 2, 3, 2, 4]).to_string(), "refused 18 0, row 3");
/// ```
#[inline]
pub fn closed(file: &[u8], seats: &[u16], states: &[u16], places: &[u32], next: &[u32]) -> Closing {
    raw::closed(file, seats, states, places, next)
}

/// Judges a part of a certificate, which [`closed`] judges whole: the rows of `rows`, counted
/// from 0, whose choices that are done have the numbers of `numbers` in `next`. Parts can be
/// judged apart, also at once by several threads or computers.
///
/// If every part of a chain holds, the whole certificate does: the first part begins with
/// row 0 and number 0, each begins where the one before ends, and the last ends with the last
/// row. And if a certificate holds, so does every part with the right numbers.
///
/// Rows outside the part aren't tried, but those that its choices lead to are compared: lend
/// them, all of `places`, and `next` from its start. Known when the part begins are row 0 and,
/// of the rows that the numbers before it name, the highest and all below. Each row of the
/// part has to be in order: it has all its words, with at most 64 threads, 64 made channels
/// and [`SESSIONS`] sessions in a line; each thread's session is one of the file's; no role
/// with a limit has more sessions than seats; a line has sessions of the file that aren't in
/// the role, none twice, and a role without limit has no line.
///
/// Accepts any input; never panics. Refusals, in this order: 17 as in [`closed`], and for no
/// row in `rows`, a row or number past the last, or `numbers` that end before they begin; 1 to
/// 10; 17 and 26 for the seats as in [`run_seated`]; 18 at place 0, with the lowest row at
/// fault, counted from 1: the first if it is in the part and isn't the file's start; a row that
/// isn't in order, isn't known yet, or has a choice at fault as in [`closed`]; the last row of
/// the part if its choices don't end with `numbers`.
///
/// ```
/// # let words = [
/// #     1, 2, 2, 1, 1, 2, 4, 13, 15, 23, 24, 26, 32, 1, 2, 1, 0, 0, 0, 0, 0, 1, 0, 0, 2, 1,
/// #     1, 1, 1, 2, 2, 3, 6, 257, 1, 0, 0, 0, 5, 257, 0, 0, 0, 0u16,
/// # ];
/// # let file: Vec<u8> = words.into_iter().flat_map(u16::to_le_bytes).collect();
/// # let thread = |user, node, role, value| [user, node, role, 1, value, 0, 0, 0, 0, 0, 0, 0];
/// # let (sends, receives) = (thread(1, 1, 1, 0), thread(2, 3, 2, 0));
/// # let (sent, received) = (thread(1, 2, 1, 0), thread(2, 4, 2, 1));
/// # let row = |threads: &[[u16; 12]], sessions: &[u16]| {
/// #     let counts = [threads.len() as u16, 0];
/// #     [&counts, threads.as_flattened(), sessions, &[0, 0]].concat()
/// # };
/// # let rows = [
/// #     row(&[sends, receives], &[1, 2]),
/// #     row(&[sent, received], &[1, 2]),
/// #     row(&[received], &[2]),
/// #     row(&[sent], &[1]),
/// #     row(&[], &[]),
/// # ];
/// // The certificate of `closed`'s example, with five rows, in two parts.
/// let (states, places) = (rows.concat(), [0, 30, 60, 77, 94]);
/// let part = |rows, numbers, next: &[u32; 5]| {
///     pilzdamo::closed_part(&file, &[0, 0], &states, &places, next, rows, numbers).to_string()
/// };
/// let next = [1, 2, 3, 4, 4];
/// assert_eq!(part(0..2, 0..3, &next), "closed");
/// assert_eq!(part(2..5, 3..5, &next), "closed");
///
/// // A wrong number is seen by the part that has it. The other one counts its rows otherwise.
/// let wrong = [1, 2, 3, 2, 4];
/// assert_eq!(part(0..2, 0..3, &wrong), "closed");
/// assert_eq!(part(2..5, 3..5, &wrong), "refused 18 0, row 3");
///
/// // The choices of these rows end earlier; and there is no row 6.
/// assert_eq!(part(0..2, 0..4, &next), "refused 18 0, row 2");
/// assert_eq!(part(2..6, 3..5, &next), "refused 17 0");
/// ```
#[inline]
pub fn closed_part(
    file: &[u8],
    seats: &[u16],
    states: &[u16],
    places: &[u32],
    next: &[u32],
    rows: Range<usize>,
    numbers: Range<usize>,
) -> Closing {
    raw::closed_part(file, seats, states, places, next, rows, numbers)
}

/// Writes all choices that can be done in a state, each with the state that follows: for a
/// search over all lists of choices. The file is judged once for all of them.
///
/// `state` has the words of a row, as in [`closed`]; [`start_row`] has the file's start. The
/// offers are written to the start of `out`, threads from 1 on, with each thread the partners
/// from 0 on. An offer has these words: thread, partner, answer (0, or 26 if it has to wait
/// for a seat), the number of words of the state that follows, and these words, which are a
/// row. [`Offers::each`] reads them. No choice with other numbers can be done.
///
/// Accepts any input; never panics. Refusals, in this order: 1 to 10; 17 and 26 for the seats
/// as in [`run_seated`]; 18 at place 0 if `state` isn't exactly the words of a state in order,
/// as in [`closed_part`], with the right number of roles of each thread; 17 if an offer has no
/// room in `out`. Then the offers before it are written; any other refusal writes nothing.
/// [`OFFERS_ROOM`] words are enough for any state.
///
/// A state in order need be no state of the run. What the file doesn't have can't be done
/// there: a step at no node, an on by no user, a send on no channel.
///
/// ```
/// # let words = [
/// #     1, 2, 2, 1, 1, 2, 4, 13, 15, 23, 24, 26, 32, 1, 2, 1, 0, 0, 0, 0, 0, 1, 0, 0, 2, 1,
/// #     1, 1, 1, 2, 2, 3, 6, 257, 1, 0, 0, 0, 5, 257, 0, 0, 0, 0u16,
/// # ];
/// # let file: Vec<u8> = words.into_iter().flat_map(u16::to_le_bytes).collect();
/// use pilzdamo::{offers, start_row};
///
/// // The file of `run`'s example: thread 1 can send to thread 2, and nothing else.
/// let start = start_row(&file, &[0, 0])?;
/// let mut out = [7; 40];
/// let told = offers(&file, &[0, 0], &start, &mut out);
/// assert_eq!(told.to_string(), "offers: 1 in 34 words");
/// assert_eq!((&out[..4], out[34]), (&[1, 2, 0, 30][..], 7));
///
/// // Then both can end.
/// let met = out[4..34].to_vec();
/// let told = offers(&file, &[0, 0], &met, &mut out);
/// assert_eq!(told.to_string(), "refused 17 0, offers: 1 in 21 words");
/// let mut out = [0; 42];
/// let told = offers(&file, &[0, 0], &met, &mut out);
/// let choices: Vec<_> = told.each(&out).map(|it| (it.thread, it.partner, it.waits)).collect();
/// assert_eq!(choices, [(1, 0, false), (2, 0, false)]);
///
/// // A word more is no state.
/// let told = offers(&file, &[0, 0], &[&met[..], &[0]].concat(), &mut out);
/// assert_eq!(told.to_string(), "refused 18 0");
/// # Ok::<(), pilzdamo::Verdict>(())
/// ```
#[inline]
pub fn offers(file: &[u8], seats: &[u16], state: &[u16], out: &mut [u16]) -> Offers {
    raw::offers(file, seats, state, out)
}

/// The words of the file's start as a row, as in [`closed`]: what a search begins with. The
/// refusals are those of [`run_seated`] without choices.
///
/// ```
/// assert_eq!(pilzdamo::start_row(&[], &[]), Ok(vec![0, 0]));
/// assert_eq!(pilzdamo::start_row(&[], &[1]).unwrap_err().to_string(), "refused 17 0");
/// ```
pub fn start_row(file: &[u8], seats: &[u16]) -> Result<Vec<u16>, Verdict> {
    let mut out = [0; RUN_ROOM];
    let written = run_seated(file, &[], seats, &mut out);
    written.verdict().result()?;
    let state = out[..written.length.into()].as_chunks().0;
    let words = state.iter().map(|word| u16::from_le_bytes(*word));
    let mut row: Vec<u16> = words.skip(2).collect();
    let sessions = 1..=row[0];
    row.extend(sessions);
    row.extend(seats.iter().map(|_| 0));
    Ok(row)
}

/// How many threads wait on a kind, from the words beside a list of threads that
/// [`start`] and [`choose`] keep. Reads one word. The answer is 0 for a kind outside 1 to
/// 32, and for another number of words than [`BESIDE`].
///
/// ```
/// # let words = [
/// #     1, 2, 2, 1, 1, 2, 4, 13, 15, 23, 24, 26, 32, 1, 2, 1, 0, 0, 0, 0, 0, 1, 0, 0, 2, 1,
/// #     1, 1, 1, 2, 2, 3, 6, 257, 1, 0, 0, 0, 5, 257, 0, 0, 0, 0u16,
/// # ];
/// # let file: Vec<u8> = words.into_iter().flat_map(u16::to_le_bytes).collect();
/// use pilzdamo::{choose, start, total, Thread, BESIDE, RECORDS};
///
/// // The file of `run`'s example.
/// let (mut threads, mut beside) = ([Thread::default(); RECORDS], [0; BESIDE]);
/// assert!(start(&file, &mut threads, &mut beside).is_clean());
/// assert_eq!((total(&beside, 1), total(&beside, 2)), (1, 0));
///
/// // Thread 1 sends to thread 2, which then no longer waits.
/// assert!(choose(&file, &mut threads, &mut beside, 1, 2).is_clean());
/// assert_eq!(total(&beside, 1), 0);
///
/// // No kind has number 0 or 33, and a desk has more words.
/// assert_eq!((total(&[9; BESIDE], 0), total(&[9; BESIDE], 33)), (0, 0));
/// assert_eq!(total(&[9; BESIDE - 1], 1), 0);
/// ```
#[inline]
pub fn total(beside: &[u16], kind: u16) -> u16 {
    raw::total(beside, kind)
}

/// Writes a refusal as a sentence of fixed words to the start of `out`: what its number
/// means, what its place counts, the place, and, for 9 to 15 at a node, that node's tag.
/// Answers the sentence's length in bytes.
///
/// A reason has a number of a refusal and a count that this number may have ([`Reason`]
/// has the table); place 0 if nothing is counted, else 1 to 65,535; a tag from 0 to 8
/// for 9 to 15 at a node, else [`NO_TAG`](crate::NO_TAG). For anything else, and if `out`
/// has under [`SENTENCE`] bytes, the answer is 0 and nothing is written. Nothing past the
/// length is written. No two reasons share a sentence. See [`Reason::sentence`] for the
/// allocating version.
///
/// ```
/// use pilzdamo::{reason, Counts, Reason, NO_TAG, SENTENCE};
///
/// // 13 at node 4, which sends.
/// let of = Reason { number: 13, counts: Counts::Node.number(), place: 4, tag: 6 };
/// let mut out = [0; SENTENCE];
/// let length = usize::from(reason(of, &mut out));
/// let sentence = b"Refused 13: no active role permits the step at node 4, a send.";
/// assert_eq!(&out[..length], sentence);
///
/// // 13 at a node needs a tag; 3 has no place.
/// assert_eq!(reason(Reason { tag: NO_TAG, ..of }, &mut out), 0);
/// assert_eq!(reason(Reason { number: 3, ..of }, &mut out), 0);
///
/// // A byte less.
/// assert_eq!(reason(of, &mut out[1..]), 0);
/// ```
#[inline]
pub fn reason(reason: Reason, out: &mut [u8]) -> u16 {
    raw::reason(reason, out)
}

/// Reads a sentence of [`reason`] back: the reason that it was written from. Any other
/// bytes are answered with 0 in all four fields.
///
/// ```
/// use pilzdamo::{read_reason, Counts};
///
/// let told = read_reason(b"Refused 13: no active role permits the step at node 4, a send.");
/// assert_eq!((told.number, told.place, told.tag), (13, 4, 6));
/// assert_eq!(told.counted(), Some(Counts::Node));
///
/// // A leading zero makes it another text.
/// let told = read_reason(b"Refused 13: no active role permits the step at node 04, a send.");
/// assert_eq!((told.number, told.counts, told.place, told.tag), (0, 0, 0, 0));
/// assert!(!told.is_one());
/// ```
#[inline]
pub fn read_reason(sentence: &[u8]) -> Reason {
    raw::read_reason(sentence)
}

/// Writes what a refusal's number means to the start of `out`, and answers its length in
/// bytes: the first part of the number's sentences. For a number that no refusal has,
/// and if `out` has under [`SENTENCE`] bytes, the answer is 0 and nothing is written. See
/// [`meaning`] for the allocating version.
///
/// ```
/// let mut out = [0; pilzdamo::SENTENCE];
/// let length = usize::from(pilzdamo::phrase(3, &mut out));
/// assert_eq!(&out[..length], b"Refused 3: a count is out of range");
/// assert_eq!(pilzdamo::phrase(0, &mut out), 0);
/// ```
#[inline]
pub fn phrase(number: u16, out: &mut [u8]) -> u16 {
    raw::phrase(number, out)
}

/// The allocating version of [`phrase`]: what a number means, or `None` if no refusal
/// has it.
///
/// ```
/// let meaning = pilzdamo::meaning(12).unwrap();
/// assert_eq!(meaning, "Refused 12: the role put off is not active");
/// assert_eq!(pilzdamo::meaning(0), None);
/// ```
pub fn meaning(number: u16) -> Option<String> {
    said(|out| phrase(number, out))
}

/// What a call writes, or `None` if it writes nothing.
pub(crate) fn said(write: impl FnOnce(&mut [u8]) -> u16) -> Option<String> {
    let mut out = vec![0; SENTENCE];
    let length = usize::from(write(&mut out));
    out.truncate(length);
    // The phrases are ASCII.
    (length > 0).then(|| String::from_utf8_lossy(&out).into_owned())
}

/// Writes the start of a run into a list of threads, from which [`choose`] goes on. See
/// [`Desk::start`](crate::Desk::start) for a desk that owns its list.
///
/// `threads` must have [`RECORDS`] records and `beside` [`BESIDE`] words, of any content.
/// The first records get one thread for each session, in order: the session's user,
/// root and starting mask, and no variable bound. The first word of `beside` gets the
/// number of threads, the second 0, as no channel is made yet; the last [`TOTALS`] words
/// get how many of these threads wait on each kind. All other records and words stay.
///
/// Refusals 1 to 10, then 18 at place 0 for another number of records or words. A
/// refusal writes nothing. Accepts any input; never panics.
///
/// ```
/// # let words = [
/// #     1, 2, 2, 1, 1, 2, 4, 13, 15, 23, 24, 26, 32, 1, 2, 1, 0, 0, 0, 0, 0, 1, 0, 0, 2, 1,
/// #     1, 1, 1, 2, 2, 3, 6, 257, 1, 0, 0, 0, 5, 257, 0, 0, 0, 0u16,
/// # ];
/// # let file: Vec<u8> = words.into_iter().flat_map(u16::to_le_bytes).collect();
/// use pilzdamo::{start, Thread, BESIDE, RECORDS};
///
/// // The file of `run`'s example, and lists with other content.
/// let old = Thread { user: 9, node: 9, mask: 9, vars: [9; 8] };
/// let (mut threads, mut beside) = ([old; RECORDS], [9; BESIDE]);
/// assert!(start(&file, &mut threads, &mut beside).is_clean());
///
/// // A thread for each of the two sessions, and no made channel.
/// assert_eq!(threads[0], Thread { user: 1, node: 1, mask: 1, vars: [0; 8] });
/// assert_eq!(threads[1], Thread { user: 2, node: 3, mask: 2, vars: [0; 8] });
/// assert_eq!((threads[2], beside[..3].to_vec()), (old, vec![2, 0, 9]));
///
/// // The second waits, on kind 1.
/// assert_eq!(beside[129..132], [9, 1, 0]);
///
/// // A list that is too short.
/// let verdict = start(&file, &mut threads[1..], &mut beside);
/// assert_eq!(verdict.to_string(), "refused 18 0");
/// ```
#[inline]
pub fn start(file: &[u8], threads: &mut [Thread], beside: &mut [u16]) -> Verdict {
    raw::start(file, threads, beside)
}

/// Carries out one choice in the caller's list of threads: `thread` steps, alone if
/// `partner` is 0. From a state of a [`run`] it gives the run's next state. A
/// [`Desk`](crate::Desk) owns such a list.
///
/// `threads` must have [`RECORDS`] records, of which the first are the threads. `beside`
/// must have [`BESIDE`] words: the number of threads; the number of made channels; owner
/// and kind of up to 64 made channels; and, for each kind from 1 to [`TOTALS`], how many
/// threads stand at a receive on a channel of that kind. Records and made channels past
/// their numbers may hold anything. All totals must be right, 0 for kinds that the file
/// doesn't have. [`start`] makes such a list, and [`total`] reads a total of it.
///
/// Refusals 1 to 10, then 18 at place 0 for anything wrong with the list, then that of
/// the choice itself, at place 1. A refused choice changes nothing. After an end, the
/// record past the new last thread keeps its words. Accepts any input; never panics.
///
/// ```
/// # let words = [
/// #     1, 2, 2, 1, 1, 2, 4, 13, 15, 23, 24, 26, 32, 1, 2, 1, 0, 0, 0, 0, 0, 1, 0, 0, 2, 1,
/// #     1, 1, 1, 2, 2, 3, 6, 257, 1, 0, 0, 0, 5, 257, 0, 0, 0, 0u16,
/// # ];
/// # let file: Vec<u8> = words.into_iter().flat_map(u16::to_le_bytes).collect();
/// use pilzdamo::{choose, start, Thread, BESIDE, RECORDS};
///
/// // The file of `run`'s example, with a thread at the start of each session.
/// let (mut threads, mut beside) = ([Thread::default(); RECORDS], [0; BESIDE]);
/// assert!(start(&file, &mut threads, &mut beside).is_clean());
///
/// // Thread 1 sends to thread 2.
/// assert!(choose(&file, &mut threads, &mut beside, 1, 2).is_clean());
/// assert_eq!(threads[0].node, 2);
/// assert_eq!((threads[1].node, threads[1].vars[0]), (4, 1));
///
/// // Thread 1 ends. The other is then thread 1, and its old record stays.
/// let last = threads[1];
/// assert!(choose(&file, &mut threads, &mut beside, 1, 0).is_clean());
/// assert_eq!((beside[0], threads[0], threads[1]), (1, last, last));
///
/// // There is no thread 2 now.
/// let verdict = choose(&file, &mut threads, &mut beside, 2, 0);
/// assert_eq!(verdict.to_string(), "refused 18 1");
///
/// // User 2 has no role 1.
/// threads[0].mask = 1;
/// let verdict = choose(&file, &mut threads, &mut beside, 1, 0);
/// assert_eq!(verdict.to_string(), "refused 18 0");
///
/// // Nobody waits on kind 1 now.
/// (threads[0].mask, beside[130]) = (2, 1);
/// let verdict = choose(&file, &mut threads, &mut beside, 1, 0);
/// assert_eq!(verdict.to_string(), "refused 18 0");
/// ```
#[inline]
pub fn choose(
    file: &[u8],
    threads: &mut [Thread],
    beside: &mut [u16],
    thread: u16,
    partner: u16,
) -> Verdict {
    raw::choose(file, threads, beside, thread, partner)
}

/// Merges two version 1 files: the first file's users, channels, sessions and nodes, then
/// the second's, renumbered. Both must have the same tables of roles and kinds.
///
/// The merged file passes the [`check`] exactly if both do. If all three can be placed,
/// it has the on steps of both together.
///
/// The order of refusals: 17 for an output under [`ROOM_1`] bytes; the first file's own
/// by 1 to 10, then the second's, where another version than 1 is 2; 25 for tables that
/// differ; 3 at place 0 for over 32 users, 64 channels, 32 sessions or 1,024 nodes
/// together. The merged file is written to the start of `out`. A refusal writes nothing,
/// and nothing past the answer's length is written. Accepts any input; never panics. See
/// [`merged`] for the allocating version.
///
/// ```
/// // User 1 sends on channel 1, which is user 2's.
/// let words = [
///     1, 2, 1, 1, 1, 1, 2, 13, 15, 19, 20, 22, 25, // version, counts, offsets
///     1, 0, // users
///     1, 0, 0, 0, // roles
///     0, // kinds
///     2, 1, // channels
///     1, 0, 1, // session
///     6, 257, 2, 0, 0, 0u16, // nodes
/// ];
/// let file: Vec<u8> = words.into_iter().flat_map(u16::to_le_bytes).collect();
///
/// // Twice in one file: user 3 sends on channel 2, which is user 4's.
/// let due = [
///     1, 4, 1, 1, 2, 2, 4, 13, 17, 21, 22, 26, 32, // version, counts, offsets
///     1, 0, 1, 0, // users
///     1, 0, 0, 0, // roles
///     0, // kinds
///     2, 1, 4, 1, // channels
///     1, 0, 1, 3, 0, 3, // sessions
///     6, 257, 2, 0, 0, 0, 6, 258, 4, 0, 0, 0u16, // nodes
/// ];
/// let mut out = [0; pilzdamo::ROOM_1];
/// let written = pilzdamo::merge(&file, &file, &mut out);
/// assert_eq!(written.to_string(), "written in 88 bytes");
/// assert_eq!(out[..88], due.map(u16::to_le_bytes).concat());
///
/// // A role that may send and receive.
/// let mut other = file.clone();
/// other[34] = 1;
/// assert_eq!(pilzdamo::merge(&file, &other, &mut out).to_string(), "refused 25 0");
///
/// // With one byte of output less, 17 comes before any look at the files.
/// let written = pilzdamo::merge(&file, &[1], &mut out[1..]);
/// assert_eq!(written.to_string(), "refused 17 0");
/// ```
#[inline]
pub fn merge(first: &[u8], second: &[u8], out: &mut [u8]) -> Written {
    raw::merge(first, second, out)
}

/// The allocating version of [`merge`]: the merged file.
///
/// ```
/// let north = std::fs::read("../../examples/house/north.clinic")?;
/// let south = std::fs::read("../../examples/house/south.clinic")?;
/// let house = pilzdamo::merged(&north, &south)?;
/// assert!(pilzdamo::read(&house).is_clean());
///
/// // Too many nodes together.
/// let long = std::fs::read("../../examples/refused/16-too-long.clinic")?;
/// let refusal = pilzdamo::merged(&long, &long).unwrap_err();
/// assert_eq!(refusal.to_string(), "refused 3 0");
/// # Ok::<(), Box<dyn std::error::Error>>(())
/// ```
pub fn merged(first: &[u8], second: &[u8]) -> Result<Vec<u8>, Verdict> {
    let mut out = vec![0; ROOM_1];
    let written = merge(first, second, &mut out);
    cut(written, out)
}

/// Turns a version 2 file into version 3, which stores the nodes by column: all tags,
/// then all f1, then all f2. All else stays, and so does the length.
///
/// Every other call answers the column file as it answers the row file, and a placed
/// file keeps the form of its input. [`to_rows`] restores the file, byte by byte.
///
/// Refusals: 17 for an output under [`ROOM`] bytes, then 1 to 5, where another version
/// than 2 is 2. The records aren't checked. A refusal writes nothing, and nothing past
/// the answer's length is written. Accepts any input; never panics. See [`in_columns`]
/// for the allocating version.
///
/// ```
/// // A file with two nodes: user 1 compares herself with herself, and ends.
/// let words = [
///     2, 1, 0, 0, 0, 1, 2, 14, 15, 15, 15, 15, 15, 18, // version, counts, offsets
///     0, // user
///     1, 0, 1, // session
///     4, 1, 1, 0, 0, 0u16, // nodes
/// ];
/// let file = words.map(u16::to_le_bytes).concat();
/// let mut out = [0; pilzdamo::ROOM];
/// let written = pilzdamo::to_columns(&file, &mut out);
/// assert_eq!(written.to_string(), "written in 48 bytes");
///
/// // The version is 3, and the nodes are tags, f1, f2.
/// let mut due = words;
/// due[0] = 3;
/// due[18..].copy_from_slice(&[4, 0, 1, 0, 1, 0]);
/// assert_eq!(out[..48], due.map(u16::to_le_bytes).concat());
///
/// // Zero bytes are a file of version 1.
/// assert_eq!(pilzdamo::to_columns(&[], &mut out).to_string(), "refused 2 0");
/// ```
#[inline]
pub fn to_columns(file: &[u8], out: &mut [u8]) -> Written {
    raw::to_columns(file, out)
}

/// Turns a version 3 file into version 2, which stores the nodes by row: the inverse of
/// [`to_columns`]. Another version than 3 is refused with 2; all else is as there. See
/// [`in_rows`] for the allocating version.
///
/// ```
/// use pilzdamo::{to_columns, to_rows, ROOM};
///
/// let rows = std::fs::read("../../examples/head-nurse/juniors.clinic")?;
/// let columns = std::fs::read("../../examples/head-nurse/columns.clinic")?;
/// let mut out = [0; ROOM];
/// let length = usize::from(to_rows(&columns, &mut out).length);
/// assert_eq!(out[..length], rows);
/// let length = usize::from(to_columns(&rows, &mut out).length);
/// assert_eq!(out[..length], columns);
///
/// // A row file can't be turned to rows; and an output with one byte less.
/// assert_eq!(to_rows(&rows, &mut out).to_string(), "refused 2 0");
/// assert_eq!(to_rows(&columns, &mut out[1..]).to_string(), "refused 17 0");
/// # Ok::<(), std::io::Error>(())
/// ```
#[inline]
pub fn to_rows(file: &[u8], out: &mut [u8]) -> Written {
    raw::to_rows(file, out)
}

/// The allocating version of [`to_columns`]: the column file.
///
/// ```
/// let rows = std::fs::read("../../examples/head-nurse/juniors.clinic")?;
/// let columns = pilzdamo::in_columns(&rows)?;
/// assert_eq!(pilzdamo::measure(&columns), pilzdamo::measure(&rows));
///
/// // A file of version 1.
/// let booking = std::fs::read("../../examples/booking.clinic")?;
/// let refusal = pilzdamo::in_columns(&booking).unwrap_err();
/// assert_eq!(refusal.to_string(), "refused 2 0");
/// # Ok::<(), Box<dyn std::error::Error>>(())
/// ```
pub fn in_columns(file: &[u8]) -> Result<Vec<u8>, Verdict> {
    let mut out = vec![0; ROOM];
    let written = to_columns(file, &mut out);
    cut(written, out)
}

/// The allocating version of [`to_rows`]: the row file.
///
/// ```
/// let rows = std::fs::read("../../examples/head-nurse/juniors.clinic")?;
/// assert_eq!(pilzdamo::in_rows(&pilzdamo::in_columns(&rows)?)?, rows);
/// # Ok::<(), Box<dyn std::error::Error>>(())
/// ```
pub fn in_rows(file: &[u8]) -> Result<Vec<u8>, Verdict> {
    let mut out = vec![0; ROOM];
    let written = to_rows(file, &mut out);
    cut(written, out)
}

/// What was written, truncated to its length.
fn cut(written: Written, mut out: Vec<u8>) -> Result<Vec<u8>, Verdict> {
    written.verdict().result()?;
    out.truncate(written.length.into());
    Ok(out)
}

/// Which of two notices is in force on a day, and its file, as a slice of that notice.
///
/// A notice is a word with the first day of validity, in days since 1 January 2000, a
/// word with the file's length in bytes, and the file. Of the notices that have begun the
/// one with the later first day is in force; with equal first days, the second.
///
/// Refusals: 27 at place 1 or 2 for a notice under 4 bytes, one whose length word isn't
/// the number of bytes after it, or one whose file [`read`] refuses, the first notice
/// before the second and both before any look at the days; then 28 if neither has begun.
/// With a refusal the slice is the empty one at the first notice's start. Accepts any
/// input; never panics. See [`file_in_force`] for the file alone.
///
/// ```
/// let file = std::fs::read("../../examples/booking.clinic")?;
/// let notice = |day: u16| {
///     let length = file.len() as u16;
///     [&day.to_le_bytes()[..], &length.to_le_bytes(), &file].concat()
/// };
/// // From 1 November and from 1 December 2026 on.
/// let (november, december) = (notice(9_801), notice(9_831));
/// let (told, part) = pilzdamo::in_force(&november, &december, 9_816);
/// assert_eq!((told.number, told.notice, told.at, told.length), (0, 1, 4, 82));
/// assert!(std::ptr::eq(part, &november[4..]));
/// let (told, part) = pilzdamo::in_force(&november, &december, 9_831);
/// assert_eq!(told.notice, 2);
/// assert!(std::ptr::eq(part, &december[4..]));
///
/// // In October there was none.
/// let (told, part) = pilzdamo::in_force(&november, &december, 9_800);
/// assert_eq!(told.to_string(), "refused 28 0");
/// assert!(std::ptr::eq(part, &november[..0]));
/// # Ok::<(), std::io::Error>(())
/// ```
#[inline]
pub fn in_force<'a>(first: &'a [u8], second: &'a [u8], day: u16) -> (InForce, &'a [u8]) {
    let told = raw::in_force(first, second, day);
    let notice = if told.notice == 2 { second } else { first };
    let at = usize::from(told.at);
    (told, &notice[at..at + usize::from(told.length)])
}

/// The file in force, as in [`in_force`], or the refusal.
///
/// ```
/// // Nothing is planned from day 7 on; then the second notice lacks a byte.
/// let sound = [7, 0, 0, 0];
/// assert_eq!(pilzdamo::file_in_force(&sound, &sound, 7), Ok(&[][..]));
/// let refusal = pilzdamo::file_in_force(&sound, &sound[..3], 7).unwrap_err();
/// assert_eq!(refusal.to_string(), "refused 27 2");
/// ```
pub fn file_in_force<'a>(first: &'a [u8], second: &'a [u8], day: u16) -> Result<&'a [u8], Verdict> {
    let (told, part) = in_force(first, second, day);
    told.verdict().result()?;
    Ok(part)
}

/// The figures of many files in a row, each after a word with its length in bytes: the
/// sums of what [`place`] answers for each of them.
///
/// The sheet ends after [`SHEET_FILES`] files, or at the first record that isn't whole,
/// which is not counted. The order of the files doesn't matter. [`records`] makes such an
/// input. Accepts any input; never panics.
///
/// ```
/// let read = |name: &str| std::fs::read(format!("../../examples/{name}.clinic"));
/// let files = [read("booking")?, read("desks")?, read("refused/09-name")?];
/// let input = pilzdamo::records(&files).unwrap();
/// let sheet = pilzdamo::sheet(&input);
/// assert_eq!((sheet.files, sheet.refused_at(9)), (3, 1));
/// assert_eq!((sheet.sessions, sheet.on_steps, sheet.most), (4, 4, 1));
/// assert_eq!((sheet.quotient, sheet.remainder), (1_000, 0));
///
/// // Without its last byte the sheet ends before the third file.
/// assert_eq!(pilzdamo::sheet(&input[..input.len() - 1]).files, 2);
/// # Ok::<(), std::io::Error>(())
/// ```
#[inline]
pub fn sheet(input: &[u8]) -> Sheet {
    raw::sheet(input)
}

/// Files in a row, each after a word with its length in bytes. `None` if a file has over
/// 65,535 bytes, which a word can't hold.
///
/// ```
/// assert_eq!(pilzdamo::records([&[7, 8][..], &[]]), Some(vec![2, 0, 7, 8, 0, 0]));
/// assert_eq!(pilzdamo::records([vec![0; 65_536]]), None);
/// ```
pub fn records<F: AsRef<[u8]>>(files: impl IntoIterator<Item = F>) -> Option<Vec<u8>> {
    let mut input = Vec::new();
    for file in files {
        let file = file.as_ref();
        input.extend(u16::try_from(file.len()).ok()?.to_le_bytes());
        input.extend(file);
    }
    Some(input)
}
