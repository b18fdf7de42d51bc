//! A second implementation of the engine, in plain Rust.
//!
//! It is written from the paper and the requests alone and shares nothing with the
//! engine, so that the two can be compared. "1 to 8" and "1 to 10" include 21. The timed
//! functions, [`read`], [`read_names`], [`check`], [`check_at`], [`place`], [`place_at`],
//! [`measure`], [`measure_at`], [`run`], [`round`], [`ready`], [`totals`], [`run_seated`],
//! [`round_seated`], [`seats`], [`closing`], [`closing_part`], [`offers`], [`start`],
//! [`choose`], [`merge`], [`to_columns`], [`to_rows`], [`in_force`] and [`sheet`], go over
//! the file a few times, in place, and allocate nothing; nor do [`reason`], [`read_reason`]
//! and [`phrase`].

#![forbid(unsafe_code)]

mod answers;
pub mod cases;
mod cause;
mod certificate;
pub mod draft;
mod file;
mod hours;
mod merging;
mod names;
mod nodes;
mod notices;
mod placing;
mod reasons;
mod roles;
mod running;
mod schema;
mod sheets;
mod tree;
mod turning;

pub use answers::NUMBERS;
pub use answers::{
    Closing, InForce, Offers, Placed, Ready, Reason, Round, Seats, Sheet, Totals, Verdict, Written,
};
pub use cause::{is_of_file, is_of_reading, Cause, Refusal};
pub use certificate::Certificate;
pub use file::{Section, Version};
pub use merging::MERGED_ROOM;
pub use placing::{room_for, ROOM};
pub use reasons::{Unsaid, SENTENCE};
pub use running::{Answer, Halt, Run, SeatedRun, Thread, Unfit};
pub use running::{BEFORE_ROUND, BEFORE_TOTALS, BESIDE, MOST_CHOICES, RECORDS};
pub use running::{LINE_WORDS, ROLES, ROUND_WORDS, RUN_ROOM, TOTALS};
pub use sheets::{whole_files, MOST_FILES};
pub use turning::TURNED_ROOM;

use file::File;
use hours::{Hours, ALWAYS};
use notices::Notice;
use placing::Plan;
use roles::Grants;
use running::{Choices, Lent, Scopes, State};
use std::ops::Range;

/// Refusals 1 to 8.
pub fn read(file: &[u8]) -> Verdict {
    Verdict::of(judge_reading(file))
}

/// Refusals 1 to 10.
pub fn read_names(file: &[u8]) -> Verdict {
    Verdict::of(judge_reading(file).and_then(|file| names::judge(&file)))
}

/// Refusals 1 to 13.
pub fn check(file: &[u8]) -> Verdict {
    Verdict::of(judge_check(file))
}

/// Refusal 22, 1 to 8, 23, 9 to 13, and 24 among 11 to 13, for a table of hours,
/// three words a row, and a minute of the week.
pub fn check_at(file: &[u8], hours: &[u16], minute: u16) -> Verdict {
    Verdict::of(judge_check_at(file, hours, minute))
}

/// Refusal 17, 1 to 10 and 14 to 16; without one, the placed file is written
/// at the start of `out`.
pub fn place(file: &[u8], out: &mut [u8]) -> Placed {
    let mut plan = Plan::new();
    let judged = placing::judge_room(file, out.len());
    let judged = judged.and_then(|()| judge_measuring(file, &mut plan));
    answered(judged, |file| plan.write(file, out))
}

/// Refusal 17, 22, 1 to 8, 23, 9 and 10, and 14 to 16 with the roles that are open
/// at this minute of the week by a table of hours; without one, the placed file is
/// written at the start of `out`.
pub fn place_at(file: &[u8], hours: &[u16], minute: u16, out: &mut [u8]) -> Placed {
    let mut plan = Plan::new();
    let judged = placing::judge_room(file, out.len());
    let judged = judged.and_then(|()| judge_measuring_at(file, hours, minute, &mut plan));
    answered(judged, |file| plan.write(file, out))
}

/// What [`place`] answers in an output that is long enough.
pub fn measure(file: &[u8]) -> Placed {
    let mut plan = Plan::new();
    let judged = judge_measuring(file, &mut plan);
    answered(judged, |file| plan.measure(file))
}

/// What [`place_at`] answers in an output that is long enough.
pub fn measure_at(file: &[u8], hours: &[u16], minute: u16) -> Placed {
    let mut plan = Plan::new();
    let judged = judge_measuring_at(file, hours, minute, &mut plan);
    answered(judged, |file| plan.measure(file))
}

/// The refusal, or what is answered where the file can be placed.
fn answered(judged: Result<File<'_>, Refusal>, place: impl FnOnce(&File<'_>) -> Placed) -> Placed {
    match judged {
        Ok(file) => place(&file),
        Err(refusal) => {
            let Verdict { number, place } = refusal.verdict();
            Placed::refused(number, place)
        }
    }
}

/// Refusal 17, 1 to 10, and then the choices, each a thread and its partner,
/// up to the first that is refused. The state after the last one done is
/// written at the start of `out`, unless the refusal comes before the choices.
pub fn run(file: &[u8], choices: &[u16], out: &mut [u8]) -> Verdict {
    let judged = running::judge_room(out.len());
    let mut run = match judged.and_then(|()| judge_running(file, choices, MOST_CHOICES)) {
        Ok(run) => run,
        Err(refusal) => return refusal.verdict(),
    };
    let verdict = Verdict::of(run.go_through(choices));
    let done = match verdict {
        Verdict::CLEAN => (choices.len() / 2) as u16,
        halted => halted.place - 1,
    };
    run.write(done, verdict.number, out);
    verdict
}

/// A [`run`] whose list may have [`BEFORE_ROUND`] choices, and then a round: the
/// threads of its start are visited in order. One that is visited does its lone
/// step if that isn't refused; a sender meets the first receiver of the round's
/// start that has not moved in this round and that it can meet. The state after
/// that is written, with the choices of both counted. A list that stops has no
/// round.
pub fn round(file: &[u8], choices: &[u16], out: &mut [u8]) -> Round {
    let judged = running::judge_room(out.len());
    let mut run = match judged.and_then(|()| judge_running(file, choices, BEFORE_ROUND)) {
        Ok(run) => run,
        Err(refusal) => {
            let Verdict { number, place } = refusal.verdict();
            return Round::refused(number, place, 0);
        }
    };
    if let Err(refusal) = run.go_through(choices) {
        let Verdict { number, place } = refusal.verdict();
        let length = run.write(place - 1, number, out);
        return Round::refused(number, place, length);
    }
    let Choices { words, count } = run.go_round();
    let done = choices.len() / 2 + count;
    let length = run.write(done as u16, 0, out);
    Round::done(length, words)
}

/// The ready pair of the state after the choices. It has no output, so that
/// 17 is for the list alone.
pub fn ready(file: &[u8], choices: &[u16]) -> Ready {
    match judge_choices(file, choices, MOST_CHOICES) {
        Ok(run) => {
            let (sender, receiver) = run.ready();
            Ready::pair(sender, receiver)
        }
        Err(refusal) => {
            let Verdict { number, place } = refusal.verdict();
            Ready::refused(number, place)
        }
    }
}

/// How many threads wait on each kind, in the state in which the run stands after
/// the choices, or where they stop. It has no output, so that 17 is for the list
/// alone.
pub fn totals(file: &[u8], choices: &[u16]) -> Totals {
    let mut run = match judge_running(file, choices, MOST_CHOICES) {
        Ok(run) => run,
        Err(refusal) => return Totals::of(refusal.verdict(), [0; TOTALS]),
    };
    let verdict = Verdict::of(run.go_through(choices));
    Totals::of(verdict, *run.totals())
}

/// A [`run`] with a table of seats, one word a role: 0 for no limit, else 1 to 32. An on
/// of a role by a session that has no thread with it active gets a seat exactly where
/// one is free and there is no line or the session is its head, which then leaves it.
/// An on that gets none is answered 26: its session joins the role's line at the end,
/// once, nothing else changes, and the choice counts as done. Another number of words
/// than roles, or a word above 32, is 17, after 1 to 10; then comes 26 for the
/// lowest session whose starting mask overfills a role.
pub fn run_seated(file: &[u8], choices: &[u16], seats: &[u16], out: &mut [u8]) -> Written {
    let judged = running::judge_room(out.len());
    let judged = judged.and_then(|()| judge_seated(file, choices, seats, MOST_CHOICES));
    let mut run = match judged {
        Ok(run) => run,
        Err(refusal) => {
            let Verdict { number, place } = refusal.verdict();
            return Written::refused(number, place);
        }
    };
    let Verdict { number, place } = Verdict::of(run.go_through(choices));
    let done = match number {
        0 => (choices.len() / 2) as u16,
        _ => place - 1,
    };
    Written {
        number,
        place,
        length: run.write(done, number, out),
    }
}

/// A [`round`] with a table of seats, as in [`run_seated`]. A visit that gets no seat
/// is in the round's list.
pub fn round_seated(file: &[u8], choices: &[u16], seats: &[u16], out: &mut [u8]) -> Round {
    let judged = running::judge_room(out.len());
    let judged = judged.and_then(|()| judge_seated(file, choices, seats, BEFORE_ROUND));
    let mut run = match judged {
        Ok(run) => run,
        Err(refusal) => {
            let Verdict { number, place } = refusal.verdict();
            return Round::refused(number, place, 0);
        }
    };
    if let Err(refusal) = run.go_through(choices) {
        let Verdict { number, place } = refusal.verdict();
        let length = run.write(place - 1, number, out);
        return Round::refused(number, place, length);
    }
    let Choices { words, count } = run.go_round();
    let done = choices.len() / 2 + count;
    let length = run.write(done as u16, 0, out);
    Round::done(length, words)
}

/// What is read of the seats, in the state in which [`run_seated`] stands after the
/// choices, or where they stop. It has no output, so that 17 is for the list and the
/// table alone.
pub fn seats(file: &[u8], choices: &[u16], seats: &[u16]) -> Seats {
    match judge_seated(file, choices, seats, MOST_CHOICES) {
        Ok(mut run) => {
            let verdict = Verdict::of(run.go_through(choices));
            run.read(verdict)
        }
        Err(refusal) => {
            let Verdict { number, place } = refusal.verdict();
            Seats::refused(number, place)
        }
    }
}

/// Whether a certificate holds: whether its rows are the states that [`run_seated`] comes
/// to by any list of choices, all of them and no others. Row k, from 0 on, begins at word
/// `places[k]` of `states`, and has the run's output from its third word on, the session of
/// each thread, and for each word of the table of seats how many wait for that role and who.
/// `next` has the number of the row that follows for each choice that isn't refused: rows in
/// order, then threads, then partners. A row has the number with which this order comes to
/// it first.
///
/// 17 without a row or for 2^32 - 1 or more, 1 to 10, 17 for the table, 26 at a session, and
/// then 18 at a row, from 1 on: the first, if it isn't the start; else the lowest of which a
/// choice has no word in `next`, or one that is above the rows come to so far, or of no row,
/// or of a row with other words; else the first that isn't come to.
pub fn closing(
    file: &[u8],
    seats: &[u16],
    states: &[u16],
    places: &[u32],
    next: &[u32],
) -> Closing {
    if places.is_empty() || places.len() >= u32::MAX as usize {
        return Closing::refused(17, 0);
    }
    match begin_seated(file, seats) {
        Ok(start) => match certificate::row_at_fault(start, states, places, next) {
            Some(row) => Closing::at(row as u32 + 1),
            None => Closing::CLEAN,
        },
        Err(refusal) => {
            let Verdict { number, place } = refusal.verdict();
            Closing::refused(number, place)
        }
    }
}

/// What [`closing`] says of a part of a certificate: of some of its rows, from 0 on, whose
/// choices that aren't refused have these numbers in `next`. The rows before aren't looked
/// at. Known at first are row 0 and, of the rows that the numbers before these name, the one
/// with the highest number and all below it.
///
/// 17 as in [`closing`], and without a row in the part, or for a row or a number past the
/// last, or numbers that end before they begin. Then 1 to 10, 17 for the table, 26 at a
/// session, and 18 at the lowest row at fault, from 1 on: row 1, if it is in the part and
/// isn't the start; one that isn't known, or isn't in order, or of which a choice is at fault
/// as in [`closing`]; and the last of the part, if its numbers don't end where they should.
///
/// A row is in order if it has all its words, with at most 64 threads and made channels and
/// 32 sessions in a line; each thread's session is one of the file's; no role with a limit
/// has more sessions than seats; and a line has sessions of the file that aren't in the role,
/// none twice, and none at all for a role without limit.
pub fn closing_part(
    file: &[u8],
    seats: &[u16],
    states: &[u16],
    places: &[u32],
    next: &[u32],
    rows: Range<usize>,
    numbers: Range<usize>,
) -> Closing {
    let some = !places.is_empty() && places.len() < u32::MAX as usize;
    let of_rows = rows.start < rows.end && rows.end <= places.len();
    let of_next = numbers.start <= numbers.end && numbers.end <= next.len();
    if !(some && of_rows && of_next) {
        return Closing::refused(17, 0);
    }
    match begin_seated(file, seats) {
        Ok(start) => {
            let row = certificate::row_at_fault_in(start, states, places, next, rows, numbers);
            row.map_or(Closing::CLEAN, |row| Closing::at(row as u32 + 1))
        }
        Err(refusal) => {
            let Verdict { number, place } = refusal.verdict();
            Closing::refused(number, place)
        }
    }
}

/// All choices of a state that aren't refused, the state being lent as the words of a row.
/// They are written one behind the other, threads in order, then partners: thread, partner,
/// what the choice is answered (26 or 0), how many words the next state has, and these words,
/// which are a row too.
///
/// 1 to 10, 17 for the table and 26 at a session, as in [`run_seated`]; 18 at place 0 where
/// these aren't all the words of a row that is in order, as in [`closing_part`], or where
/// they have another number of roles in a thread than it has; and 17 where an offer has no
/// room: those before it are written then. Otherwise a refusal writes nothing.
pub fn offers(file: &[u8], seats: &[u16], state: &[u16], out: &mut [u16]) -> Offers {
    match begin_seated(file, seats) {
        Ok(mut run) => {
            if !run.stand_exactly(state) {
                return Offers::refused(18, 0);
            }
            certificate::offer(&run, out)
        }
        Err(refusal) => {
            let Verdict { number, place } = refusal.verdict();
            Offers::refused(number, place)
        }
    }
}

/// The certificate of all states that a run with seats comes to, if nothing is refused
/// before the first choice and there are at most so many states.
pub fn search(file: &[u8], seats: &[u16], limit: usize) -> Option<Certificate> {
    certificate::search(begin_seated(file, seats).ok()?, limit)
}

/// The total of a kind from the words beside a list of threads: 0 for a kind outside
/// 1 to 32, and for another number of words than [`BESIDE`].
pub fn total(beside: &[u16], kind: u16) -> u16 {
    match (beside.len(), kind) {
        (BESIDE, 1..=32) => beside[BEFORE_TOTALS + usize::from(kind) - 1],
        _ => 0,
    }
}

/// Refusals 1 to 10, and 18 at place 0 for another number of records than
/// [`RECORDS`] or of words beside them than [`BESIDE`]. Without one, a thread for
/// each session is written into the first records, in order, the number of these
/// into the first word, 0 into the second, and the totals of these threads into the
/// last [`TOTALS`]. All else stays as it was.
pub fn start(file: &[u8], threads: &mut [Thread], beside: &mut [u16]) -> Verdict {
    Verdict::of(judge_starting(file, threads, beside))
}

/// Refusals 1 to 10, 18 at place 0 for what is lent, and then the choice at
/// place 1, which is carried out in what is lent: [`RECORDS`] records of
/// threads, and [`BESIDE`] words beside them, namely how many threads there are,
/// how many made channels, the owner and kind of each made channel, and how many
/// threads wait on each kind.
pub fn choose(
    file: &[u8],
    threads: &mut [Thread],
    beside: &mut [u16],
    thread: u16,
    partner: u16,
) -> Verdict {
    Verdict::of(judge_choosing(file, threads, beside, [thread, partner]))
}

/// A refusal as a sentence in `out`, and its length: what `number` means, what its
/// place counts (0 nothing, 1 words, 2 sessions, 3 nodes, 4 choices, 5 rows, 6
/// notices), the place, and, for 9 to 15 at a node, that node's tag; `tag` is 9 in all
/// others. What is against this, or an output under [`SENTENCE`] bytes, gives 0.
pub fn reason(number: u16, counts: u16, place: u16, tag: u16, out: &mut [u8]) -> u16 {
    let reason = Reason {
        number,
        counts,
        place,
        tag,
    };
    reasons::write(reason, out)
}

/// The reason that a sentence says, all 0 for other bytes.
pub fn read_reason(sentence: &[u8]) -> Reason {
    reasons::read(sentence)
}

/// What a number means, in `out`, and its length; 0 for a number that no refusal has,
/// or an output under [`SENTENCE`] bytes.
pub fn phrase(number: u16, out: &mut [u8]) -> u16 {
    reasons::write_phrase(number, out)
}

/// Why [`reason`] gives 0 where the output has this many bytes, if it does.
pub fn cause_in_reason(reason: Reason, room: usize) -> Option<Unsaid> {
    reasons::unsaid(reason, room)
}

/// Refusal 17, the first file's own of 1 to 10, the second's, 25, and 3 for a sum that
/// is too large; without one, the first file's users, channels, sessions and nodes,
/// and then the second's, are written as one file at the start of `out`. Another
/// version than 1 is 2.
pub fn merge(first: &[u8], second: &[u8], out: &mut [u8]) -> Written {
    match judge_merging(first, second, out.len()) {
        Ok((first, second)) => Written::bytes(merging::write(&first, &second, out)),
        Err(refusal) => {
            let Verdict { number, place } = refusal.verdict();
            Written::refused(number, place)
        }
    }
}

/// Refusal 17, and 1 to 5, another version than 2 being 2; without one, the file is
/// written in version 3, with its nodes by column, at the start of `out`.
pub fn to_columns(file: &[u8], out: &mut [u8]) -> Written {
    turn([Version::Two, Version::Three], file, out)
}

/// Refusal 17, and 1 to 5, another version than 3 being 2; without one, the file is
/// written in version 2, with its nodes by row, at the start of `out`.
pub fn to_rows(file: &[u8], out: &mut [u8]) -> Written {
    turn([Version::Three, Version::Two], file, out)
}

fn turn([from, to]: [Version; 2], file: &[u8], out: &mut [u8]) -> Written {
    match turning::judge(file, from, out.len()) {
        Ok(file) => Written::bytes(turning::write(&file, to, out)),
        Err(refusal) => {
            let Verdict { number, place } = refusal.verdict();
            Written::refused(number, place)
        }
    }
}

/// Of two notices the one that is in force on a day, in days since 1 January 2000: 27
/// for an unsound one, the first before the second, and then 28 where neither has
/// begun. A notice is its first day, its file's length in bytes, and the file.
pub fn in_force(first: &[u8], second: &[u8], day: u16) -> InForce {
    match judge_notices(first, second, day) {
        Ok(found) => notices::answer(found),
        Err(refusal) => {
            let Verdict { number, place } = refusal.verdict();
            InForce::refused(number, place)
        }
    }
}

/// The sheet of the files in an input, each after a word with its length in bytes. It
/// ends after [`MOST_FILES`] of them, or at the first that isn't whole.
pub fn sheet(input: &[u8]) -> Sheet {
    let (mut sheet, mut plan) = (Sheet::default(), Plan::new());
    for file in whole_files(input) {
        let judged = judge_measuring(file, &mut plan);
        sheet.add(judged.map(|file| plan.share(&file)));
    }
    sheet.divide();
    sheet
}

/// A run that has yet to make its first choice, if 1 to 10 leave the file clean.
pub fn begin(file: &[u8]) -> Result<Run<'_>, Refusal> {
    judge_running(file, &[], MOST_CHOICES)
}

/// A run with a table of seats that has yet to make its first choice, if nothing is
/// refused before that.
pub fn begin_seated<'a>(file: &'a [u8], seats: &[u16]) -> Result<SeatedRun<'a>, Refusal> {
    judge_seated(file, &[], seats, MOST_CHOICES)
}

/// The run that goes on from what is lent, if 1 to 10 leave the file clean and
/// nothing lent is refused.
pub fn resume<'a>(file: &'a [u8], threads: &[Thread], beside: &[u16]) -> Result<Run<'a>, Refusal> {
    let (mut threads, mut beside) = (threads.to_vec(), beside.to_vec());
    let (file, lent) = judge_lent(file, &mut threads, &mut beside)?;
    Ok(Run::resume(file, lent))
}

/// Why [`run`] refuses or halts where the output has this many bytes, if it
/// does.
pub fn cause_in_run(file: &[u8], choices: &[u16], room: usize) -> Option<Refusal> {
    cause_before(file, choices, room, MOST_CHOICES)
}

/// Why [`round`] refuses or halts where the output has this many bytes, if it
/// does.
pub fn cause_in_round(file: &[u8], choices: &[u16], room: usize) -> Option<Refusal> {
    cause_before(file, choices, room, BEFORE_ROUND)
}

/// Why a list that may have `most` choices is refused or halts, if it is or does.
fn cause_before(file: &[u8], choices: &[u16], room: usize, most: usize) -> Option<Refusal> {
    let judged = running::judge_room(room);
    let judged = judged.and_then(|()| judge_choices(file, choices, most));
    judged.err()
}

/// Why [`run_seated`] refuses or halts where the output has this many bytes, if it
/// does.
pub fn cause_in_seated_run(
    file: &[u8],
    choices: &[u16],
    seats: &[u16],
    room: usize,
) -> Option<Refusal> {
    let judged = running::judge_room(room);
    let judged = judged.and_then(|()| judge_seated(file, choices, seats, MOST_CHOICES));
    judged.and_then(|mut run| run.go_through(choices)).err()
}

/// Why [`start`] refuses the file or what is lent, if it does.
pub fn cause_in_starting(file: &[u8], threads: &[Thread], beside: &[u16]) -> Option<Refusal> {
    let (mut threads, mut beside) = (threads.to_vec(), beside.to_vec());
    judge_starting(file, &mut threads, &mut beside).err()
}

/// Why [`choose`] refuses the choice, if it does.
pub fn cause_in_choosing(
    file: &[u8],
    threads: &[Thread],
    beside: &[u16],
    thread: u16,
    partner: u16,
) -> Option<Refusal> {
    let (mut threads, mut beside) = (threads.to_vec(), beside.to_vec());
    judge_choosing(file, &mut threads, &mut beside, [thread, partner]).err()
}

/// Why [`place`] refuses the file where the output has this many bytes, if it
/// does.
pub fn cause_in_placing(file: &[u8], room: usize) -> Option<Refusal> {
    let judged = placing::judge_room(file, room);
    judged
        .and_then(|()| judge_measuring(file, &mut Plan::new()))
        .err()
}

/// Why [`merge`] refuses two files where the output has this many bytes, if it does.
pub fn cause_in_merging(first: &[u8], second: &[u8], room: usize) -> Option<Refusal> {
    judge_merging(first, second, room).err()
}

/// Why [`merge`] refuses a file whatever the other is, if it does.
pub fn cause_to_be_merged(file: &[u8]) -> Option<Refusal> {
    judge_to_be_merged(file).err()
}

/// Why a file isn't turned, by [`to_columns`] from version 2 or by [`to_rows`] from 3,
/// where the output has this many bytes, if it isn't.
pub fn cause_in_turning(from: Version, file: &[u8], room: usize) -> Option<Refusal> {
    turning::judge(file, from, room).err()
}

/// Why [`in_force`] refuses, if it does.
pub fn cause_in_notices(first: &[u8], second: &[u8], day: u16) -> Option<Refusal> {
    judge_notices(first, second, day).err()
}

/// Why a notice is unsound whatever the other is, if it is.
pub fn cause_in_notice(notice: &[u8]) -> Option<Cause> {
    Notice::of(notice, cause_in_file).err()
}

/// Why [`check_at`] refuses, if it does.
pub fn cause_at(file: &[u8], hours: &[u16], minute: u16) -> Option<Refusal> {
    judge_check_at(file, hours, minute).err()
}

/// Why [`place_at`] refuses where the output has this many bytes, if it does.
pub fn cause_in_placing_at(
    file: &[u8],
    hours: &[u16],
    minute: u16,
    room: usize,
) -> Option<Refusal> {
    let judged = placing::judge_room(file, room);
    let judged = judged.and_then(|()| judge_measuring_at(file, hours, minute, &mut Plan::new()));
    judged.err()
}

/// Why [`check`] refuses the file, if it does. As 1 to 8 come first, this is
/// also why [`read`] refuses it.
pub fn cause(file: &[u8]) -> Option<Refusal> {
    judge_check(file).err()
}

fn judge_reading(file: &[u8]) -> Result<File<'_>, Refusal> {
    let file = File::open(file)?;
    schema::judge(&file)?;
    tree::judge(&file)?;
    Ok(file)
}

fn judge_check(file: &[u8]) -> Result<(), Refusal> {
    names::judge_with_roles(&judge_reading(file)?, ALWAYS)
}

fn judge_check_at(file: &[u8], hours: &[u16], minute: u16) -> Result<(), Refusal> {
    let hours = Hours::of(hours, minute)?;
    let file = judge_reading(file)?;
    names::judge_with_roles(&file, hours.open(&file)?)
}

fn judge_measuring<'a>(file: &'a [u8], plan: &mut Plan) -> Result<File<'a>, Refusal> {
    let file = judge_reading(file)?;
    plan.draw_up(&file, ALWAYS)?;
    Ok(file)
}

fn judge_measuring_at<'a>(
    file: &'a [u8],
    hours: &[u16],
    minute: u16,
    plan: &mut Plan,
) -> Result<File<'a>, Refusal> {
    let hours = Hours::of(hours, minute)?;
    let file = judge_reading(file)?;
    plan.draw_up(&file, hours.open(&file)?)?;
    Ok(file)
}

fn judge_running<'a>(file: &'a [u8], choices: &[u16], most: usize) -> Result<Run<'a>, Refusal> {
    running::judge_list(choices.len(), most)?;
    let file = judge_reading(file)?;
    names::judge(&file)?;
    Ok(Run::start(file))
}

fn judge_seated<'a>(
    file: &'a [u8],
    choices: &[u16],
    seats: &[u16],
    most: usize,
) -> Result<SeatedRun<'a>, Refusal> {
    running::judge_list(choices.len(), most)?;
    let file = judge_reading(file)?;
    names::judge(&file)?;
    running::judge_table(&file, seats)?;
    SeatedRun::start(file, seats)
}

fn judge_choices<'a>(file: &'a [u8], choices: &[u16], most: usize) -> Result<Run<'a>, Refusal> {
    let mut run = judge_running(file, choices, most)?;
    run.go_through(choices)?;
    Ok(run)
}

fn judge_starting(file: &[u8], threads: &mut [Thread], beside: &mut [u16]) -> Result<(), Refusal> {
    let file = judge_reading(file)?;
    names::judge(&file)?;
    Lent::sized(threads, beside)?.start(&file);
    Ok(())
}

/// Looks at the lists before judging the names of the file's nodes, so that one pass
/// over these is enough, but refuses them only after it.
fn judge_lent<'a, 'l>(
    file: &'a [u8],
    threads: &'l mut [Thread],
    beside: &'l mut [u16],
) -> Result<(File<'a>, Lent<'l>), Refusal> {
    let file = judge_reading(file)?;
    let lent = Lent::of(threads, beside);
    let counted = lent.as_ref().map_or(&[][..], Lent::counted);
    let mut scopes = Scopes::of(counted);
    names::each_node(&file, |context, node| scopes.note(node, context))?;
    let lent = lent?;
    lent.judge(&file, &scopes)?;
    Ok((file, lent))
}

fn judge_choosing(
    file: &[u8],
    threads: &mut [Thread],
    beside: &mut [u16],
    [thread, partner]: [u16; 2],
) -> Result<(), Refusal> {
    let (file, lent) = judge_lent(file, threads, beside)?;
    let mut state = State {
        file: &file,
        rights: &Grants::of(&file),
        threads: lent.threads,
        beside: lent.beside,
    };
    state.choose(thread, partner).map_err(|halt| Refusal {
        cause: Cause::Choice(halt),
        place: 1,
    })
}

fn judge_to_be_merged(file: &[u8]) -> Result<File<'_>, Refusal> {
    File::open_only(file, Version::One)?;
    let file = judge_reading(file)?;
    names::judge(&file)?;
    Ok(file)
}

fn judge_merging<'a>(
    first: &'a [u8],
    second: &'a [u8],
    room: usize,
) -> Result<(File<'a>, File<'a>), Refusal> {
    merging::judge_room(room)?;
    let first = judge_to_be_merged(first)?;
    let second = judge_to_be_merged(second)?;
    merging::judge(&first, &second)?;
    Ok((first, second))
}

/// Why 1 to 10 refuse a file, if they do.
fn cause_in_file(file: &[u8]) -> Option<Refusal> {
    let judged = judge_reading(file).and_then(|file| names::judge(&file));
    judged.err()
}

fn judge_notices<'a>(
    first: &'a [u8],
    second: &'a [u8],
    day: u16,
) -> Result<(u16, Notice<'a>), Refusal> {
    let sound = |place, notice| {
        let judged = Notice::of(notice, cause_in_file);
        judged.map_err(|cause| Refusal { cause, place })
    };
    let both = [sound(1, first)?, sound(2, second)?];
    notices::superseding(both, day)
}

#[cfg(test)]
mod tests;
