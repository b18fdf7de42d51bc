//! Safe calls to Pilzdamo, the proved engine for hospital-bed routines.
//!
//! A clinic's file lists its users and their roles, the kinds of channels that each
//! role may send and receive on, and the steps of each session. The engine checks such
//! a file, places roles into it, and runs it. Every call accepts any input and never
//! panics. It answers, or refuses with a number and a place.
//!
//! "Refusals 1 to 10" includes 21, which comes after 6 and before 7. docs/API.md of the
//! project tells how to build a desk on this crate; docs/SPECIFICATION.md says what each
//! call must answer.
//!
//! | to | call |
//! |---|---|
//! | check a file's form, names and kinds: refusals 1 to 10 | [`read`] |
//! | check the roles as well: 1 to 13 | [`check`] |
//! | place the roles of a file that has none | [`place`], [`placed`] |
//! | know the length and on steps that placing would give | [`measure`] |
//! | do these for a minute of the week, with opening hours | [`check_at`], [`place_at`], [`placed_at`], [`measure_at`] |
//! | run a list of choices | [`run`], and [`State`] to read its output |
//! | find two threads that can meet | [`ready`] |
//! | let a dispatcher choose, round by round | [`round`] |
//! | count the threads that wait on each kind | [`totals`]; [`Desk::total`], and [`total`] for a list of your own |
//! | limit the seats of a role, and queue who waits | [`run_seated`], [`round_seated`], [`seats`] |
//! | search all lists of choices, state by state | [`start_row`], [`offers`] |
//! | judge a certificate for all lists of choices, whole or in parts | [`closed`], [`closed_part`] |
//! | turn a refusal into a sentence, and back | [`reason`], [`Reason::sentence`], [`read_reason`]; [`phrase`], [`meaning`] for a number alone |
//! | run choice by choice, and list what can be done next | [`Desk`]; [`start`] and [`choose`] for a list of your own |
//! | merge two files | [`merge`], [`merged`] |
//! | store the nodes by column, or by row again | [`to_columns`], [`in_columns`], [`to_rows`], [`in_rows`] |
//! | find the plan in force on a day | [`in_force`], [`file_in_force`] |
//! | sum up the figures of many files | [`sheet`], [`records`] |
//!
//! The examples below read files of the project's folder `examples`. They run as tests.
//!
//! # Read and check a file
//!
//! ```
//! let file = std::fs::read("../../examples/booking.clinic")?;
//!
//! // Its form, its names and its kinds are right.
//! assert!(pilzdamo::read(&file).is_clean());
//!
//! // It doesn't pass the check: node 1 sends, and no role is on there.
//! let verdict = pilzdamo::check(&file);
//! assert_eq!((verdict.number, verdict.place), (13, 1));
//! assert_eq!(verdict.to_string(), "refused 13 1");
//! # Ok::<(), std::io::Error>(())
//! ```
//!
//! # Place its roles
//!
//! Placing adds the on and off nodes that a file needs to pass the check: one role at a
//! time, with the fewest on nodes that this allows.
//!
//! ```
//! let file = std::fs::read("../../examples/booking.clinic")?;
//! let (placed, on_steps) = pilzdamo::placed(&file)?;
//! assert_eq!((placed.len(), on_steps), (94, 1));
//! assert!(pilzdamo::check(&placed).is_clean());
//! # Ok::<(), Box<dyn std::error::Error>>(())
//! ```
//!
//! # A clinic with nothing planned
//!
//! A new clinic sends zero bytes before its first plan. Every call reads them as the
//! version 1 file with all counts 0. It refuses 1 to 25 bytes.
//!
//! ```
//! assert!(pilzdamo::check(&[]).is_clean());
//! let (placed, on_steps) = pilzdamo::placed(&[])?;
//! let words: [u16; 13] = [1, 0, 0, 0, 0, 0, 0, 13, 13, 13, 13, 13, 13];
//! assert_eq!((placed, on_steps), (words.map(u16::to_le_bytes).concat(), 0));
//!
//! // It runs, with no threads.
//! assert!(pilzdamo::Desk::start(&[])?.threads().is_empty());
//! # Ok::<(), Box<dyn std::error::Error>>(())
//! ```
//!
//! # Senior roles
//!
//! In version 2 of the format a role has a word of juniors: lower roles whose grants it
//! has beside its own. A head nurse may do what a nurse may. Nobody can switch on a
//! junior role by this.
//!
//! ```
//! // The nurse's grants were copied into the head nurse's record, and one forgotten.
//! let file = std::fs::read("../../examples/head-nurse/copied.clinic")?;
//! let refusal = pilzdamo::placed(&file).unwrap_err();
//! assert_eq!(refusal.to_string(), "refused 15 2");
//!
//! // With the nurse's role as a junior, the head nurse has all of them.
//! let file = std::fs::read("../../examples/head-nurse/juniors.clinic")?;
//! let (placed, on_steps) = pilzdamo::placed(&file)?;
//! assert_eq!((placed[0], on_steps), (2, 3));
//! assert!(pilzdamo::check(&placed).is_clean());
//! # Ok::<(), Box<dyn std::error::Error>>(())
//! ```
//!
//! # Roles with opening hours
//!
//! A table of hours has three words a row: a role, its first minute and its end minute,
//! counted from Monday 00:00.
//!
//! ```
//! // Admissions, role 1, is open on weekdays from 07:00 to 15:00.
//! let day = |day: u16| [1, 24 * 60 * day + 7 * 60, 24 * 60 * day + 15 * 60];
//! let hours = [0, 1, 2, 3, 4].map(day).concat();
//! let (monday_noon, sunday_noon) = (12 * 60, 6 * 24 * 60 + 12 * 60);
//!
//! // At noon role 1 is open; on Sunday the file is placed in role 2.
//! let file = std::fs::read("../../examples/hours/desk.clinic")?;
//! let (by_day, _) = pilzdamo::placed_at(&file, &hours, monday_noon)?;
//! let (on_sunday, _) = pilzdamo::placed_at(&file, &hours, sunday_noon)?;
//! assert_ne!(by_day, on_sunday);
//!
//! // The file of a weekday doesn't pass on Sunday.
//! let verdict = pilzdamo::check_at(&by_day, &hours, sunday_noon);
//! assert_eq!(verdict.to_string(), "refused 24 1");
//! # Ok::<(), Box<dyn std::error::Error>>(())
//! ```
//!
//! # Two clinics move into one house
//!
//! Two files with the same roles and kinds become one. The second file's users,
//! channels, sessions and nodes follow the first's and are renumbered.
//!
//! ```
//! let north = std::fs::read("../../examples/house/north.clinic")?;
//! let south = std::fs::read("../../examples/house/south.clinic")?;
//! let house = pilzdamo::merged(&north, &south)?;
//!
//! // The on steps of both, added together.
//! let on_steps = |file: &[u8]| pilzdamo::measure(file).on_steps;
//! assert_eq!((on_steps(&north), on_steps(&south), on_steps(&house)), (2, 3, 5));
//!
//! // Another table of roles.
//! let other = std::fs::read("../../examples/refused/25-tables.clinic")?;
//! let refusal = pilzdamo::merged(&north, &other).unwrap_err();
//! assert_eq!(refusal.to_string(), "refused 25 0");
//! # Ok::<(), Box<dyn std::error::Error>>(())
//! ```
//!
//! # Nodes by column
//!
//! Version 3 of the format stores the nodes by column, so that equal words stand
//! together; all else is version 2. A column file has the answers of its row file, and
//! a placed file keeps the form of its input.
//!
//! ```
//! let rows = std::fs::read("../../examples/head-nurse/juniors.clinic")?;
//! let columns = pilzdamo::in_columns(&rows)?;
//! assert_eq!(columns, std::fs::read("../../examples/head-nurse/columns.clinic")?);
//! assert_eq!(pilzdamo::in_rows(&columns)?, rows);
//!
//! // The placed column file is the placed row file, by column.
//! let (placed_rows, on_steps) = pilzdamo::placed(&rows)?;
//! assert_eq!(pilzdamo::placed(&columns)?, (pilzdamo::in_columns(&placed_rows)?, on_steps));
//! # Ok::<(), Box<dyn std::error::Error>>(())
//! ```
//!
//! # The plan in force
//!
//! A group sends next month's file early, as a notice: the first day of validity (in
//! days since 1 January 2000), the file's length, the file. For two notices and a day
//! the call returns the file in force, as a slice of its notice.
//!
//! ```
//! let november = std::fs::read("../../examples/notices/november.notice")?;
//! let december = std::fs::read("../../examples/notices/december.notice")?;
//! let november_15 = 9_815;
//! let file = pilzdamo::file_in_force(&november, &december, november_15)?;
//! assert!(std::ptr::eq(file, &november[4..]));
//! assert!(pilzdamo::read(file).is_clean());
//! let file = pilzdamo::file_in_force(&november, &december, november_15 + 16)?;
//! assert!(std::ptr::eq(file, &december[4..]));
//! # Ok::<(), Box<dyn std::error::Error>>(())
//! ```
//!
//! # The group's quarterly sheet
//!
//! The input is up to 1,000 files in a row, each after a word with its length.
//!
//! ```
//! let read = |name: &str| std::fs::read(format!("../../examples/{name}.clinic"));
//! let files = [read("transfer")?, read("refused/15-no-role")?, read("theatre")?];
//! let sheet = pilzdamo::sheet(&pilzdamo::records(&files).unwrap());
//! assert_eq!((sheet.files, sheet.placed(), sheet.refused_at(15)), (3, 2, 1));
//!
//! // Of the sessions placed: the on steps in all, the most in one, and per 1,000.
//! assert_eq!((sheet.sessions, sheet.on_steps, sheet.most), (4, 5, 2));
//! assert_eq!((sheet.quotient, sheet.remainder), (1_250, 0));
//! # Ok::<(), std::io::Error>(())
//! ```
//!
//! # Run a list of choices
//!
//! A run starts with one thread for each session. A choice names a thread and the
//! partner that it sends to; partner 0 means that the thread steps alone.
//!
//! ```
//! use pilzdamo::{State, RUN_ROOM};
//!
//! // Wards 1 and 2 ask ward 3 for a bed. User 4 stands for the bed.
//! let file = std::fs::read("../../examples/transfer.clinic")?;
//! let (file, _) = pilzdamo::placed(&file)?;
//! let choices = [
//!     1, 0, // ward 1 makes a channel,
//!     1, 0, // switches role 1 on,
//!     1, 0, // and forks: thread 4 will wait for the answer
//!     3, 0, // ward 3 repeats: thread 5 takes a request
//!     5, 0, // ward 3 switches role 2 on
//!     1, 5, // ward 1 asks, and hands over the channel that it made
//!     5, 4, // ward 3 answers on it
//! ];
//! let mut out = [0; RUN_ROOM];
//! pilzdamo::run(&file, &choices, &mut out).result()?;
//! let state = State::of(&out).unwrap();
//! assert_eq!((state.done, state.threads.len(), state.made.len()), (7, 5, 1));
//!
//! // Thread 4 has made channel 1 and the bed.
//! assert_eq!(state.threads[3].vars[..2], [385, 4]);
//!
//! // Two choices earlier, threads 1 and 5 could meet.
//! assert_eq!(pilzdamo::ready(&file, &choices[..10]).pair(), Some((1, 5)));
//! # Ok::<(), Box<dyn std::error::Error>>(())
//! ```
//!
//! # Let a dispatcher choose
//!
//! A round visits every thread once, in order. A thread that can step alone does so. A
//! sender meets the first receiver that it can meet and that hasn't moved in this round.
//!
//! ```
//! use pilzdamo::{State, RUN_ROOM};
//!
//! // Two bookings, and the desk that takes them.
//! let file = std::fs::read("../../examples/desks.clinic")?;
//! let (file, _) = pilzdamo::placed(&file)?;
//! let mut out = [0; RUN_ROOM];
//! let (mut choices, mut rounds) = (Vec::new(), 0);
//! loop {
//!     let round = pilzdamo::round(&file, &choices, &mut out);
//!     round.verdict().result()?;
//!     if round.choices().is_empty() {
//!         break;
//!     }
//!     choices.extend(round.choices());
//!     rounds += 1;
//! }
//!
//! // In the end nothing can be done: here all threads have ended.
//! assert_eq!((rounds, choices.len() / 2), (7, 13));
//! assert!(State::of(&out).unwrap().threads.is_empty());
//! # Ok::<(), Box<dyn std::error::Error>>(())
//! ```
//!
//! # Who is waiting on what
//!
//! For each kind the engine counts the threads that stand at a receive on a channel of
//! that kind. A screen reads one word for it.
//!
//! ```
//! // Two bookings, and the desk that takes them, on kind 1 and then on kind 2.
//! let file = std::fs::read("../../examples/desks.clinic")?;
//! let (file, _) = pilzdamo::placed(&file)?;
//! let waiting = |choices: &[u16]| pilzdamo::totals(&file, choices).to_string();
//! assert_eq!(waiting(&[]), "nobody waits");
//! assert_eq!(waiting(&[3, 0]), "waiting: 1 on kind 1");
//! assert_eq!(waiting(&[3, 0, 1, 0, 1, 3]), "waiting: 1 on kind 2");
//!
//! // A desk has the same counts.
//! let desk = pilzdamo::Desk::after(&file, &[3, 0])?;
//! assert_eq!((desk.total(1), desk.total(2)), (1, 0));
//! # Ok::<(), Box<dyn std::error::Error>>(())
//! ```
//!
//! # Seats per role
//!
//! A table may limit the seats of each role. A session that switches such a role on
//! while no seat is free, or while others are before it, is queued in the role's line.
//! The run goes on.
//!
//! ```
//! use pilzdamo::{run_seated, seats, State, RUN_ROOM};
//!
//! // Two schedulers and the desk; role 2, the bed holder, has one seat.
//! let file = std::fs::read("../../examples/seats/asked.clinic")?;
//! let (file, _) = pilzdamo::placed(&file)?;
//! let table = [0, 1, 0];
//!
//! // Each makes a channel and asks for the role. The second gets no seat.
//! let choices = [1, 0, 2, 0, 1, 0, 2, 0];
//! let mut out = [0; RUN_ROOM];
//! let written = run_seated(&file, &choices, &table, &mut out);
//! written.verdict().result()?;
//! let state = State::of(&out[..written.length.into()]).unwrap();
//! assert_eq!((state.threads[0].mask, state.threads[1].mask), (2, 0));
//! let told = seats(&file, &choices, &table);
//! assert_eq!(told.to_string(), "taken: 1 in role 2; in line for role 2: 2");
//! assert_eq!((told.waited, told.last), (1, 26));
//! # Ok::<(), Box<dyn std::error::Error>>(())
//! ```
//!
//! # All lists of choices
//!
//! A search goes over all states that lists of choices lead to, and [`closed`] judges the
//! table that it leaves: where it holds, no list leads to a state that isn't in it.
//!
//! ```
//! use pilzdamo::{closed, offers, start_row, OFFERS_ROOM};
//!
//! // Two bookings, and the desk that takes them; no role has a limit.
//! let file = std::fs::read("../../examples/desks.clinic")?;
//! let (file, _) = pilzdamo::placed(&file)?;
//! let seats = [0; 3];
//! let mut out = vec![0; OFFERS_ROOM];
//! let (mut rows, mut next) = (vec![start_row(&file, &seats)?], Vec::new());
//! let (mut done, mut stuck) = (0, Vec::new());
//! while done < rows.len() {
//!     let told = offers(&file, &seats, &rows[done], &mut out);
//!     told.verdict().result()?;
//!     for offer in told.each(&out) {
//!         let known = rows.iter().position(|row| row == offer.words);
//!         next.push(known.unwrap_or(rows.len()) as u32);
//!         if known.is_none() {
//!             rows.push(offer.words.to_vec());
//!         }
//!     }
//!     if told.count == 0 {
//!         stuck.push(done);
//!     }
//!     done += 1;
//! }
//!
//! // Nothing is stuck but the state in which all threads have ended.
//! assert_eq!((rows.len(), stuck.len()), (57, 1));
//! assert_eq!(rows[stuck[0]], [0, 0, 0, 0, 0]);
//!
//! // That was the search's word. The engine says that no list leads elsewhere.
//! let places = rows.iter().scan(0, |end, row| Some(std::mem::replace(end, *end + row.len() as u32)));
//! let places: Vec<u32> = places.collect();
//! assert!(closed(&file, &seats, &rows.concat(), &places, &next).is_closed());
//! # Ok::<(), Box<dyn std::error::Error>>(())
//! ```
//!
//! # Run choice by choice
//!
//! A [`Desk`] owns a copy of the file and the threads. It lists the choices that can be
//! done and carries out one at a time. No choice in a placed file is ever refused for a
//! role (11, 12 or 13), whatever was chosen before.
//!
//! ```
//! use pilzdamo::Desk;
//!
//! // Two schedulers, and the desk's four sessions.
//! let file = std::fs::read("../../examples/spring/bare.clinic")?;
//! let (file, _) = pilzdamo::placed(&file)?;
//! let mut desk = Desk::start(&file)?;
//! let mut choices = Vec::new();
//! while let Some(&(thread, partner)) = desk.choices().first() {
//!     desk.choose(thread, partner)?;
//!     choices.extend([thread, partner]);
//! }
//!
//! // All threads have ended but one, which has a note to send and no receiver.
//! assert_eq!(desk.threads().len(), 1);
//! assert_eq!((desk.threads()[0].user, desk.threads()[0].node), (3, 31));
//! assert_eq!(desk.why_not(1, 0).map(|refusal| refusal.number), Some(18));
//!
//! // The list of these choices leads to the same state.
//! assert_eq!(Desk::after(&file, &choices)?.threads(), desk.threads());
//! # Ok::<(), Box<dyn std::error::Error>>(())
//! ```
//!
//! # Handle a refusal
//!
//! A [`Verdict`] has the refusal's number and place, and is an error for `?`. Its
//! documentation says what the place counts. A [`Reason`] puts a refusal into a
//! sentence. The command `pilzdamo explain N` says who can mend it, and how.
//!
//! ```
//! use pilzdamo::{Desk, Verdict};
//!
//! fn both_wait(file: &[u8]) -> Result<Desk, Verdict> {
//!     pilzdamo::check(file).result()?;
//!     let mut desk = Desk::start(file)?;
//!     desk.choose(1, 0)?;
//!     desk.choose(2, 0)?;
//!     Ok(desk)
//! }
//! let read = |name: &str| std::fs::read(format!("../../examples/{name}"));
//! assert_eq!(both_wait(&read("spring/cut.clinic")?)?.threads()[1].mask, 1);
//!
//! // Node 1 switches on a role that isn't assigned to its user.
//! let refusal = both_wait(&read("refused/11-on.clinic")?).unwrap_err();
//! assert_eq!((refusal.number, refusal.place), (11, 1));
//!
//! // Thread 1 compares two different users; the choice has number 1.
//! let refusal = both_wait(&read("refused/choices.clinic")?).unwrap_err();
//! assert_eq!((refusal.number, refusal.place), (19, 1));
//! # Ok::<(), Box<dyn std::error::Error>>(())
//! ```
//!
//! # Reasons in words
//!
//! A sentence says a refusal to those who don't know the numbers. It can be read back,
//! and no two reasons share one.
//!
//! ```
//! use pilzdamo::{read_reason, Counts};
//!
//! let file = std::fs::read("../../examples/refused/13-role.clinic")?;
//! let verdict = pilzdamo::check(&file);
//! assert_eq!(verdict.to_string(), "refused 13 4");
//!
//! // Node 4 is a send, which is tag 6.
//! let reason = verdict.reason(Counts::Node, 6);
//! let sentence = reason.sentence().unwrap();
//! assert_eq!(sentence, "Refused 13: no active role permits the step at node 4, a send.");
//! assert_eq!(read_reason(sentence.as_bytes()), reason);
//! # Ok::<(), std::io::Error>(())
//! ```
//!
//! # What is proved
//!
//! The engine's functions are proved: what they answer, every byte that they write, and
//! that they need nothing from their caller but valid memory. This crate is plain Rust
//! around them. It passes each slice with its length, [`State`] names the words of a
//! run's output, [`Offers`] those of offers, a [`Desk`] holds what the engine wrote, and
//! [`in_force`] slices the notice where the engine says. Only these calls use unsafe code.
//!
//! C programs use the header `pilzdamo.h`, which stands beside this crate's `Cargo.toml`.

#![deny(missing_docs, unsafe_code)]

mod answers;
mod calls;
mod desk;
#[allow(unsafe_code)]
mod raw;
mod state;

pub use answers::{Closing, Counts, InForce, Offer, Offers, Placed, Ready, Reason, Round, Seats};
pub use answers::{Sheet, Totals, Verdict, Written, NO_TAG};
pub use calls::{check, check_at, choose, closed, closed_part, measure, measure_at, merge, merged};
pub use calls::{
    file_in_force, in_columns, in_force, in_rows, records, sheet, to_columns, to_rows, NUMBERS,
    SHEET_FILES,
};
pub use calls::{meaning, phrase, read_reason, reason};
pub use calls::{offers, start_row, OFFERS_ROOM, ROW_WORDS};
pub use calls::{place, place_at, placed, placed_at, read, ready, room, round, run, start};
pub use calls::{round_seated, run_seated, seats, total, totals};
pub use calls::{BEFORE_ROUND, BESIDE, RECORDS, ROOM, ROOM_1, ROUND_WORDS, ROWS, RUN_ROOM};
pub use calls::{LINE_WORDS, ROLES, SEATS, SENTENCE, SESSIONS, TOTALS, WEEK};
pub use desk::Desk;
pub use state::{Channel, State, Thread};

/// The examples of docs/API.md, run as doc tests.
#[cfg(doctest)]
#[doc = include_str!("../../../docs/API.md")]
mod api_page {}
