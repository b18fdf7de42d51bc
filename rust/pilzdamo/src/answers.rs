//! What the engine answers.

use crate::calls::said;
use crate::{reason, LINE_WORDS, NUMBERS, ROLES, ROUND_WORDS, SESSIONS, TOTALS};
use std::error::Error;
use std::fmt;

/// A refusal's number and place; 0 and 0 where nothing is refused.
///
/// What the place counts depends on the number:
///
/// | number | place |
/// |---|---|
/// | 1 to 5 | 0: the whole file; in a merge, 3 also for sums beyond a limit |
/// | 6 | the first word of the record, from 0 at the start of the file |
/// | 21 | the role's word of juniors, from 0 at the start of the file |
/// | 7 | the session, from 1 |
/// | 8 to 10 | the node, from 1; if a tree goes past the last node, the number of nodes plus 1 |
/// | 11 to 13 | the node; in a run the choice, from 1 |
/// | 14 | the node, or 0 for a starting mask |
/// | 15 | the node |
/// | 16 | 0: the placed file would have over 1,024 nodes |
/// | 17 | 0: an output that is too short, or a bad list of choices, table of seats, list of rows or part of it |
/// | 22 | 0: a minute past the week, or a bad table of hours |
/// | 23 | the row of the table of hours, from 1 |
/// | 24 | the node |
/// | 25 | 0: the tables of two files differ |
/// | 26 | the session, from 1, whose starting mask overfills a role |
/// | 27 | the notice, 1 or 2 |
/// | 28 | 0: neither notice has begun |
/// | 18 to 20 | the choice, from 1; 18 at 0 for a lent list that isn't one of the file's threads with their totals, for a lent state, and for a certificate, with the row |
///
/// In [`choose`](crate::choose) the choice has number 1. A [`Reason`] puts all of this
/// into a sentence.
///
/// A refusal is an error, so `?` works on it:
///
/// ```
/// fn passes(file: &[u8]) -> Result<(), Box<dyn std::error::Error>> {
///     pilzdamo::check(file).result()?;
///     Ok(())
/// }
/// let file = std::fs::read("../../examples/refused/09-name.clinic")?;
/// assert_eq!(passes(&file).unwrap_err().to_string(), "refused 9 2");
/// # Ok::<(), std::io::Error>(())
/// ```
#[repr(C)]
#[must_use]
#[derive(Clone, Copy, Debug, PartialEq, Eq, Hash)]
pub struct Verdict {
    /// The refusal's number, 0 if there is none.
    pub number: u16,
    /// The place: a word, a session, a node or a choice, by the number and the call.
    pub place: u16,
}

impl Verdict {
    /// Whether nothing is refused.
    ///
    /// ```
    /// assert!(!pilzdamo::read(b"no clinic file").is_clean());
    /// ```
    pub fn is_clean(self) -> bool {
        self.number == 0
    }

    /// The refusal as an error, if there is one.
    ///
    /// ```
    /// let refusal = pilzdamo::check(&[1]).result().unwrap_err();
    /// assert_eq!((refusal.number, refusal.place), (1, 0));
    /// ```
    pub fn result(self) -> Result<(), Verdict> {
        if self.is_clean() {
            Ok(())
        } else {
            Err(self)
        }
    }

    /// The refusal as a reason: with what its place counts, and the node's tag or
    /// [`NO_TAG`].
    ///
    /// ```
    /// use pilzdamo::{Counts, NO_TAG};
    ///
    /// let reason = pilzdamo::check(&[1]).reason(Counts::Nothing, NO_TAG);
    /// assert!(reason.sentence().unwrap().starts_with("Refused 1: "));
    /// ```
    pub fn reason(self, counts: Counts, tag: u16) -> Reason {
        let Verdict { number, place } = self;
        Reason {
            number,
            counts: counts.number(),
            place,
            tag,
        }
    }
}

/// `clean`, or `refused N P` with number and place.
///
/// ```
/// assert_eq!(pilzdamo::check(&[1]).to_string(), "refused 1 0");
/// ```
impl fmt::Display for Verdict {
    fn fmt(&self, out: &mut fmt::Formatter<'_>) -> fmt::Result {
        if self.is_clean() {
            return out.write_str("clean");
        }
        write!(out, "refused {} {}", self.number, self.place)
    }
}

impl Error for Verdict {}

/// What [`place`](crate::place) and [`measure`](crate::measure) answer: a refusal's
/// number and place, or the length of the placed file and its on steps. The fields that
/// don't apply are 0.
#[repr(C)]
#[must_use]
#[derive(Clone, Copy, Debug, PartialEq, Eq, Hash)]
pub struct Placed {
    /// The refusal's number, 0 if there is none.
    pub number: u16,
    /// The place: a word, a session or a node, by the number.
    pub place: u16,
    /// The length of the placed file in bytes.
    pub length: u16,
    /// The number of its on steps: nodes that switch a role on.
    pub on_steps: u16,
}

impl Placed {
    /// Whether the file is placed, or can be.
    ///
    /// ```
    /// assert!(!pilzdamo::place(&[1], &mut [0; pilzdamo::ROOM]).is_placed());
    /// ```
    pub fn is_placed(self) -> bool {
        self.number == 0
    }

    /// The refusal's number and place alone.
    ///
    /// ```
    /// let placed = pilzdamo::place(&[1], &mut [0; pilzdamo::ROOM]);
    /// assert_eq!(placed.verdict(), pilzdamo::read(&[1]));
    /// ```
    pub fn verdict(self) -> Verdict {
        let Placed { number, place, .. } = self;
        Verdict { number, place }
    }
}

/// `placed in L bytes, on steps: S`, or `refused N P` with number and place.
///
/// ```
/// let mut out = [0; pilzdamo::ROOM];
/// assert_eq!(pilzdamo::place(&[1], &mut out).to_string(), "refused 1 0");
/// let placed = pilzdamo::place(&[], &mut out);
/// assert_eq!(placed.to_string(), "placed in 26 bytes, on steps: 0");
/// ```
impl fmt::Display for Placed {
    fn fmt(&self, out: &mut fmt::Formatter<'_>) -> fmt::Result {
        if !self.is_placed() {
            return self.verdict().fmt(out);
        }
        let Placed {
            length, on_steps, ..
        } = self;
        write!(out, "placed in {length} bytes, on steps: {on_steps}")
    }
}

/// What [`ready`](crate::ready) answers: a refusal's number and place, or the
/// two threads that can meet. Fields that don't apply are 0.
#[repr(C)]
#[must_use]
#[derive(Clone, Copy, Debug, PartialEq, Eq, Hash)]
pub struct Ready {
    /// The refusal's number, 0 if there is none.
    pub number: u16,
    /// The place: a word, a session, a node or a choice, by the number.
    pub place: u16,
    /// The sender's number in the list of threads, 0 if no pair can meet.
    pub sender: u16,
    /// The receiver's, 0 if no pair can meet.
    pub receiver: u16,
}

impl Ready {
    /// Sender and receiver, if there is such a pair.
    ///
    /// ```
    /// assert_eq!(pilzdamo::ready(&[], &[]).pair(), None);
    /// ```
    pub fn pair(self) -> Option<(u16, u16)> {
        (self.sender != 0).then_some((self.sender, self.receiver))
    }

    /// The refusal's number and place alone.
    ///
    /// ```
    /// assert_eq!(pilzdamo::ready(&[1], &[]).verdict(), pilzdamo::read(&[1]));
    /// ```
    pub fn verdict(self) -> Verdict {
        let Ready { number, place, .. } = self;
        Verdict { number, place }
    }
}

/// `thread S can send to thread R`, `no pair can meet`, or `refused N P` with
/// number and place.
///
/// ```
/// assert_eq!(pilzdamo::ready(&[1], &[]).to_string(), "refused 1 0");
/// ```
impl fmt::Display for Ready {
    fn fmt(&self, out: &mut fmt::Formatter<'_>) -> fmt::Result {
        if !self.verdict().is_clean() {
            return self.verdict().fmt(out);
        }
        match self.pair() {
            Some((sender, receiver)) => {
                write!(out, "thread {sender} can send to thread {receiver}")
            }
            None => out.write_str("no pair can meet"),
        }
    }
}

/// What [`round`](crate::round) answers: a refusal's number and place, or the
/// round's choices; and the length of the state that is written. Fields that don't
/// apply are 0.
#[repr(C)]
#[must_use]
#[derive(Clone, Copy, Debug, PartialEq, Eq, Hash)]
pub struct Round {
    /// The refusal's number, 0 if there is none.
    pub number: u16,
    /// The place: a word, a session, a node or a choice of the list, by the number.
    pub place: u16,
    /// The length of the written state in bytes: the state after the round, or the one
    /// in which the list halted; 0 if nothing is written.
    pub length: u16,
    /// The round's choices, two words each: a thread and its partner, 0 if it steps
    /// alone. All words past the last choice are 0.
    pub words: [u16; ROUND_WORDS],
}

impl Round {
    /// The words of the round's choices, without the zeros past the last, as
    /// [`run`](crate::run) takes them. Empty if nothing can be done, or if the list is
    /// refused.
    ///
    /// ```
    /// let mut out = [0; pilzdamo::RUN_ROOM];
    /// assert!(pilzdamo::round(&[], &[], &mut out).choices().is_empty());
    /// ```
    pub fn choices(&self) -> &[u16] {
        let (choices, _) = self.words.as_chunks();
        let past = choices.iter().position(|[thread, _]| *thread == 0);
        choices[..past.unwrap_or(choices.len())].as_flattened()
    }

    /// The refusal's number and place alone.
    ///
    /// ```
    /// let mut out = [0; pilzdamo::RUN_ROOM];
    /// assert_eq!(pilzdamo::round(&[1], &[], &mut out).verdict(), pilzdamo::read(&[1]));
    /// ```
    pub fn verdict(&self) -> Verdict {
        let &Round { number, place, .. } = self;
        Verdict { number, place }
    }
}

/// `choices 1 0, 2 4`, `no choice can be done`, or `refused N P` with number and
/// place.
///
/// ```
/// let mut out = [0; pilzdamo::RUN_ROOM];
/// assert_eq!(pilzdamo::round(&[1], &[], &mut out).to_string(), "refused 1 0");
/// ```
impl fmt::Display for Round {
    fn fmt(&self, out: &mut fmt::Formatter<'_>) -> fmt::Result {
        if !self.verdict().is_clean() {
            return self.verdict().fmt(out);
        }
        let (choices, _) = self.choices().as_chunks();
        if choices.is_empty() {
            return out.write_str("no choice can be done");
        }
        for (at, [thread, partner]) in choices.iter().enumerate() {
            let lead = if at == 0 { "choices" } else { "," };
            write!(out, "{lead} {thread} {partner}")?;
        }
        Ok(())
    }
}

/// What [`totals`](crate::totals) answers: how many threads wait on each kind after the
/// last choice done, and the refusal that halted the run, if any. All totals are 0 if
/// the file or the list is refused before the first choice.
#[repr(C)]
#[must_use]
#[derive(Clone, Copy, Debug, PartialEq, Eq, Hash)]
pub struct Totals {
    /// The refusal's number, 0 if there is none.
    pub number: u16,
    /// The place: a word, a session, a node or a choice, by the number.
    pub place: u16,
    /// For each kind, from 1 on, how many threads stand at a receive on a channel of
    /// that kind.
    pub totals: [u16; TOTALS],
}

impl Totals {
    /// The total of a kind, 0 for one outside 1 to 32.
    ///
    /// ```
    /// // Three sessions of the desk have switch their role on. The first has a note to
    /// // send, and the others wait for it, on kind 1.
    /// let file = std::fs::read("../../examples/spring/cut.clinic")?;
    /// let totals = pilzdamo::totals(&file, &[3, 0, 4, 0, 5, 0]);
    /// assert_eq!((totals.of(1), totals.totals[0]), (2, 2));
    /// assert_eq!((totals.of(0), totals.of(33)), (0, 0));
    /// # Ok::<(), std::io::Error>(())
    /// ```
    pub fn of(&self, kind: u16) -> u16 {
        let at = usize::from(kind).checked_sub(1);
        at.and_then(|at| self.totals.get(at)).copied().unwrap_or(0)
    }

    /// The refusal's number and place alone.
    ///
    /// ```
    /// assert_eq!(pilzdamo::totals(&[1], &[]).verdict(), pilzdamo::read(&[1]));
    /// ```
    pub fn verdict(&self) -> Verdict {
        let &Totals { number, place, .. } = self;
        Verdict { number, place }
    }
}

/// `waiting: 2 on kind 1, 1 on kind 3`, or `nobody waits`. If the run halted, `refused N
/// P` comes first, and stands alone if nobody waits.
///
/// ```
/// assert_eq!(pilzdamo::totals(&[1], &[]).to_string(), "refused 1 0");
/// ```
impl fmt::Display for Totals {
    fn fmt(&self, out: &mut fmt::Formatter<'_>) -> fmt::Result {
        let refused = !self.verdict().is_clean();
        if refused {
            self.verdict().fmt(out)?;
        }
        let mut lead = if refused { ", waiting:" } else { "waiting:" };
        for (kind, &total) in (1..).zip(&self.totals) {
            if total != 0 {
                write!(out, "{lead} {total} on kind {kind}")?;
                lead = ",";
            }
        }
        match lead {
            "waiting:" => out.write_str("nobody waits"),
            _ => Ok(()),
        }
    }
}

/// What [`seats`](crate::seats) answers: who has a role and who waits for a seat after the
/// last choice done, and the refusal that halted the run, if any. All else is 0 if
/// something is refused before the first choice.
#[repr(C)]
#[must_use]
#[derive(Clone, Copy, Debug, PartialEq, Eq, Hash)]
pub struct Seats {
    /// The refusal's number, 0 if there is none.
    pub number: u16,
    /// The place: a word, a session, a node or a choice, by the number.
    pub place: u16,
    /// How many choices were answered 26: they got no seat.
    pub waited: u16,
    /// The answer of the last choice done: 26, or 0.
    pub last: u16,
    /// For each role, from 1 on, how many sessions have a thread with it active, also
    /// if the role has no limit.
    pub taken: [u16; ROLES],
    /// For each role, from 1 on, how many sessions wait for a seat.
    pub waiting: [u16; ROLES],
    /// For each role, from 1 on, [`SESSIONS`] words: the sessions in its line, the head
    /// first, and 0 past the last.
    pub line: [u16; LINE_WORDS],
    /// For each kind, from 1 on, how many threads stand at a receive on a channel of that
    /// kind, as in [`Totals`].
    pub totals: [u16; TOTALS],
}

impl Seats {
    /// How many sessions have a role, 0 for one outside 1 to 16.
    ///
    /// ```
    /// // Four sessions of the desk switch on role 3, which has no limit.
    /// let file = std::fs::read("../../examples/spring/cut.clinic")?;
    /// let seats = pilzdamo::seats(&file, &[3, 0, 4, 0, 5, 0, 6, 0], &[0, 1, 0]);
    /// assert_eq!((seats.in_role(3), seats.in_role(2), seats.in_role(17)), (4, 0, 0));
    /// # Ok::<(), std::io::Error>(())
    /// ```
    pub fn in_role(&self, role: u16) -> u16 {
        let at = usize::from(role).checked_sub(1);
        at.and_then(|at| self.taken.get(at)).copied().unwrap_or(0)
    }

    /// The sessions that wait for a seat in a role, the head of the line first; none for
    /// a role outside 1 to 16.
    ///
    /// ```
    /// // Both schedulers want role 1, which has one seat.
    /// let file = std::fs::read("../../examples/spring/cut.clinic")?;
    /// let seats = pilzdamo::seats(&file, &[1, 0, 2, 0], &[1, 0, 0]);
    /// assert_eq!((seats.in_role(1), seats.line_of(1)), (1, &[2][..]));
    /// assert_eq!((seats.waited, seats.last), (1, 26));
    /// # Ok::<(), std::io::Error>(())
    /// ```
    pub fn line_of(&self, role: u16) -> &[u16] {
        let lines = self.line.as_chunks::<SESSIONS>().0;
        let at = usize::from(role).checked_sub(1);
        match at.and_then(|at| lines.get(at).zip(self.waiting.get(at))) {
            Some((line, &waiting)) => &line[..usize::from(waiting).min(SESSIONS)],
            None => &[],
        }
    }

    /// The refusal's number and place alone.
    ///
    /// ```
    /// assert_eq!(pilzdamo::seats(&[1], &[], &[]).verdict(), pilzdamo::read(&[1]));
    /// ```
    pub fn verdict(&self) -> Verdict {
        let &Seats { number, place, .. } = self;
        Verdict { number, place }
    }
}

/// `taken: 1 in role 2; in line for role 2: 3 1`, or `no role is taken`. If the run
/// halted, `refused N P` comes first, and stands alone if no role is taken.
///
/// ```
/// let file = std::fs::read("../../examples/spring/cut.clinic")?;
/// let told = |choices: &[u16]| pilzdamo::seats(&file, choices, &[1, 0, 0]).to_string();
/// assert_eq!(told(&[]), "no role is taken");
/// assert_eq!(told(&[1, 0, 2, 0]), "taken: 1 in role 1; in line for role 1: 2");
/// assert_eq!(pilzdamo::seats(&[1], &[], &[]).to_string(), "refused 1 0");
/// # Ok::<(), std::io::Error>(())
/// ```
impl fmt::Display for Seats {
    fn fmt(&self, out: &mut fmt::Formatter<'_>) -> fmt::Result {
        let mut parts = Vec::new();
        if !self.verdict().is_clean() {
            parts.push(self.verdict().to_string());
        }
        let taken: Vec<String> = (1..)
            .zip(&self.taken)
            .filter(|(_, taken)| **taken != 0)
            .map(|(role, taken)| format!("{taken} in role {role}"))
            .collect();
        if !taken.is_empty() {
            parts.push(format!("taken: {}", taken.join(", ")));
        }
        for role in (1..=ROLES as u16).filter(|role| !self.line_of(*role).is_empty()) {
            let sessions: Vec<String> = self.line_of(role).iter().map(u16::to_string).collect();
            parts.push(format!("in line for role {role}: {}", sessions.join(" ")));
        }
        if parts.is_empty() {
            return out.write_str("no role is taken");
        }
        out.write_str(&parts.join("; "))
    }
}

/// What [`closed`](crate::closed) and [`closed_part`](crate::closed_part) answer: a refusal's
/// number and place, and the row of the certificate that is at fault.
#[repr(C)]
#[must_use]
#[derive(Clone, Copy, Debug, PartialEq, Eq, Hash)]
pub struct Closing {
    /// The refusal's number, 0 if the certificate holds.
    pub number: u16,
    /// Where it stands: a word, a session or a node, as its number says; 0 for 17 and 18.
    pub place: u16,
    /// With 18 the row that is at fault, from 1; else 0.
    pub row: u32,
}

impl Closing {
    /// Whether the certificate holds.
    ///
    /// ```
    /// // Nothing planned has one state, in which there is nothing.
    /// assert!(pilzdamo::closed(&[], &[], &[0, 0], &[0], &[]).is_closed());
    /// assert!(!pilzdamo::closed(&[], &[], &[1, 0], &[0], &[]).is_closed());
    /// ```
    pub fn is_closed(self) -> bool {
        self.number == 0
    }

    /// The refusal's number and place alone.
    ///
    /// ```
    /// let closing = pilzdamo::closed(&[1], &[], &[0, 0], &[0], &[]);
    /// assert_eq!(closing.verdict(), pilzdamo::read(&[1]));
    /// ```
    pub fn verdict(self) -> Verdict {
        let Closing { number, place, .. } = self;
        Verdict { number, place }
    }
}

/// `closed`, `refused N P`, or `refused 18 0, row R`.
///
/// ```
/// let closed = |states: &[u16]| pilzdamo::closed(&[], &[], states, &[0], &[]).to_string();
/// assert_eq!((closed(&[0, 0]), closed(&[0])), ("closed".into(), "refused 18 0, row 1".into()));
/// ```
impl fmt::Display for Closing {
    fn fmt(&self, out: &mut fmt::Formatter<'_>) -> fmt::Result {
        if self.is_closed() {
            return out.write_str("closed");
        }
        write!(out, "{}", self.verdict())?;
        if self.row == 0 {
            return Ok(());
        }
        write!(out, ", row {}", self.row)
    }
}

/// What [`offers`](crate::offers) answers: a refusal's number and place, and how much is
/// written. With 17 for want of room this is what had room; with any other refusal nothing
/// is written.
#[repr(C)]
#[must_use]
#[derive(Clone, Copy, Debug, PartialEq, Eq, Hash)]
pub struct Offers {
    /// The refusal's number, 0 if there is none.
    pub number: u16,
    /// The place: a word, a session or a node, by the number; 0 for 17 and 18.
    pub place: u16,
    /// How many offers are written.
    pub count: u16,
    /// How many words they have together.
    pub length: u32,
}

impl Offers {
    /// Whether nothing is refused, so that every choice that can be done is an offer.
    ///
    /// ```
    /// // Nothing planned has one state, in which there is nothing to choose.
    /// let told = pilzdamo::offers(&[], &[], &[0, 0], &mut []);
    /// assert!(told.is_whole() && told.count == 0);
    /// ```
    pub fn is_whole(self) -> bool {
        self.number == 0
    }

    /// The refusal's number and place alone.
    ///
    /// ```
    /// let told = pilzdamo::offers(&[1], &[], &[0, 0], &mut []);
    /// assert_eq!(told.verdict(), pilzdamo::read(&[1]));
    /// ```
    pub fn verdict(self) -> Verdict {
        let Offers { number, place, .. } = self;
        Verdict { number, place }
    }

    /// The offers that stand in the output, in order. Other words than those written end
    /// them early at worst.
    ///
    /// ```
    /// use pilzdamo::{offers, start_row, OFFERS_ROOM};
    ///
    /// // Both schedulers of spring want role 1, which has one seat.
    /// let file = std::fs::read("../../examples/spring/cut.clinic")?;
    /// let (seats, mut out) = ([1, 0, 0], vec![0; OFFERS_ROOM]);
    /// let start = start_row(&file, &seats)?;
    /// let told = offers(&file, &seats, &start, &mut out);
    /// let first = told.each(&out).next().unwrap().words.to_vec();
    ///
    /// // Session 1 has it: session 2 has to wait.
    /// let told = offers(&file, &seats, &first, &mut out);
    /// let second = told.each(&out).find(|offer| offer.thread == 2).unwrap();
    /// assert_eq!((second.partner, second.waits), (0, true));
    /// assert_eq!(second.words[second.words.len() - 4..], [1, 2, 0, 0]);
    /// # Ok::<(), Box<dyn std::error::Error>>(())
    /// ```
    pub fn each(self, out: &[u16]) -> impl Iterator<Item = Offer<'_>> {
        let mut words = out.get(..self.length as usize).unwrap_or(out);
        let next = move || {
            let (&[thread, partner, answer, count], rest) = words.split_first_chunk()?;
            let state;
            (state, words) = rest.split_at_checked(count.into())?;
            Some(Offer {
                thread,
                partner,
                waits: answer != 0,
                words: state,
            })
        };
        std::iter::from_fn(next).take(self.count.into())
    }
}

/// `offers: C in L words`, `refused N P`, or `refused 17 0, offers: C in L words`.
///
/// ```
/// let offers = |file: &[u8]| pilzdamo::offers(file, &[], &[0, 0], &mut []).to_string();
/// assert_eq!((offers(&[]), offers(&[1])), ("offers: 0 in 0 words".into(), "refused 1 0".into()));
/// ```
impl fmt::Display for Offers {
    fn fmt(&self, out: &mut fmt::Formatter<'_>) -> fmt::Result {
        let Offers { count, length, .. } = self;
        if !self.is_whole() {
            self.verdict().fmt(out)?;
            if *count == 0 {
                return Ok(());
            }
            out.write_str(", ")?;
        }
        write!(out, "offers: {count} in {length} words")
    }
}

/// A choice that can be done, and the state that follows; see [`Offers::each`].
#[derive(Clone, Copy, Debug, PartialEq, Eq, Hash)]
pub struct Offer<'a> {
    /// The thread's number.
    pub thread: u16,
    /// Its partner's, 0 if it steps alone.
    pub partner: u16,
    /// Whether the choice is answered 26: its session has to wait for a seat.
    pub waits: bool,
    /// The words of the state that follows, which are a row of a certificate.
    pub words: &'a [u16],
}

/// What a place counts.
#[derive(Clone, Copy, Debug, PartialEq, Eq, Hash)]
#[repr(u16)]
pub enum Counts {
    /// No place: it is 0.
    Nothing = 0,
    /// Words of the file, from 0 at its start.
    Word = 1,
    /// Sessions.
    Session = 2,
    /// Nodes.
    Node = 3,
    /// Choices of a list.
    Choice = 4,
    /// Rows of a table of hours.
    Row = 5,
    /// Notices: 1 or 2.
    Notice = 6,
}

impl Counts {
    /// All of them, by their numbers.
    pub const ALL: [Counts; 7] = [
        Counts::Nothing,
        Counts::Word,
        Counts::Session,
        Counts::Node,
        Counts::Choice,
        Counts::Row,
        Counts::Notice,
    ];

    /// Its number in a [`Reason`].
    ///
    /// ```
    /// assert_eq!(pilzdamo::Counts::Row.number(), 5);
    /// ```
    pub const fn number(self) -> u16 {
        self as u16
    }
}

/// The tag of a [`Reason`] that has no tag.
pub const NO_TAG: u16 = 9;

/// A refusal as [`reason`](crate::reason) writes it and
/// [`read_reason`](crate::read_reason) reads it. All four fields are 0 for bytes that are
/// no sentence.
///
/// What the place of a number may count:
///
/// | number | counts |
/// |---|---|
/// | 1 to 5, 16, 17, 22, 25, 28 | nothing |
/// | 6, 21 | words |
/// | 7 | sessions |
/// | 8, 9, 10, 15, 24 | nodes |
/// | 11 to 13 | nodes, or choices |
/// | 14 | nodes, or nothing |
/// | 18 | nothing, or choices |
/// | 19, 20 | choices |
/// | 23 | rows |
/// | 26 | sessions, or choices |
/// | 27 | notices |
#[repr(C)]
#[must_use]
#[derive(Clone, Copy, Debug, PartialEq, Eq, Hash)]
pub struct Reason {
    /// The refusal's number, 0 if there is none.
    pub number: u16,
    /// What the place counts, as a number of [`Counts`].
    pub counts: u16,
    /// The place; 0 exactly if nothing is counted.
    pub place: u16,
    /// The node's tag, 0 to 8, for 9 to 15 at a node; else [`NO_TAG`].
    pub tag: u16,
}

impl Reason {
    /// Whether this is a reason, and not what [`read_reason`](crate::read_reason) answers
    /// for other bytes.
    ///
    /// ```
    /// assert!(!pilzdamo::read_reason(b"13 at 4").is_one());
    /// ```
    pub fn is_one(self) -> bool {
        self.number != 0
    }

    /// What the place counts, or `None` if `counts` is no number of [`Counts`].
    ///
    /// ```
    /// use pilzdamo::{Counts, Reason, NO_TAG};
    ///
    /// let of = Reason { number: 19, counts: 4, place: 2, tag: NO_TAG };
    /// assert_eq!(of.counted(), Some(Counts::Choice));
    /// assert_eq!(Reason { counts: 7, ..of }.counted(), None);
    /// ```
    pub fn counted(self) -> Option<Counts> {
        Counts::ALL.get(usize::from(self.counts)).copied()
    }

    /// The allocating version of [`reason`](crate::reason): the sentence, or `None` if
    /// this is no reason.
    ///
    /// ```
    /// use pilzdamo::{read_reason, Reason, NO_TAG};
    ///
    /// let of = Reason { number: 14, counts: 0, place: 0, tag: NO_TAG };
    /// let sentence = of.sentence().unwrap();
    /// assert!(sentence.ends_with("an on, an off or a starting role; no place."));
    /// assert_eq!(read_reason(sentence.as_bytes()), of);
    /// assert_eq!(Reason { place: 1, ..of }.sentence(), None);
    /// ```
    pub fn sentence(self) -> Option<String> {
        said(|out| reason(self, out))
    }
}

/// What [`merge`](crate::merge), [`to_columns`](crate::to_columns) and
/// [`to_rows`](crate::to_rows) answer: a refusal's number and place, or the length of
/// what is written. Fields that don't apply are 0. [`run_seated`](crate::run_seated)
/// answers it too; it writes a state, and answers its length, also if a choice halts it.
#[repr(C)]
#[must_use]
#[derive(Clone, Copy, Debug, PartialEq, Eq, Hash)]
pub struct Written {
    /// The refusal's number, 0 if there is none.
    pub number: u16,
    /// The place: a word, a session or a node of the refused file, or a choice, by the
    /// number.
    pub place: u16,
    /// The number of bytes written; 0 if nothing is.
    pub length: u16,
}

impl Written {
    /// Whether nothing is refused.
    ///
    /// ```
    /// let written = pilzdamo::merge(&[1], &[1], &mut [0; pilzdamo::ROOM]);
    /// assert!(!written.is_written());
    /// ```
    pub fn is_written(self) -> bool {
        self.number == 0
    }

    /// The refusal's number and place alone.
    ///
    /// ```
    /// let written = pilzdamo::merge(&[1], &[1], &mut [0; pilzdamo::ROOM]);
    /// assert_eq!(written.verdict(), pilzdamo::read(&[1]));
    /// ```
    pub fn verdict(self) -> Verdict {
        let Written { number, place, .. } = self;
        Verdict { number, place }
    }
}

/// `written in L bytes`, or `refused N P` with number and place.
///
/// ```
/// let mut out = [0; pilzdamo::ROOM];
/// assert_eq!(pilzdamo::merge(&[1], &[1], &mut out).to_string(), "refused 1 0");
/// ```
impl fmt::Display for Written {
    fn fmt(&self, out: &mut fmt::Formatter<'_>) -> fmt::Result {
        if !self.is_written() {
            return self.verdict().fmt(out);
        }
        write!(out, "written in {} bytes", self.length)
    }
}

/// What [`in_force`](crate::in_force) answers beside the slice: a refusal's number and
/// place, and where the slice stands. With a refusal it is the empty slice at the first
/// notice's start.
#[repr(C)]
#[must_use]
#[derive(Clone, Copy, Debug, PartialEq, Eq, Hash)]
pub struct InForce {
    /// The refusal's number, 27 or 28, or 0 if there is none.
    pub number: u16,
    /// The place: the notice, 1 or 2, for 27; else 0.
    pub place: u16,
    /// The notice that holds the slice, 1 or 2.
    pub notice: u16,
    /// Where the slice begins in the notice, in bytes.
    pub at: u16,
    /// The length of the slice in bytes.
    pub length: u16,
}

impl InForce {
    /// The refusal's number and place alone.
    ///
    /// ```
    /// let (told, _) = pilzdamo::in_force(&[], &[], 0);
    /// assert_eq!((told.verdict().number, told.verdict().place), (27, 1));
    /// ```
    pub fn verdict(self) -> Verdict {
        let InForce { number, place, .. } = self;
        Verdict { number, place }
    }
}

/// `notice N is in force, L bytes from byte A on`, or `refused N P` with number and
/// place.
///
/// ```
/// // Notices of a clinic with nothing planned, from days 7 and 9 on.
/// let (one, other) = ([7, 0, 0, 0], [9, 0, 0, 0]);
/// let told = |day| pilzdamo::in_force(&one, &other, day).0.to_string();
/// assert_eq!(told(6), "refused 28 0");
/// assert_eq!(told(8), "notice 1 is in force, 0 bytes from byte 4 on");
/// ```
impl fmt::Display for InForce {
    fn fmt(&self, out: &mut fmt::Formatter<'_>) -> fmt::Result {
        if !self.verdict().is_clean() {
            return self.verdict().fmt(out);
        }
        let InForce {
            notice, at, length, ..
        } = self;
        write!(
            out,
            "notice {notice} is in force, {length} bytes from byte {at} on"
        )
    }
}

/// What [`sheet`](crate::sheet) answers: the figures of many files. A refused file adds
/// to [`files`](Sheet::files) and to its refusal only.
#[repr(C)]
#[must_use]
#[derive(Clone, Copy, Debug, PartialEq, Eq, Hash)]
pub struct Sheet {
    /// How many files were read, at most 1,000.
    pub files: u32,
    /// How many of them are refused at each number, from 1 on.
    pub refused: [u32; NUMBERS],
    /// The number of sessions in the placed files.
    pub sessions: u32,
    /// The on steps of these sessions.
    pub on_steps: u32,
    /// The most on steps in one session.
    pub most: u32,
    /// The on steps per 1,000 sessions, as a whole quotient; 0 without sessions.
    pub quotient: u32,
    /// The remainder of that division; 0 without sessions.
    pub remainder: u32,
}

impl Sheet {
    /// How many files are refused at this number, 0 for one outside 1 to 28.
    ///
    /// ```
    /// // A record of one byte, which is no file.
    /// let sheet = pilzdamo::sheet(&[1, 0, 7]);
    /// assert_eq!((sheet.files, sheet.refused_at(1), sheet.refused_at(2)), (1, 1, 0));
    /// assert_eq!((sheet.refused_at(0), sheet.refused_at(29)), (0, 0));
    /// ```
    pub fn refused_at(&self, number: u16) -> u32 {
        let at = usize::from(number).checked_sub(1);
        at.and_then(|at| self.refused.get(at)).copied().unwrap_or(0)
    }

    /// How many files are placed: all but the refused.
    ///
    /// ```
    /// // Zero bytes are the file of a clinic with nothing planned; one byte is no file.
    /// assert_eq!(pilzdamo::sheet(&[0, 0, 1, 0, 7]).placed(), 1);
    /// ```
    pub fn placed(&self) -> u32 {
        self.files - self.refused.iter().sum::<u32>()
    }
}

/// `files: F, placed: P, sessions: S, on steps: O, most: M, per 1,000 sessions: Q and R`.
///
/// ```
/// let told = "files: 1, placed: 1, sessions: 0, on steps: 0, most: 0, per 1,000 sessions: 0 and 0";
/// assert_eq!(pilzdamo::sheet(&[0, 0]).to_string(), told);
/// ```
impl fmt::Display for Sheet {
    fn fmt(&self, out: &mut fmt::Formatter<'_>) -> fmt::Result {
        let Sheet {
            files,
            sessions,
            on_steps,
            most,
            quotient,
            remainder,
            ..
        } = self;
        write!(out, "files: {files}, placed: {}, ", self.placed())?;
        write!(out, "sessions: {sessions}, on steps: {on_steps}, ")?;
        write!(
            out,
            "most: {most}, per 1,000 sessions: {quotient} and {remainder}"
        )
    }
}
