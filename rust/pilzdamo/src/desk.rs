//! A live desk: a run that goes on choice by choice.

use crate::{choose, run, start, total, totals, Channel, State, Thread, Verdict};
use crate::{BESIDE, RECORDS, RUN_ROOM, TOTALS};
use std::fmt;
use std::sync::Arc;

/// A run of a file that goes on choice by choice: the file, the threads, the made
/// channels, and how many threads wait on each kind.
///
/// A desk owns a copy of its file, and only the engine changes its state. So it always
/// holds a state of a run of that file. To undo a choice, clone the desk before it; the
/// clones share the file. A caller that keeps the list in its own memory calls
/// [`start`] and [`choose`] instead.
///
/// ```
/// use pilzdamo::Desk;
///
/// let file = std::fs::read("../../examples/transfer.clinic")?;
/// let (file, _) = pilzdamo::placed(&file)?;
/// let mut desk = Desk::start(&file)?;
///
/// // Ward 1 makes a channel, switches role 1 on and forks.
/// for _ in 0..3 {
///     desk.choose(1, 0)?;
/// }
/// let channel = desk.made().next().unwrap();
/// assert_eq!((channel.owner, channel.kind), (1, 2));
/// let [one, .., last] = desk.threads() else { panic!() };
/// assert_eq!((one.mask, one.vars[0]), (1, 385));
/// assert_eq!((last.mask, last.vars[0]), (1, 385));
///
/// // Thread 1 can't send alone. A refused choice changes nothing.
/// let refusal = desk.choose(1, 0).unwrap_err();
/// assert_eq!(refusal.to_string(), "refused 18 1");
///
/// // Ward 3 repeats; its new thread switches role 2 on, and can take the request.
/// desk.choose(3, 0)?;
/// desk.choose(5, 0)?;
/// assert_eq!(desk.choices(), [(1, 5), (2, 0), (3, 0)]);
/// let before = desk.clone();
/// desk.choose(1, 5)?;
/// assert_eq!(desk.threads()[4].vars[0], 385);
///
/// // Undo it.
/// desk = before;
/// assert_eq!(desk.threads()[4].vars[0], 0);
/// # Ok::<(), Box<dyn std::error::Error>>(())
/// ```
#[derive(Clone)]
pub struct Desk {
    file: Arc<[u8]>,
    threads: [Thread; RECORDS],
    beside: [u16; BESIDE],
}

impl Desk {
    /// Starts a run: one thread for each session. Refuses a file by 1 to 10; copies
    /// the file.
    ///
    /// ```
    /// let file = std::fs::read("../../examples/spring/cut.clinic")?;
    /// let desk = pilzdamo::Desk::start(&file)?;
    /// assert_eq!(desk.threads().len(), 6);
    ///
    /// let refusal = pilzdamo::Desk::start(&file[1..]).unwrap_err();
    /// assert_eq!(refusal.to_string(), "refused 1 0");
    /// # Ok::<(), Box<dyn std::error::Error>>(())
    /// ```
    pub fn start(file: &[u8]) -> Result<Desk, Verdict> {
        let mut desk = Desk::empty(file);
        start(&desk.file, &mut desk.threads, &mut desk.beside).result()?;
        Ok(desk)
    }

    /// The desk to which a list of choices leads, such as a stored list of choices
    /// done. Any refusal of [`run`] is the error, also one that halts the run.
    ///
    /// ```
    /// use pilzdamo::Desk;
    ///
    /// let file = std::fs::read("../../examples/spring/cut.clinic")?;
    /// let mut desk = Desk::start(&file)?;
    /// desk.choose(3, 0)?;
    /// desk.choose(4, 0)?;
    /// desk.choose(3, 4)?;
    ///
    /// let again = Desk::after(&file, &[3, 0, 4, 0, 3, 4])?;
    /// assert_eq!(again.threads(), desk.threads());
    ///
    /// let refusal = Desk::after(&file, &[3, 0, 3, 4]).unwrap_err();
    /// assert_eq!(refusal.to_string(), "refused 18 2");
    /// # Ok::<(), Box<dyn std::error::Error>>(())
    /// ```
    pub fn after(file: &[u8], choices: &[u16]) -> Result<Desk, Verdict> {
        let mut out = [0; RUN_ROOM];
        run(file, choices, &mut out).result()?;
        let state = State::of(&out).expect("a state fits in its room");
        Ok(Desk::of(file, &state, &totals(file, choices).totals))
    }

    fn empty(file: &[u8]) -> Desk {
        Desk {
            file: file.into(),
            threads: [Thread::default(); RECORDS],
            beside: [0; BESIDE],
        }
    }

    /// A state and its totals, in the layout of a lent list.
    fn of(file: &[u8], state: &State, totals: &[u16; TOTALS]) -> Desk {
        let mut desk = Desk::empty(file);
        desk.threads[..state.threads.len()].copy_from_slice(&state.threads);
        desk.beside[0] = state.threads.len() as u16;
        desk.beside[1] = state.made.len() as u16;
        let (channels, _) = desk.beside[2..].as_chunks_mut();
        for (words, channel) in channels.iter_mut().zip(&state.made) {
            *words = [channel.owner, channel.kind];
        }
        desk.beside[BESIDE - TOTALS..].copy_from_slice(totals);
        desk
    }

    /// Carries out one choice: `thread` steps, alone if `partner` is 0. The refusals
    /// are those of [`choose`]; a refused choice changes nothing.
    ///
    /// ```
    /// let file = std::fs::read("../../examples/refused/choices.clinic")?;
    /// let mut desk = pilzdamo::Desk::start(&file)?;
    /// let before = desk.threads().to_vec();
    ///
    /// // Thread 1 compares user 1 with user 2.
    /// let refusal = desk.choose(1, 0).unwrap_err();
    /// assert_eq!(refusal.to_string(), "refused 19 1");
    /// assert_eq!(desk.threads(), before);
    /// # Ok::<(), Box<dyn std::error::Error>>(())
    /// ```
    pub fn choose(&mut self, thread: u16, partner: u16) -> Result<(), Verdict> {
        let Desk {
            file,
            threads,
            beside,
        } = self;
        choose(file, threads, beside, thread, partner).result()
    }

    /// The refusal that [`choose`](Desk::choose) would answer, or `None` if the choice
    /// can be done. Changes nothing.
    ///
    /// ```
    /// let file = std::fs::read("../../examples/refused/choices.clinic")?;
    /// let desk = pilzdamo::Desk::start(&file)?;
    ///
    /// // Thread 1 compares two users, thread 2 repeats, and there is no thread 3.
    /// let number = |thread| desk.why_not(thread, 0).map(|refusal| refusal.number);
    /// assert_eq!([1, 2, 3].map(number), [Some(19), None, Some(18)]);
    /// # Ok::<(), Box<dyn std::error::Error>>(())
    /// ```
    pub fn why_not(&self, thread: u16, partner: u16) -> Option<Verdict> {
        self.clone().choose(thread, partner).err()
    }

    /// All choices that can be done now, as thread and partner (0 if the thread steps
    /// alone), ordered by thread and then by partner. The engine has done each of them
    /// on a copy of the desk.
    ///
    /// ```
    /// // Two bookings, and the desk that takes them; each switches its role on.
    /// let (file, _) = pilzdamo::placed(&std::fs::read("../../examples/desks.clinic")?)?;
    /// let mut desk = pilzdamo::Desk::start(&file)?;
    /// assert_eq!(desk.choices(), [(1, 0), (2, 0), (3, 0)]);
    /// for thread in [1, 2, 3] {
    ///     desk.choose(thread, 0)?;
    /// }
    /// assert_eq!(desk.choices(), [(1, 3), (2, 3)]);
    ///
    /// // The lowest pair is the one that `ready` finds.
    /// assert_eq!(pilzdamo::ready(&file, &[1, 0, 2, 0, 3, 0]).pair(), Some((1, 3)));
    /// # Ok::<(), Box<dyn std::error::Error>>(())
    /// ```
    pub fn choices(&self) -> Vec<(u16, u16)> {
        let (mut choices, mut paired) = (Vec::new(), Vec::new());
        for thread in 1..=self.beside[0] {
            match self.why_not(thread, 0) {
                None => choices.push((thread, 0)),
                // A lone choice is refused with 18 only at a send or a receive, and only
                // such threads can meet.
                Some(Verdict { number: 18, .. }) => paired.push(thread),
                Some(_) => (),
            }
        }
        for &thread in &paired {
            let partners = paired.iter().copied();
            let meets = |partner: &u16| self.why_not(thread, *partner).is_none();
            choices.extend(partners.filter(meets).map(|partner| (thread, partner)));
        }
        choices.sort_unstable();
        choices
    }

    /// The file of the run.
    pub fn file(&self) -> &[u8] {
        &self.file
    }

    /// The threads, thread 1 first.
    pub fn threads(&self) -> &[Thread] {
        &self.threads[..self.beside[0].into()]
    }

    /// The made channels, in the order in which they were made.
    pub fn made(&self) -> impl ExactSizeIterator<Item = Channel> + '_ {
        let (channels, _) = self.beside[2..].as_chunks();
        let made = &channels[..self.beside[1].into()];
        made.iter().map(|&[owner, kind]| Channel { owner, kind })
    }

    /// How many threads stand at a receive on a channel of this kind; 0 for a kind
    /// outside 1 to 32. Reads one word, whatever the number of threads.
    ///
    /// ```
    /// use pilzdamo::Desk;
    ///
    /// let file = std::fs::read("../../examples/spring/cut.clinic")?;
    /// let mut desk = Desk::start(&file)?;
    /// let waiting = |desk: &Desk| [1, 2, 3].map(|kind| desk.total(kind));
    /// assert_eq!(waiting(&desk), [0, 0, 0]);
    ///
    /// // The first scheduler switches its role on, and waits to read (kind 1).
    /// desk.choose(1, 0)?;
    /// assert_eq!(waiting(&desk), [1, 0, 0]);
    /// assert_eq!((desk.total(0), desk.total(33)), (0, 0));
    /// # Ok::<(), Box<dyn std::error::Error>>(())
    /// ```
    pub fn total(&self, kind: u16) -> u16 {
        total(&self.beside, kind)
    }
}

impl fmt::Debug for Desk {
    fn fmt(&self, out: &mut fmt::Formatter<'_>) -> fmt::Result {
        out.debug_struct("Desk")
            .field("threads", &self.threads())
            .field("made", &self.made().collect::<Vec<_>>())
            .field("totals", &&self.beside[BESIDE - TOTALS..])
            .finish()
    }
}
