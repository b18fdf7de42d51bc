//! The state of a run in records.

/// A thread: its node, its active roles and its variables. Also a record of the list
/// that [`start`](crate::start) and [`choose`](crate::choose) take.
#[repr(C)]
#[derive(Clone, Copy, Debug, Default, PartialEq, Eq, Hash)]
pub struct Thread {
    /// The user of its session.
    pub user: u16,
    /// The node at which it stands.
    pub node: u16,
    /// The mask of its active roles.
    pub mask: u16,
    /// The values of its variables, 0 where nothing is bound.
    pub vars: [u16; 8],
}

/// A channel made in a run. Made channel i has value 384 + i.
#[derive(Clone, Copy, Debug, PartialEq, Eq, Hash)]
pub struct Channel {
    /// The user who made it.
    pub owner: u16,
    /// Its kind.
    pub kind: u16,
}

/// The state that [`run`](crate::run) or [`round`](crate::round) wrote.
#[derive(Clone, Debug, PartialEq, Eq)]
pub struct State {
    /// How many choices were done.
    pub done: u16,
    /// The number of the refusal that halted the run, 0 if none did.
    pub refusal: u16,
    /// The threads, thread 1 first.
    pub threads: Vec<Thread>,
    /// The made channels, in the order in which they were made.
    pub made: Vec<Channel>,
}

impl State {
    /// Reads the state at the start of the bytes that [`run`](crate::run) or
    /// [`round`](crate::round) wrote. `None` if there are too few bytes for the threads
    /// and channels that it counts.
    ///
    /// ```
    /// // A compare of users 1 and 2, and beside it a repeat.
    /// let file = std::fs::read("../../examples/refused/choices.clinic")?;
    /// let mut out = [0; pilzdamo::RUN_ROOM];
    /// let verdict = pilzdamo::run(&file, &[2, 0, 2, 0, 1, 0], &mut out);
    /// assert_eq!(verdict.to_string(), "refused 19 3");
    ///
    /// // The state before the third choice.
    /// let state = pilzdamo::State::of(&out).unwrap();
    /// assert_eq!((state.done, state.refusal), (2, 19));
    /// let nodes: Vec<u16> = state.threads.iter().map(|thread| thread.node).collect();
    /// assert_eq!(nodes, [1, 3, 4, 4]);
    ///
    /// assert_eq!(pilzdamo::State::of(&out[..50]), None);
    /// # Ok::<(), std::io::Error>(())
    /// ```
    pub fn of(out: &[u8]) -> Option<State> {
        let (pairs, _) = out.as_chunks();
        let mut words = pairs.iter().copied().map(u16::from_le_bytes);
        let [done, refusal, threads, made] = some(&mut words)?;
        let made = (0..made)
            .map(|_| channel(&mut words))
            .collect::<Option<_>>()?;
        let threads = (0..threads)
            .map(|_| thread(&mut words))
            .collect::<Option<_>>()?;
        Some(State {
            done,
            refusal,
            threads,
            made,
        })
    }
}

/// The next words, or `None` if there are fewer.
fn some<const N: usize>(words: &mut impl Iterator<Item = u16>) -> Option<[u16; N]> {
    let mut next = [0; N];
    for word in &mut next {
        *word = words.next()?;
    }
    Some(next)
}

fn channel(words: &mut impl Iterator<Item = u16>) -> Option<Channel> {
    let [owner, kind] = some(words)?;
    Some(Channel { owner, kind })
}

/// The fourth word is the number of roles in the mask.
fn thread(words: &mut impl Iterator<Item = u16>) -> Option<Thread> {
    let [user, node, mask, _] = some(words)?;
    let vars = some(words)?;
    Some(Thread {
        user,
        node,
        mask,
        vars,
    })
}
