//! Lists with nothing wrong in them, though mostly no run comes to them.

use crate::lists::Lists;
use crate::rng::Rng;
use crate::trees::Trees;
use second::draft::Draft;
use second::{Halt, Thread, BEFORE_TOTALS, RECORDS, TOTALS};

const TAGS: [u16; 9] = [0, 1, 2, 3, 4, 5, 6, 7, 8];

/// Which of the channels of a kind variables mostly have. Where it is the first
/// or the last, threads are likely to meet; the last is often a made one.
#[derive(Clone, Copy)]
enum Taste {
    Any,
    First,
    Last,
}

/// What is to become of a choice.
#[derive(Clone, Copy)]
pub enum Sort {
    Any,
    /// It is done at a node of this tag.
    Done(u16),
    /// It is refused for this cause.
    Refused(Halt),
}

impl Sort {
    /// The tags of nodes at which threads should stand.
    fn tags(self) -> &'static [u16] {
        use Halt::*;
        let tag = match self {
            Sort::Any | Sort::Refused(ThreadZero | ThreadAbove) => return &TAGS,
            Sort::Done(tag) | Sort::Refused(PartnerOfLone { tag }) => tag,
            Sort::Refused(ThreadsFullAtFork) => 1,
            Sort::Refused(ThreadsFullAtRepeat) => 2,
            Sort::Refused(ChannelsFull) => 3,
            Sort::Refused(CompareUnequal) => 4,
            Sort::Refused(OnNotAssigned) => 7,
            Sort::Refused(OffNotActive) => 8,
            Sort::Refused(_) => 6,
        };
        match usize::from(tag) {
            5 | 6 => &TAGS[5..=6],
            tag => &TAGS[tag..=tag],
        }
    }
}

/// A file that meets refusals 1 to 10 clean, and what holds at its nodes.
pub struct Clinic {
    pub draft: Draft,
    trees: Trees,
    /// The indices of the nodes of each tag.
    by_tag: [Vec<usize>; 9],
    /// The kinds of the channels that variables hold.
    held: Vec<u16>,
}

impl Clinic {
    pub fn of(file: &[u8]) -> Clinic {
        let draft = Draft::of(file);
        let trees = Trees::of(&draft);
        let mut by_tag: [Vec<usize>; 9] = Default::default();
        let mut held = Vec::new();
        for (at, node) in draft.nodes.iter().enumerate() {
            by_tag[usize::from(node[0])].push(at);
            held.extend(trees.nodes[at].kinds().iter().filter(|kind| **kind > 0));
        }
        Clinic {
            draft,
            trees,
            by_tag,
            held,
        }
    }

    /// The roles assigned to the user of the thread's node.
    pub fn assigned(&self, thread: &Thread) -> u16 {
        self.trees.nodes[usize::from(thread.node) - 1].assigned
    }

    /// The kinds of the variables at the thread's node.
    pub fn kinds(&self, thread: &Thread) -> &[u16] {
        self.trees.nodes[usize::from(thread.node) - 1].kinds()
    }

    /// The tag of the thread's node.
    pub fn tag(&self, thread: &Thread) -> u16 {
        self.draft.nodes[usize::from(thread.node) - 1][0]
    }

    /// All channels with their values, named and made.
    pub fn channels<'a>(&'a self, made: &'a [[u16; 2]]) -> impl Iterator<Item = (u16, u16)> + 'a {
        let all = (257..).zip(&self.draft.channels).chain((385..).zip(made));
        all.map(|(value, &[_, kind])| (value, kind))
    }

    /// A value for a variable of the kind, if there is one.
    fn value(&self, rng: &mut Rng, taste: Taste, kind: u16, made: &[[u16; 2]]) -> Option<u16> {
        if kind == 0 {
            return Some(rng.from(1, self.draft.users.len() as u16));
        }
        let of_kind = || {
            let channels = self.channels(made);
            channels.filter(|(_, found)| *found == kind)
        };
        let count = of_kind().count();
        let drawn = match taste {
            Taste::First if !rng.once_in(4) => 0,
            Taste::Last if !rng.once_in(4) => count.saturating_sub(1),
            _ => rng.below(count.max(1)),
        };
        of_kind().nth(drawn).map(|(value, _)| value)
    }

    /// A channel of any owner and kind, mostly of a kind that variables have;
    /// none if there are no kinds.
    pub fn channel(&self, rng: &mut Rng) -> Option<[u16; 2]> {
        let (users, kinds) = (self.draft.users.len(), self.draft.kinds.len());
        if users == 0 || kinds == 0 {
            return None;
        }
        let any = rng.from(1, kinds as u16);
        let kind = if self.held.is_empty() || rng.once_in(3) {
            any
        } else {
            *rng.of(&self.held)
        };
        Some([rng.from(1, users as u16), kind])
    }

    /// A thread at the node of this index, if its variables can have values.
    fn thread_at(
        &self,
        rng: &mut Rng,
        taste: Taste,
        at: usize,
        made: &[[u16; 2]],
    ) -> Option<Thread> {
        let node = &self.trees.nodes[at];
        let any = rng.word();
        let mut thread = Thread {
            user: node.user,
            node: at as u16 + 1,
            mask: node.assigned & *rng.of(&[u16::MAX, u16::MAX, any, any, 0]),
            variables: [0; 8],
        };
        for (variable, &kind) in thread.variables.iter_mut().zip(node.kinds()) {
            *variable = self.value(rng, taste, kind, made)?;
        }
        Some(thread)
    }

    /// A thread at a node of one of the tags, if there is such a node and its
    /// variables can have values. Of two nodes it is mostly at the one with more
    /// variables.
    fn thread(
        &self,
        rng: &mut Rng,
        taste: Taste,
        tags: &[u16],
        made: &[[u16; 2]],
    ) -> Option<Thread> {
        let nodes = &self.by_tag[usize::from(*rng.of(tags))];
        if nodes.is_empty() {
            return None;
        }
        let two = [*rng.of(nodes), *rng.of(nodes)];
        let bound = two.map(|at| self.trees.nodes[at].kinds().len());
        let at = two[usize::from(bound[1] > bound[0])];
        self.thread_at(rng, taste, at, made)
    }

    /// The number of the variable, from 0, that is the channel of the send or
    /// receive at this index; none if a channel is named there.
    fn variable(&self, at: usize) -> Option<usize> {
        usize::from(self.draft.nodes[at][1]).checked_sub(512)
    }

    /// The kind of that channel.
    fn channel_kind(&self, at: usize) -> u16 {
        match self.variable(at) {
            Some(variable) => self.trees.nodes[at].kinds()[variable],
            None => self.draft.channels[usize::from(self.draft.nodes[at][1]) - 257][1],
        }
    }

    /// How many of these threads wait on each kind, by the kinds that rule 1 gives the
    /// channels of their receives. Those at no node don't.
    pub fn totals(&self, threads: &[Thread]) -> [u16; TOTALS] {
        let mut totals = [0; TOTALS];
        for thread in threads {
            let at = usize::from(thread.node).wrapping_sub(1);
            if self.draft.nodes.get(at).is_some_and(|node| node[0] == 5) {
                totals[usize::from(self.channel_kind(at)) - 1] += 1;
            }
        }
        totals
    }

    /// Whether what is sent on that channel is a channel.
    fn carries_channels(&self, at: usize) -> bool {
        self.draft.kinds[usize::from(self.channel_kind(at)) - 1] != [0]
    }

    /// A thread at a send and one at a receive on the same channel, if there
    /// are such nodes. In half of them the channel is in a variable, in others the
    /// value is a channel in a variable, if they can be. Mostly both have all
    /// their roles, or the sender alone has any.
    fn pair(&self, rng: &mut Rng, taste: Taste, made: &[[u16; 2]]) -> Option<[Thread; 2]> {
        let wish = rng.below(4);
        let preferred = |at: usize| match wish {
            0 | 1 => self.variable(at).is_some(),
            2 => self.draft.nodes[at][2] >= 512 && self.carries_channels(at),
            _ => true,
        };
        let mut find = |nodes: &[usize], will_do: &dyn Fn(usize) -> bool| {
            let found = rng.find(nodes, |&at| preferred(at) && will_do(at));
            let found = found.or_else(|| rng.find(nodes, |&at| will_do(at)))?;
            Some(nodes[found])
        };
        let send = find(&self.by_tag[6], &|_| true)?;
        let named = self.draft.nodes[send][1];
        let receive = find(&self.by_tag[5], &|at| {
            let in_variable = self.variable(at).or(self.variable(send)).is_some();
            let same = in_variable || self.draft.nodes[at][1] == named;
            same && self.channel_kind(at) == self.channel_kind(send)
        })?;
        let mut sender = self.thread_at(rng, taste, send, made)?;
        let mut receiver = self.thread_at(rng, taste, receive, made)?;
        match (self.variable(send), self.variable(receive)) {
            (Some(from), Some(to)) => receiver.variables[to] = sender.variables[from],
            (Some(from), None) => sender.variables[from] = self.draft.nodes[receive][1],
            (None, Some(to)) => receiver.variables[to] = named,
            (None, None) => {}
        }
        let masks = [self.assigned(&sender), self.assigned(&receiver)];
        match rng.below(5) {
            0 => {}
            1 => (sender.mask, receiver.mask) = (masks[0], 0),
            _ => [sender.mask, receiver.mask] = masks,
        }
        Some([sender, receiver])
    }

    /// Threads and made channels that fit the file, and in which there may well
    /// be a choice of this sort.
    pub fn lists_for(&self, rng: &mut Rng, sort: Sort) -> Lists {
        let taste = *rng.of(&[Taste::First, Taste::Last, Taste::Last, Taste::Any]);
        let tags = sort.tags();
        let made = match sort {
            Sort::Refused(Halt::ChannelsFull) => 64,
            Sort::Done(3) => several(rng, &[1, 63, 63]),
            _ => several(rng, &[0, 3, 10, 63, 64]),
        };
        let made: Vec<_> = (0..made).filter_map(|_| self.channel(rng)).collect();
        let count = match sort {
            Sort::Refused(Halt::ThreadsFullAtFork | Halt::ThreadsFullAtRepeat) => 64,
            Sort::Done(1 | 2) => several(rng, &[3, 20, 63]).max(2),
            Sort::Any => several(rng, &[0, 3, 64]),
            _ => several(rng, &[1, 3, 6, 6, 20, 64]).max(2),
        };
        let mut threads = Vec::new();
        for _ in 0..2 * count {
            let any = rng.from(0, 8);
            let tags = if rng.once_in(4) { &[any] } else { tags };
            let thread = self.thread(rng, taste, tags, &made);
            threads.extend(thread.filter(|_| threads.len() < count));
        }
        if tags.contains(&6) {
            for thread in self.pair(rng, taste, &made).into_iter().flatten() {
                threads.truncate(RECORDS - 1);
                threads.insert(rng.below(threads.len() + 1), thread);
            }
        }
        self.with_rest(rng, &threads, &made)
    }

    /// Lists of full length, with the totals of the threads that count: past what
    /// counts they hold anything, often what might as well count.
    pub fn with_rest(&self, rng: &mut Rng, counted: &[Thread], made: &[[u16; 2]]) -> Lists {
        let mut threads = counted.to_vec();
        let mut beside = vec![counted.len() as u16, made.len() as u16];
        beside.extend(made.as_flattened());
        if rng.once_in(2) {
            let more = (0..4).filter_map(|_| self.thread(rng, Taste::Any, &[0, 2, 3, 4, 5], made));
            let more: Vec<Thread> = more.collect();
            let left = RECORDS - threads.len();
            threads.extend(more.iter().cycle().take(left));
            while let Some(channel) = self.channel(rng).filter(|_| beside.len() < BEFORE_TOTALS) {
                beside.extend(channel);
            }
        }
        if rng.once_in(6) {
            threads.resize(RECORDS, Thread::default());
            beside.resize(BEFORE_TOTALS, 0);
        }
        threads.resize_with(RECORDS, || any_thread(rng));
        beside.resize_with(BEFORE_TOTALS, || rng.word());
        beside.extend(self.totals(counted));
        Lists { threads, beside }
    }

    /// As many threads, all at nodes with `least` variables or more, and as
    /// many made channels; none if there are no such nodes.
    pub fn crowd(&self, rng: &mut Rng, count: usize, least: usize) -> Option<Lists> {
        let nodes = &self.trees.nodes;
        let deep = |at: &usize| nodes[*at].kinds().len() >= least;
        let deep: Vec<usize> = (0..nodes.len()).filter(deep).collect();
        let made: Vec<_> = (0..count).filter_map(|_| self.channel(rng)).collect();
        let mut threads = Vec::new();
        for _ in 0..4 * count {
            let at = rng.find(&deep, |_| true)?;
            let thread = self.thread_at(rng, Taste::First, deep[at], &made);
            threads.extend(thread.filter(|_| threads.len() < count));
        }
        (threads.len() == count).then(|| self.with_rest(rng, &threads, &made))
    }
}

/// A number up to one of these, and often that one.
fn several(rng: &mut Rng, most: &[usize]) -> usize {
    let most = *rng.of(most);
    if rng.once_in(3) {
        most
    } else {
        rng.below(most + 1)
    }
}

/// A record of any words.
pub fn any_thread(rng: &mut Rng) -> Thread {
    Thread {
        user: rng.word(),
        node: rng.word(),
        mask: rng.word(),
        variables: std::array::from_fn(|_| rng.word()),
    }
}
