//! A run that is followed choice by choice, and what each choice does in words.

use crate::called::Called;
use crate::names;
use crate::roll::Roll;
use crate::seats::Table;
use pilzdamo::{Desk, Thread, Verdict};

/// Where a run stands.
#[derive(Clone)]
pub struct Course<'a> {
    pub called: &'a Called<'a>,
    pub desk: Desk,
    pub roll: Roll,
}

impl<'a> Course<'a> {
    /// The start of a file's run.
    pub fn start(called: &'a Called<'a>) -> Result<Course<'a>, Verdict> {
        let desk = Desk::start(called.input)?;
        let roll = Roll::start(desk.threads().len());
        Ok(Course { called, desk, roll })
    }

    /// Goes through the choices of a list, of which those of these indices wait for a seat,
    /// up to one that is refused: each in the list's form, and what it did.
    pub fn through(&mut self, words: &[u16], waited: &[usize]) -> Vec<[String; 2]> {
        let mut waited = waited.iter().peekable();
        let mut lines = Vec::new();
        for (index, &[thread, partner]) in words.as_chunks().0.iter().enumerate() {
            let choice = self.choice(thread, partner);
            let done = match waited.next_if_eq(&&index) {
                Some(_) => Ok(self.waits(thread)),
                None => self.choose(thread, partner),
            };
            match done {
                Ok(done) => lines.push([choice, done]),
                Err(_) => break,
            }
        }
        lines
    }

    /// Does a choice, and says what it did. A refused choice changes nothing.
    pub fn choose(&mut self, thread: u16, partner: u16) -> Result<String, Verdict> {
        let before = self.thread(thread);
        self.desk.choose(thread, partner)?;
        self.roll.step(thread, self.desk.threads().len());
        Ok(before.map_or(String::new(), |before| self.did(&before, thread, partner)))
    }

    /// What a choice that can be done would do after these words; with a table of seats it
    /// may wait.
    pub fn would(&self, table: Option<&Table>, words: &[u16], choice: [u16; 2]) -> String {
        let [thread, partner] = choice;
        if self.is_waiting(table, words, choice) {
            return self.waits(thread);
        }
        let tried = self.clone().choose(thread, partner);
        tried.unwrap_or_else(|refusal| refusal.to_string())
    }

    /// A choice in the form of a list.
    pub fn choice(&self, thread: u16, partner: u16) -> String {
        self.called.choice(&self.roll, thread, partner)
    }

    /// A thread by its number.
    pub fn thread(&self, number: u16) -> Option<Thread> {
        let index = usize::from(number).checked_sub(1)?;
        self.desk.threads().get(index).copied()
    }

    /// Whether a choice after these words gets no seat by a table, if there is one.
    pub fn is_waiting(&self, table: Option<&Table>, words: &[u16], choice: [u16; 2]) -> bool {
        let role = self.role_put_on(choice[0]);
        let table = table.filter(|table| role.is_some_and(|role| table.limits(role)));
        table.is_some_and(|table| {
            let words = [words, &choice].concat();
            table.waits(self.called.input, &words)
        })
    }

    /// What is said of a choice that gets no seat.
    pub fn waits(&self, thread: u16) -> String {
        let role = self.role_put_on(thread).unwrap_or(0);
        format!("waits for a seat as {}", self.called.role(role))
    }

    /// The role that a thread is about to put on.
    fn role_put_on(&self, thread: u16) -> Option<u16> {
        let node = self.called.node(self.thread(thread)?.node);
        (node[0] == 7).then_some(node[1])
    }

    /// What was done by a thread that stood so before.
    fn did(&self, before: &Thread, thread: u16, partner: u16) -> String {
        let called = self.called;
        let [tag, f1, f2] = called.node(before.node);
        let operand = |word| called.operand(before, word);
        let after = self.thread(thread).unwrap_or_default();
        match tag {
            0 => self.ended(thread),
            1 => format!("forks; {}", self.begins()),
            2 => format!("repeats; {}", self.begins()),
            3 => {
                let (kind, made) = (called.input.kind(f1), called.bound_last(&after));
                format!("makes a channel of kind {kind}: {made}")
            }
            4 => format!("compares {} with {}: equal", operand(f1), operand(f2)),
            6 => {
                let receiver = called.thread(&self.roll, partner);
                let taken = called.bound_last(&self.thread(partner).unwrap_or_default());
                let (value, channel) = (operand(f2), operand(f1));
                format!("sends {value} on {channel}; {receiver} has {taken}")
            }
            7 | 8 => {
                let put = if tag == 7 { "on" } else { "off" };
                let (role, roles) = (called.role(f1), called.roles(after.mask));
                format!("puts {role} {put}; holds {roles}")
            }
            _ => String::new(),
        }
    }

    /// Of bytes, threads are known by their numbers alone.
    fn ended(&self, thread: u16) -> String {
        let is_last = usize::from(thread) > self.desk.threads().len();
        match self.called.input.text.is_some() || is_last {
            true => "ends".to_string(),
            false => "ends; the threads after it move down by one".to_string(),
        }
    }

    /// The thread that is new.
    fn begins(&self) -> String {
        let number = self.desk.threads().len() as u16;
        let name = self.called.thread(&self.roll, number);
        let node = self.thread(number).unwrap_or_default().node;
        format!("{name} begins at {}", self.called.place(node))
    }

    /// Why a choice was refused with this number: where its threads stand, and what is
    /// wrong with that.
    pub fn why(&self, number: u16, choice: [u16; 2]) -> String {
        let stand = self.stand(number, choice).join(", and ");
        let wrong = self.wrong(number, choice).join(", and ");
        match wrong.is_empty() {
            true => stand,
            false => format!("{stand}; {wrong}"),
        }
    }

    /// Where the threads of a choice stand that was refused with this number.
    pub fn stand(&self, number: u16, [thread, partner]: [u16; 2]) -> Vec<String> {
        let partner = Some(partner).filter(|&partner| partner != 0);
        let stands = |one| match self.thread(one) {
            None => {
                let there = names::several(self.desk.threads().len(), "thread");
                format!("there is no thread {one}: the list has {there}")
            }
            Some(thread) => {
                let name = self.called.thread(&self.roll, one);
                let more = self.more(number, &thread);
                format!("{name} stands at {}{more}", self.called.stands(&thread))
            }
        };
        [thread].into_iter().chain(partner).map(stands).collect()
    }

    /// What is wrong with where they stand, as far as that doesn't say it.
    pub fn wrong(&self, number: u16, choice: [u16; 2]) -> Vec<String> {
        match number {
            11 => self.unassigned(choice[0]).into_iter().collect(),
            13 => choice
                .map(|one| self.unpermitted(one))
                .into_iter()
                .flatten()
                .collect(),
            18 => self.unfit(choice).into_iter().collect(),
            20 => vec![self.full()],
            _ => Vec::new(),
        }
    }

    /// That the role which a thread would put on is none of its user's.
    fn unassigned(&self, one: u16) -> Option<String> {
        let thread = self.thread(one)?;
        let [_, role, _] = self.called.node(thread.node);
        let (role, user) = (self.called.role(role), self.called.value(thread.user));
        let has = self.called.each_role(self.called.assigned(thread.user));
        Some(format!(
            "{role} isn't a role of {user} (roles of {user}: {has})"
        ))
    }

    /// That no role that a thread holds permits its step, with its name.
    fn unpermitted(&self, one: u16) -> Option<String> {
        let name = self.called.thread(&self.roll, one);
        Some(format!("{name} {}", self.lacking(one)?))
    }

    /// That no role that a thread holds permits its step, and which roles would.
    pub fn lacking(&self, one: u16) -> Option<String> {
        let thread = self.thread(one)?;
        let [tag, f1, _] = self.called.node(thread.node);
        let act = match tag {
            5 => "receive",
            6 => "send",
            _ => return None,
        };
        let kind = self.kind(&thread, f1)?;
        let may = self.called.permitting(tag, kind);
        let roles = self.called.each_role(may);
        let kind = self.called.kind(kind);
        (thread.mask & may == 0)
            .then(|| format!("holds no role that may {act} on {kind} (roles that may: {roles})"))
    }

    /// Whether the file has no on or off yet, and a thread stands still for want of a role.
    pub fn is_unplaced(&self) -> bool {
        let mut all = 1..=self.desk.threads().len() as u16;
        self.called.is_bare() && all.any(|one| self.lacking(one).is_some())
    }

    /// The kind of the channel that an operand of a thread's step names.
    fn kind(&self, thread: &Thread, word: u16) -> Option<u16> {
        let value = match word {
            512..=519 => thread.vars[usize::from(word - 512)],
            _ => word,
        };
        match value {
            named @ 257..=320 => self.called.kind_of(named - 256),
            made @ 385..=448 => {
                let channel = self.desk.made().nth(usize::from(made - 385))?;
                Some(channel.kind)
            }
            _ => None,
        }
    }

    /// Why the threads of a choice, which are there, can't do it from where they stand.
    fn unfit(&self, [thread, partner]: [u16; 2]) -> Option<String> {
        let tag = |one| Some(self.called.node(self.thread(one)?.node)[0]);
        let listed = |one| self.called.listed(&self.roll, one);
        let sends = "a send takes a partner that stands at a receive";
        match (tag(thread)?, tag(partner)) {
            (6, None) if partner == 0 => Some(format!("{sends}: {} -> T", listed(thread))),
            (6, Some(_)) => Some(sends.to_string()),
            (5, Some(6)) => {
                let [sender, receiver] = [partner, thread].map(listed);
                Some(format!("the sender is named first: {sender} -> {receiver}"))
            }
            (5, _) => Some(format!(
                "a receive is not named first, its sender is: T -> {}",
                listed(thread)
            )),
            (0..=4 | 7 | 8, _) => {
                let alone = self.choice(thread, 0);
                Some(format!("a step that is no send takes no partner: {alone}"))
            }
            _ => None,
        }
    }

    /// How many threads there are, and how many made channels, where that is too many.
    fn full(&self) -> String {
        let threads = names::several(self.desk.threads().len(), "thread");
        let made = names::several(self.desk.made().len(), "made channel");
        format!("there are {threads} and {made}: at most 64 of each")
    }

    /// The roles that a thread holds where these are wrong, and the values where those are.
    fn more(&self, number: u16, thread: &Thread) -> String {
        let [tag, f1, f2] = self.called.node(thread.node);
        let operand = |word| self.called.operand(thread, word);
        match (number, tag) {
            (12 | 13, _) => format!(", holds {}", self.called.roles(thread.mask)),
            (19, 4) => format!(", compares {} with {}", operand(f1), operand(f2)),
            (19, 5) => format!(", receives on {}", operand(f1)),
            (19, 6) => format!(", sends on {}", operand(f1)),
            _ => String::new(),
        }
    }
}
