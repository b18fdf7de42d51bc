//! A list of threads that is lent: its start, and what must hold of it for a
//! choice.

use super::state::{count_totals, counted, made, totals};
use super::state::{BEFORE_TOTALS, BESIDE, MADE, NAMED, RECORDS};
use super::{Thread, Unfit};
use crate::file::{three, word, File, Section};
use crate::names::Context;
use crate::tree::VARIABLES;

const MOST_NODES: usize = Section::Nodes.most() as usize;

/// As many records and words as there must be.
pub struct Lent<'l> {
    pub threads: &'l mut [Thread; RECORDS],
    pub beside: &'l mut [u16; BESIDE],
}

impl<'l> Lent<'l> {
    /// Judges how many records and words there are.
    pub fn sized(threads: &'l mut [Thread], beside: &'l mut [u16]) -> Result<Lent<'l>, Unfit> {
        let threads = threads.try_into().map_err(|_| Unfit::Records)?;
        let beside = beside.try_into().map_err(|_| Unfit::Beside)?;
        Ok(Lent { threads, beside })
    }

    /// Judges how many there are of everything: the two counts must fit as well.
    pub fn of(threads: &'l mut [Thread], beside: &'l mut [u16]) -> Result<Lent<'l>, Unfit> {
        let lent = Lent::sized(threads, beside)?;
        unless(usize::from(lent.beside[0]) > RECORDS, Unfit::Threads)?;
        unless(
            usize::from(lent.beside[1]) > (BEFORE_TOTALS - 2) / 2,
            Unfit::Made,
        )?;
        Ok(lent)
    }

    /// A thread for each session, in order, at its root, no made channel, and the
    /// totals of these threads.
    pub fn start(self, file: &File) {
        for (thread, session) in self.threads.iter_mut().zip(file.sessions) {
            *thread = Thread::start(three(session));
        }
        self.beside[0] = file.sessions.len() as u16;
        self.beside[1] = 0;
        let totals = count_totals(file, self.counted(), self.beside);
        self.beside[BEFORE_TOTALS..].copy_from_slice(&totals);
    }

    pub fn counted(&self) -> &[Thread] {
        counted(self.threads, self.beside)
    }

    /// Judges the made channels, the counted threads and the totals, on a file that
    /// 1 to 10 leave clean. The scopes are those of the nodes of these threads.
    pub fn judge(&self, file: &File, scopes: &Scopes) -> Result<(), Unfit> {
        let made = made(self.beside);
        for channel in made {
            judge_made(file, channel)?;
        }
        for thread in self.counted() {
            let nodes = file.nodes.len();
            in_count(thread.node, nodes, Unfit::NodeZero, Unfit::NodeAbove)?;
            judge_thread(file, made, thread, scopes.at(thread.node))?;
        }
        let due = count_totals(file, self.counted(), self.beside);
        let of_file = file.kinds.len();
        let lent = totals(self.beside);
        unless(lent[..of_file] != due[..of_file], Unfit::Total)?;
        unless(lent[of_file..] != due[of_file..], Unfit::TotalAbove)
    }
}

fn judge_made(file: &File, &[owner, kind]: &[u16; 2]) -> Result<(), Unfit> {
    let (users, kinds) = (file.users.len(), file.kinds.len());
    in_count(owner, users, Unfit::OwnerZero, Unfit::OwnerAbove)?;
    in_count(kind, kinds, Unfit::KindZero, Unfit::KindAbove)
}

/// Judges a thread by what holds at its node.
fn judge_thread(
    file: &File,
    made: &[[u16; 2]],
    thread: &Thread,
    scope: &Scope,
) -> Result<(), Unfit> {
    unless(thread.user != scope.user, Unfit::User)?;
    unless(thread.mask & !scope.assigned != 0, Unfit::Mask)?;
    let (bound, unbound) = thread.variables.split_at(scope.bound);
    for (&value, &kind) in bound.iter().zip(&scope.kinds) {
        judge_value(kind_of(file, made, value), kind)?;
    }
    unless(unbound.iter().any(|&value| value != 0), Unfit::Unbound)
}

fn unless(wrong: bool, unfit: Unfit) -> Result<(), Unfit> {
    if wrong {
        return Err(unfit);
    }
    Ok(())
}

fn in_count(item: u16, count: usize, zero: Unfit, above: Unfit) -> Result<(), Unfit> {
    unless(item == 0, zero)?;
    unless(usize::from(item) > count, above)
}

/// The kind of a variable's value, 0 for a user; none if it is nothing.
fn kind_of(file: &File, made: &[[u16; 2]], value: u16) -> Option<u16> {
    let value_at = |first: u16| usize::from(value - first);
    match value {
        MADE.. => made.get(value_at(MADE)).map(|&[_, kind]| kind),
        NAMED.. => {
            let channel = file.channels.get(value_at(NAMED));
            channel.map(|channel| word(channel, 1))
        }
        1.. => file.users.get(value_at(1)).map(|_| 0),
        0 => None,
    }
}

/// Judges what a bound variable holds by the kind that rule 1 gives it.
fn judge_value(found: Option<u16>, due: u16) -> Result<(), Unfit> {
    match found {
        Some(found) if found == due => Ok(()),
        None => Err(Unfit::Nothing),
        Some(0) => Err(Unfit::PlainForChannel),
        Some(_) if due == 0 => Err(Unfit::ChannelForPlain),
        Some(_) => Err(Unfit::OtherKind),
    }
}

/// What a thread at a node must be like.
#[derive(Clone, Copy, Default)]
struct Scope {
    user: u16,
    assigned: u16,
    /// How many variables are bound above the node, and of which kinds.
    bound: usize,
    kinds: [u16; VARIABLES as usize],
}

/// The scopes of the nodes at which some threads stand.
pub struct Scopes {
    /// The number of one thread at each node, 0 where there is none.
    stands: [u8; MOST_NODES],
    /// By these numbers, from 1.
    scopes: [Scope; RECORDS],
}

impl Scopes {
    /// Takes down where the threads stand; the file is yet to be gone through.
    pub fn of(threads: &[Thread]) -> Scopes {
        let mut stands = [0; MOST_NODES];
        for (number, thread) in (1..).zip(threads) {
            if let Some(stands) = stands.get_mut(usize::from(thread.node).wrapping_sub(1)) {
                *stands = number;
            }
        }
        Scopes {
            stands,
            scopes: [Scope::default(); RECORDS],
        }
    }

    /// Takes down what holds as a node is reached, if a thread stands there.
    pub fn note(&mut self, node: u16, context: &Context) {
        let Some(at) = self.index(node) else { return };
        let scope = &mut self.scopes[at];
        scope.user = context.user;
        scope.assigned = context.assigned;
        for (slot, kind) in scope.kinds.iter_mut().zip(context.kinds()) {
            *slot = kind;
            scope.bound += 1;
        }
    }

    fn at(&self, node: u16) -> &Scope {
        &self.scopes[self.index(node).expect("a thread stands there")]
    }

    fn index(&self, node: u16) -> Option<usize> {
        usize::from(self.stands[usize::from(node) - 1]).checked_sub(1)
    }
}
