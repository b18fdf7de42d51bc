//! Names, kinds and roles, node by node: refusals 9 to 13.

use crate::cause::{Cause, Refusal};
use crate::file::{three, word, File};
use crate::nodes::{in_layout, Layout};
use crate::roles::{self, Act, Grants, Whose};
use crate::tree::VARIABLES;

/// A sound file of 1,024 nodes has at most 511 forks that wait.
const MOST_FORKS: usize = 511;

/// What a binder bound; kind 0 is a plain value.
#[derive(Clone, Copy, Default)]
struct Variable {
    kind: u16,
    made: bool,
}

/// What a fork's two branches each go on with. The variables themselves need
/// no copy: a branch writes only above the fork's own.
#[derive(Clone, Copy, Default)]
struct Point {
    bound: usize,
    active: u16,
}

/// What the names at a node mean, and whose roles are asked for.
pub struct Context<'a> {
    file: &'a File<'a>,
    pub user: u16,
    pub assigned: u16,
    variables: [Variable; VARIABLES as usize],
    point: Point,
    /// Whether the node stands in a fork's second branch.
    pub second: bool,
}

/// Judges 9 and 10 on a file that 1 to 8 leave clean.
pub fn judge(file: &File) -> Result<(), Refusal> {
    each_act(file, |_, _, _| {})
}

/// Judges 9 to 13, and 24, on a file that 1 to 8 leave clean, where these roles are
/// open. A 9 or 10 anywhere comes before all others.
pub fn judge_with_roles(file: &File, open: u16) -> Result<(), Refusal> {
    let grants = Grants::of(file);
    let mut first_of_roles = Ok(());
    each_act(file, |context, place, act| {
        if first_of_roles.is_ok() {
            let acted = context.act(&grants, open, act);
            first_of_roles = acted.map_err(|cause| Refusal { cause, place });
        }
    })?;
    first_of_roles
}

/// Judges 9 and 10 on a file that 1 to 8 leave clean, and shows each act with
/// the place of its node.
pub fn each_act(file: &File, show: impl FnMut(&mut Context, u16, Act)) -> Result<(), Refusal> {
    go_through(file, |_, _| {}, show)
}

/// Judges 9 and 10 on a file that 1 to 8 leave clean, and shows what holds as
/// each node is reached.
pub fn each_node(file: &File, reach: impl FnMut(&Context, u16)) -> Result<(), Refusal> {
    go_through(file, reach, |_, _, _| {})
}

fn go_through(
    file: &File,
    reach: impl FnMut(&Context, u16),
    show: impl FnMut(&mut Context, u16, Act),
) -> Result<(), Refusal> {
    in_layout!(file.nodes, nodes => go_through_in(file, nodes, reach, show))
}

fn go_through_in(
    file: &File,
    nodes: impl Layout,
    mut reach: impl FnMut(&Context, u16),
    mut show: impl FnMut(&mut Context, u16, Act),
) -> Result<(), Refusal> {
    let mut context = Context::new(file);
    let mut sessions = file.sessions.iter();
    let mut at_root = true;
    let mut waiting = [Point::default(); MOST_FORKS];
    let mut open = 0;
    for (place, [tag, f1, f2]) in nodes.numbered() {
        if at_root {
            context.enter(sessions.next().expect("a session for each root"));
            at_root = false;
        }
        reach(&context, place);
        match tag {
            0 if open == 0 => at_root = true,
            0 => {
                open -= 1;
                context.point = waiting[open];
                context.second = true;
            }
            1 => {
                waiting[open] = context.point;
                open += 1;
            }
            _ => {
                let judged = context.judge(tag, f1, f2);
                if let Some(act) = judged.map_err(|cause| Refusal { cause, place })? {
                    show(&mut context, place, act);
                }
            }
        }
    }
    Ok(())
}

impl<'a> Context<'a> {
    fn new(file: &'a File<'a>) -> Context<'a> {
        Context {
            file,
            user: 0,
            assigned: 0,
            variables: Default::default(),
            point: Point::default(),
            second: false,
        }
    }

    /// Goes to the root of a session's tree.
    fn enter(&mut self, session: &[u8; 6]) {
        let [user, active, _] = three(session);
        self.user = user;
        self.assigned = word(&self.file.users[usize::from(user) - 1], 0);
        self.point = Point { bound: 0, active };
        self.second = false;
    }

    /// The kinds of the variables that are bound.
    pub fn kinds(&self) -> impl Iterator<Item = u16> + '_ {
        let bound = &self.variables[..self.point.bound];
        bound.iter().map(|variable| variable.kind)
    }

    /// Judges a node with one child, binds its variable, and says what it
    /// asks of the roles.
    fn judge(&mut self, tag: u16, f1: u16, f2: u16) -> Result<Option<Act>, Cause> {
        match tag {
            3 => {
                let kinds = self.file.kinds.len();
                in_count(f1, kinds, Cause::NewKindZero, Cause::NewKindAbove)?;
                self.bind(f1, true);
                Ok(None)
            }
            4 => match (self.kind_of(f1)?, self.kind_of(f2)?) {
                (one, other) if one == other => Ok(None),
                (0, _) | (_, 0) => Err(Cause::ComparePlain),
                _ => Err(Cause::CompareKinds),
            },
            5 => {
                let kind = self.kind_of(f1)?;
                self.may_receive_on(f1, kind)?;
                self.bind(self.carried_by(kind), false);
                Ok(Some(Act::Receive { kind }))
            }
            6 => {
                let (kind, value) = (self.kind_of(f1)?, self.kind_of(f2)?);
                if kind == 0 {
                    return Err(Cause::SendOnPlain);
                }
                if value != self.carried_by(kind) {
                    return Err(Cause::SendWrongKind);
                }
                Ok(Some(Act::Send { kind }))
            }
            7 => {
                let roles = self.file.roles.len();
                in_count(f1, roles, Cause::OnRoleZero, Cause::OnRoleAbove)?;
                Ok(Some(Act::On { role: f1 }))
            }
            8 => {
                let roles = self.file.roles.len();
                in_count(f1, roles, Cause::OffRoleZero, Cause::OffRoleAbove)?;
                Ok(Some(Act::Off { role: f1 }))
            }
            _ => Ok(None),
        }
    }

    /// The kind of what an operand names, 0 for a plain value.
    fn kind_of(&self, operand: u16) -> Result<u16, Cause> {
        let at = usize::from(operand);
        match operand {
            1..=32 if at <= self.file.users.len() => Ok(0),
            1..=32 => Err(Cause::UserOperandAbove),
            257..=320 => match self.file.channels.get(at - 257) {
                Some(channel) => Ok(word(channel, 1)),
                None => Err(Cause::ChannelOperandAbove),
            },
            385..=448 => Err(Cause::MadeChannel),
            512..=519 if at - 512 < self.point.bound => Ok(self.variables[at - 512].kind),
            512..=519 => Err(Cause::Unbound),
            _ => Err(Cause::NoName),
        }
    }

    /// Rule 3, for an operand that names something of this kind.
    fn may_receive_on(&self, operand: u16, kind: u16) -> Result<(), Cause> {
        let at = usize::from(operand);
        match operand {
            257..=320 if word(&self.file.channels[at - 257], 0) == self.user => Ok(()),
            257..=320 => Err(Cause::ReceiveOnOthers),
            512..=519 if self.variables[at - 512].made => Ok(()),
            512..=519 if kind == 0 => Err(Cause::ReceiveOnPlainVariable),
            512..=519 => Err(Cause::ReceiveOnReceived),
            _ => Err(Cause::ReceiveOnUser),
        }
    }

    fn carried_by(&self, kind: u16) -> u16 {
        word(&self.file.kinds[usize::from(kind) - 1], 0)
    }

    fn bind(&mut self, kind: u16, made: bool) {
        self.variables[self.point.bound] = Variable { kind, made };
        self.point.bound += 1;
    }

    /// Rules 5 and 6, where these roles are open.
    fn act(&mut self, grants: &Grants, open: u16, act: Act) -> Result<(), Cause> {
        let whose = Whose {
            assigned: self.assigned,
            open,
            second: self.second,
        };
        self.point.active = roles::step(grants, whose, self.point.active, act)?;
        Ok(())
    }
}

fn in_count(item: u16, count: usize, zero: Cause, above: Cause) -> Result<(), Cause> {
    match usize::from(item) {
        0 => Err(zero),
        item if item > count => Err(above),
        _ => Ok(()),
    }
}
