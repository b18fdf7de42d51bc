//! A session's steps, which are a tree by their indentation.

use crate::line::{shown, At, Flaw, Line};
use crate::pack::{known, NodeAt};
use crate::records::{Node, MOST, VARIABLES};
use crate::records::{COMPARE, END, FORK, NEW, OFF, ON, RECEIVE, REPEAT, SEND};
use crate::tables::{listed, Tables};
use crate::words::Cursor;
use std::collections::HashMap;

/// What a block of lines stands under.
#[derive(Clone, Copy, Debug, PartialEq)]
enum Opener {
    Session,
    /// The fork's index among the session's nodes, and how many branches it has.
    Fork {
        node: usize,
        branches: usize,
    },
    Branch,
    Repeat,
}

/// Lines of one indentation.
#[derive(Debug)]
struct Block {
    opener: Opener,
    /// The line it stands under.
    under: At,
    /// How far that line is indented.
    outer: usize,
    /// How far its own lines are, once there is one.
    inner: Option<usize>,
    /// Its last line so far.
    last: Option<At>,
    /// The fork or repeat that ends it.
    ended: Option<&'static str>,
    /// How many variables are bound above it.
    bound_above: usize,
}

/// The variables that are bound on the path to a line.
#[derive(Default)]
struct Bound {
    names: Vec<String>,
    /// The index of each.
    numbers: HashMap<String, usize>,
}

impl Bound {
    fn number(&self, name: &str) -> Option<usize> {
        self.numbers.get(name).copied()
    }

    /// Binds one that isn't bound.
    fn add(&mut self, name: &str) {
        self.numbers.insert(name.to_string(), self.names.len());
        self.names.push(name.to_string());
    }

    /// Forgets all but the first.
    fn cut(&mut self, kept: usize) {
        for name in self.names.drain(kept..) {
            self.numbers.remove(&name);
        }
    }
}

/// A session's nodes while its lines are read.
pub struct Blocks<'a> {
    tables: &'a Tables,
    /// How many nodes stand before these.
    before: usize,
    open: Vec<Block>,
    bound: Bound,
    /// Whether a line was indented by a tab, which has a message of its own.
    tabbed: bool,
    /// Whether the lines from here on can't be judged because of that tab.
    lost: bool,
    grown: Grown,
}

/// A session's nodes.
#[derive(Default)]
pub struct Grown {
    pub nodes: Vec<Node>,
    pub places: Vec<NodeAt>,
    /// The variables, in the order of the nodes that bind them.
    pub variables: Vec<String>,
    pub flaws: Vec<Flaw>,
}

impl<'a> Blocks<'a> {
    /// The steps under this line.
    pub fn new(tables: &'a Tables, before: usize, session: &Line) -> Blocks<'a> {
        let mut blocks = Blocks {
            tables,
            before,
            open: Vec::new(),
            bound: Bound::default(),
            tabbed: false,
            lost: false,
            grown: Grown::default(),
        };
        blocks.open(Opener::Session, session);
        blocks
    }

    fn open(&mut self, opener: Opener, line: &Line) {
        self.open.push(Block {
            opener,
            under: line.at(),
            outer: line.indent,
            inner: None,
            last: None,
            ended: None,
            bound_above: self.bound.names.len(),
        });
    }

    /// The innermost block; the session's own stays open to the end.
    fn block(&mut self) -> &mut Block {
        self.open.last_mut().expect("the session's block is open")
    }

    fn flaw(&mut self, at: At, what: String) {
        if !self.lost {
            self.grown.flaws.push(Flaw { at, what });
        }
    }

    /// How many flaws were found.
    pub fn flaws(&self) -> usize {
        self.grown.flaws.len()
    }

    /// Reads one line.
    pub fn step(&mut self, line: &Line) {
        self.tabbed |= line.tabbed;
        if self.lost || !self.find_block(line) {
            return;
        }
        if let Some(word) = self.block().ended {
            self.flaw(
                line.at(),
                match word {
                    "fork" => "nothing follows a fork: what comes after it stands in its branches",
                    _ => "nothing follows a repeat: what is repeated stands under it, indented",
                }
                .to_string(),
            );
            return;
        }
        let read = match self.block().opener {
            Opener::Fork { .. } => self.branch(line),
            _ => self.node(line),
        };
        self.grown.flaws.extend(read.err());
    }

    /// Closes the blocks that the line doesn't stand in. Says whether its indentation
    /// is that of a block.
    fn find_block(&mut self, line: &Line) -> bool {
        while self.open.len() > 1 {
            let block = self.block();
            let inside = match block.inner {
                Some(inner) => line.indent >= inner,
                None => line.indent > block.outer,
            };
            if inside {
                break;
            }
            self.close_block();
        }
        let block = self.block();
        let inner = *block.inner.get_or_insert(line.indent);
        if inner == line.indent {
            return true;
        }
        self.lost = self.tabbed;
        let deeper = "indented deeper than the steps above it: only what stands under session, branch, fork or repeat is";
        let what = match line.indent > inner {
            true => deeper.to_string(),
            false => format!("indented by {}, where {inner} is due", line.indent),
        };
        self.flaw(line.at(), what);
        false
    }

    /// Closes the innermost block.
    fn close_block(&mut self) {
        let Some(block) = self.open.pop() else {
            return;
        };
        self.bound.cut(block.bound_above);
        match block.opener {
            Opener::Fork { branches: 2.., .. } => (),
            Opener::Fork { branches, .. } => {
                let what = format!("a fork has two branches; this one has {branches}");
                self.flaw(block.under, what);
            }
            _ if block.ended.is_some() => (),
            _ => {
                let indent = block.inner.unwrap_or(block.outer + 2);
                let place = NodeAt {
                    at: block.last.unwrap_or(block.under),
                    indent,
                    behind: true,
                };
                self.push([END, 0, 0], place);
            }
        }
    }

    /// Closes all.
    pub fn close(mut self) -> Grown {
        while !self.open.is_empty() {
            self.close_block();
        }
        self.grown
    }

    fn push(&mut self, node: Node, place: NodeAt) {
        if self.before + self.grown.nodes.len() == MOST[5] {
            let most =
                "one node too many: a clinic has at most 1,024, the end of each branch counted";
            self.flaw(place.at, most.to_string());
        }
        self.grown.nodes.push(node);
        self.grown.places.push(place);
    }

    /// A line under a fork.
    fn branch(&mut self, line: &Line) -> Result<(), Flaw> {
        let mut cursor = Cursor::new(line);
        cursor.word("branch")?;
        let number = (self.before + self.grown.nodes.len() + 1) as u16;
        let Opener::Fork { node, branches } = &mut self.block().opener else {
            return Ok(());
        };
        *branches += 1;
        let (node, branches) = (*node, *branches);
        match branches {
            1 => (),
            2 => self.grown.nodes[node][1] = number,
            _ => self.flaw(
                line.at(),
                "a fork has two branches; this is one more".to_string(),
            ),
        }
        self.open(Opener::Branch, line);
        cursor.end()
    }

    /// A line that is a node.
    fn node(&mut self, line: &Line) -> Result<(), Flaw> {
        let mut cursor = Cursor::new(line);
        let word = cursor.peek().unwrap_or_default();
        cursor.skip();
        let place = NodeAt {
            at: line.at(),
            indent: line.indent,
            behind: false,
        };
        let index = self.grown.nodes.len();
        self.block().last = Some(line.at());
        match word {
            "fork" | "repeat" => {
                let (tag, opener, word) = match word {
                    "fork" => (
                        FORK,
                        Opener::Fork {
                            node: index,
                            branches: 0,
                        },
                        "fork",
                    ),
                    _ => (REPEAT, Opener::Repeat, "repeat"),
                };
                self.push([tag, 0, 0], place);
                self.block().ended = Some(word);
                self.open(opener, line);
                return cursor.end();
            }
            "branch" => {
                let what = "a branch stands under a fork, indented".to_string();
                return Err(Flaw {
                    at: line.at(),
                    what,
                });
            }
            _ => (),
        }
        // Its place in the tree is kept even if its words can't be understood.
        self.push([END, 0, 0], place);
        let node = match word {
            "new" => self.binder(&mut cursor, |blocks, cursor| {
                cursor.word(":")?;
                Ok([NEW, known(cursor, &blocks.tables.kinds)? as u16, 0])
            }),
            "receive" => self.binder(&mut cursor, |blocks, cursor| {
                cursor.word("on")?;
                Ok([RECEIVE, blocks.operand(cursor, "a channel")?, 0])
            }),
            "compare" => {
                let one = self.operand(&mut cursor, "a user, channel or variable")?;
                cursor.word("with")?;
                let other = self.operand(&mut cursor, "a user, channel or variable")?;
                Ok([COMPARE, one, other])
            }
            "send" => {
                let value = self.operand(&mut cursor, "a user, channel or variable")?;
                cursor.word("on")?;
                Ok([SEND, self.operand(&mut cursor, "a channel")?, value])
            }
            "on" => known(&mut cursor, &self.tables.roles).map(|role| [ON, role as u16, 0]),
            "off" => known(&mut cursor, &self.tables.roles).map(|role| [OFF, role as u16, 0]),
            _ => Cursor::new(line).expected(
                "a step ('send', 'receive', 'new', 'compare', 'fork', 'repeat', 'on' or 'off')",
            ),
        };
        self.grown.nodes[index] = node?;
        cursor.end()
    }

    /// A node that binds a variable. It is bound even if the rest of the line is wrong.
    fn binder(
        &mut self,
        cursor: &mut Cursor,
        rest: impl Fn(&Self, &mut Cursor) -> Result<Node, Flaw>,
    ) -> Result<Node, Flaw> {
        let token = cursor.name("a name for the variable")?;
        let node = rest(self, cursor);
        let name = &token.text;
        let known = if self.bound.number(name).is_some() {
            Some("variable above it")
        } else if self.tables.users.number(name).is_some() {
            Some("user")
        } else if self.tables.channels.number(name).is_some() {
            Some("channel")
        } else {
            None
        };
        let flaw = |what| Err(Flaw { at: token.at, what });
        if let Some(one) = known {
            return flaw(format!("'{}' is the name of a {one} already", shown(name)));
        }
        self.bound.add(name);
        self.grown.variables.push(name.clone());
        if self.bound.names.len() > VARIABLES {
            return flaw("a ninth variable: at most 8 are bound on the way to a step".to_string());
        }
        node
    }

    /// What an operand stands for.
    fn operand(&self, cursor: &mut Cursor, what: &str) -> Result<u16, Flaw> {
        let token = cursor.name(what)?;
        let name = &token.text;
        if let Some(variable) = self.bound.number(name) {
            return Ok((512 + variable) as u16);
        }
        if let Some(user) = self.tables.users.number(name) {
            return Ok(user as u16);
        }
        if let Some(channel) = self.tables.channels.number(name) {
            return Ok((256 + channel) as u16);
        }
        let bound = match &self.bound.names[..] {
            [] => "no variable is bound here".to_string(),
            bound => format!("variables bound here: {}", listed(bound)),
        };
        Err(Flaw {
            at: token.at,
            what: format!(
                "there is no user, channel or variable '{}' here ({bound})",
                shown(name)
            ),
        })
    }
}
