//! Text to bytes.

use crate::blocks::Blocks;
use crate::limits::{self, Limits};
use crate::line::{self, shown, unless_flawed, At, Flaw, Line, MOST_FLAWS};
use crate::names::{Names, SessionNames};
use crate::records::{bit, Channel, Records, Role, Version};
use crate::tables::{Table, Tables};
use crate::words::Cursor;

/// What a text says.
#[derive(Clone, Debug)]
pub struct Packed {
    pub records: Records,
    pub names: Names,
    pub source: Source,
}

impl Packed {
    /// The file.
    pub fn bytes(&self) -> Vec<u8> {
        self.records.bytes()
    }
}

/// Where each record stands in the text.
#[derive(Clone, Debug, Default)]
pub struct Source {
    /// The line `clinic`.
    pub clinic: At,
    /// The names of the records.
    pub kinds: Vec<At>,
    pub roles: Vec<At>,
    pub users: Vec<At>,
    pub channels: Vec<At>,
    pub sessions: Vec<At>,
    /// The juniors of each role, and the roles that each session starts with.
    pub juniors: Vec<Vec<At>>,
    pub starts: Vec<Vec<At>>,
    pub nodes: Vec<NodeAt>,
}

/// Where a node stands.
#[derive(Clone, Copy, Debug)]
pub struct NodeAt {
    /// Its step; of an end, which has no words, the step or the line above it.
    pub at: At,
    /// How far its steps are indented.
    pub indent: usize,
    /// Whether it is an end, so that its place is after its line.
    pub behind: bool,
}

/// What a text says, or all that can't be understood in it.
pub fn pack(text: &str) -> Result<Packed, Vec<Flaw>> {
    let (lines, mut flaws) = line::lines(text);
    let tables = Tables::of(&lines, &mut flaws);
    let mut reader = Reader {
        tables: &tables,
        records: Records::default(),
        names: Names {
            kinds: tables.kinds.only_names(),
            roles: tables.roles.only_names(),
            limits: Vec::new(),
            users: tables.users.only_names(),
            channels: tables.channels.only_names(),
            sessions: Vec::new(),
        },
        source: Source {
            kinds: places(&tables.kinds),
            roles: places(&tables.roles),
            users: places(&tables.users),
            channels: places(&tables.channels),
            sessions: places(&tables.sessions),
            ..Source::default()
        },
        flaws,
    };
    reader.read(&lines);
    let mut flaws = reader.flaws;
    flaws.sort_by_key(|flaw| (flaw.at.line, flaw.at.column));
    flaws.dedup();
    let packed = Packed {
        records: reader.records,
        names: reader.names,
        source: reader.source,
    };
    unless_flawed(packed, flaws)
}

fn places(table: &Table) -> Vec<At> {
    table.names.iter().map(|&(_, at)| at).collect()
}

struct Reader<'a> {
    tables: &'a Tables,
    records: Records,
    names: Names,
    source: Source,
    flaws: Vec<Flaw>,
}

impl Reader<'_> {
    fn read(&mut self, lines: &[Line]) {
        let Some((first, rest)) = lines.split_first() else {
            self.flaws.push(Flaw {
                at: At {
                    line: 1,
                    column: 1,
                    width: 1,
                },
                what: "expected 'clinic' and a version, but the text says nothing".to_string(),
            });
            return;
        };
        self.source.clinic = first.at();
        let version = version(first);
        match version {
            Ok(version) => self.records.version = version,
            Err(flaw) => self.flaws.push(flaw),
        }
        let (mut rest, most) = (rest, self.flaws.len() + MOST_FLAWS);
        while let Some((line, behind)) = rest.split_first() {
            if self.flaws.len() > most {
                break;
            }
            let steps = behind.iter().take_while(|line| line.indent > 0).count();
            let (steps, behind) = behind.split_at(steps);
            self.statement(line, steps);
            rest = behind;
        }
    }

    /// A line at the margin, and those that are indented below it.
    fn statement(&mut self, line: &Line, steps: &[Line]) {
        let mut cursor = Cursor::new(line);
        let word = cursor.peek().unwrap_or_default();
        if self.records.version == Version::Nothing && self.flaws.is_empty() {
            self.flaw(line, "a clinic with nothing planned has no lines");
            return;
        }
        if line.indent > 0 {
            self.flaw(line, "indented, and no session stands above it");
            return;
        }
        cursor.skip();
        let read = match word {
            "kind" => self.kind(&mut cursor),
            "role" => self.role(&mut cursor),
            "user" => self.user(&mut cursor),
            "channel" => self.channel(&mut cursor),
            "session" => {
                let read = self.session(&mut cursor);
                self.steps(line, steps);
                read
            }
            _ => {
                let words = "'kind', 'role', 'user', 'channel' or 'session'";
                Cursor::new(line).expected(words)
            }
        };
        self.flaws.extend(read.err());
        if let (Some(step), true) = (steps.first(), word != "session") {
            self.flaw(step, "indented, and no session stands above it");
        }
    }

    fn flaw(&mut self, line: &Line, what: &str) {
        let (at, what) = (line.at(), what.to_string());
        self.flaws.push(Flaw { at, what });
    }

    fn kind(&mut self, cursor: &mut Cursor) -> Result<(), Flaw> {
        self.records.kinds.push(0);
        cursor.name("a name for the kind")?;
        if cursor.takes("carries") {
            let carried = known(cursor, &self.tables.kinds)?;
            *last(&mut self.records.kinds) = carried as u16;
            return cursor.end();
        }
        cursor.end_or("'carries' or ")
    }

    fn role(&mut self, cursor: &mut Cursor) -> Result<(), Flaw> {
        self.records.roles.push(Role::default());
        self.source.juniors.push(Vec::new());
        self.names.limits.push(Limits::default());
        cursor.name("a name for the role")?;
        if !cursor.takes(":") {
            return cursor.end_or("':' or ");
        }
        let role = last(&mut self.records.roles);
        let limits = last(&mut self.names.limits);
        let mut said: Vec<&str> = Vec::new();
        loop {
            let at = cursor.token().map(|token| token.at);
            let limit = cursor.peek().and_then(limits::begun);
            let word = match cursor.peek() {
                _ if limit.is_some() => limit.unwrap_or_default(),
                Some(word @ ("send" | "receive")) => word,
                Some(word @ "juniors") if self.records.version.has_juniors() => word,
                Some("juniors") if self.records.version == Version::One => {
                    let at = at.unwrap_or_default();
                    let what = "juniors take 'clinic 2': version 1 has none".to_string();
                    return Err(Flaw { at, what });
                }
                _ => return cursor.expected(PARTS),
            };
            if let (true, Some(at)) = (said.contains(&word), at) {
                let what = format!("'{word}' is there twice");
                return Err(Flaw { at, what });
            }
            said.push(word);
            if let Some(limit) = limit {
                limits.read(limit, cursor)?;
                if cursor.takes(";") {
                    continue;
                }
                return cursor.end_or(match limit {
                    "open" => "',' or ';' or ",
                    _ => "';' or ",
                });
            }
            cursor.skip();
            match word {
                "send" => role.sends = mask(cursor, &self.tables.kinds)?.0,
                "receive" => role.receives = mask(cursor, &self.tables.kinds)?.0,
                _ => {
                    let (juniors, places) = mask(cursor, &self.tables.roles)?;
                    role.juniors = juniors as u16;
                    *last(&mut self.source.juniors) = places;
                }
            }
            if !cursor.takes(";") {
                break;
            }
        }
        cursor.end_or("',' or ';' or ")
    }

    fn user(&mut self, cursor: &mut Cursor) -> Result<(), Flaw> {
        self.records.users.push(0);
        cursor.name("a name for the user")?;
        if !cursor.takes(":") {
            return cursor.end_or("':' or ");
        }
        let (roles, _) = mask(cursor, &self.tables.roles)?;
        *last(&mut self.records.users) = roles as u16;
        cursor.end_or("',' or ")
    }

    fn channel(&mut self, cursor: &mut Cursor) -> Result<(), Flaw> {
        self.records.channels.push(Channel::default());
        cursor.name("a name for the channel")?;
        cursor.word(":")?;
        let kind = known(cursor, &self.tables.kinds)? as u16;
        cursor.word(",")?;
        cursor.word("owner")?;
        let owner = known(cursor, &self.tables.users)? as u16;
        *last(&mut self.records.channels) = Channel { owner, kind };
        cursor.end()
    }

    fn session(&mut self, cursor: &mut Cursor) -> Result<(), Flaw> {
        let root = (self.records.nodes.len() + 1) as u16;
        self.records.sessions.push(crate::records::Session {
            user: 0,
            mask: 0,
            root,
        });
        self.names.sessions.push(SessionNames::default());
        self.source.starts.push(Vec::new());
        let name = cursor.name("a name for the session")?;
        last(&mut self.names.sessions).name = name.text.clone();
        cursor.word("by")?;
        let user = known(cursor, &self.tables.users)?;
        last(&mut self.records.sessions).user = user as u16;
        if cursor.takes("as") {
            let (roles, places) = mask(cursor, &self.tables.roles)?;
            last(&mut self.records.sessions).mask = roles as u16;
            *last(&mut self.source.starts) = places;
            return cursor.end_or("',' or ");
        }
        cursor.end_or("'as' or ")
    }

    /// A session's tree.
    fn steps(&mut self, line: &Line, steps: &[Line]) {
        let mut blocks = Blocks::new(self.tables, self.records.nodes.len(), line);
        for step in steps {
            if blocks.flaws() > MOST_FLAWS {
                break;
            }
            blocks.step(step);
        }
        let grown = blocks.close();
        self.records.nodes.extend(grown.nodes);
        self.source.nodes.extend(grown.places);
        last(&mut self.names.sessions).variables = grown.variables;
        self.flaws.extend(grown.flaws);
    }
}

/// What a part of a role's line begins with.
const PARTS: &str = "'send', 'receive', 'juniors', 'open' or a number of seats";

/// The record that was begun last.
fn last<T>(records: &mut [T]) -> &mut T {
    records.last_mut().expect("one was begun")
}

/// The version that the first line names.
fn version(line: &Line) -> Result<Version, Flaw> {
    let mut cursor = Cursor::new(line);
    if cursor.peek() != Some("clinic") {
        return cursor.expected("'clinic' and a version as the first line");
    }
    if line.indent > 0 {
        let what =
            "indented; the first line stands at the margin, without spaces before it".to_string();
        return Err(Flaw {
            at: line.at(),
            what,
        });
    }
    cursor.skip();
    if cursor.takes("nothing") {
        cursor.word("planned")?;
        cursor.end()?;
        return Ok(Version::Nothing);
    }
    let version = match cursor.peek() {
        Some("1") => Version::One,
        Some("2") => Version::Two,
        Some("3") => Version::Three,
        _ => return cursor.expected("a version (1, 2 or 3) or 'nothing planned'"),
    };
    cursor.skip();
    cursor.end()?;
    Ok(version)
}

/// The number of the record that is named next.
pub fn known(cursor: &mut Cursor, table: &Table) -> Result<usize, Flaw> {
    let token = cursor.name(&format!("a {}", table.one))?;
    table.number(&token.text).ok_or_else(|| Flaw {
        at: token.at,
        what: table.unknown(&token.text),
    })
}

/// The mask of names with commas between, and where they stand, in the order of
/// their numbers.
fn mask(cursor: &mut Cursor, table: &Table) -> Result<(u32, Vec<At>), Flaw> {
    let (mut mask, mut places) = (0, Vec::new());
    loop {
        let token = cursor.token();
        let number = known(cursor, table)?;
        let token = token.expect("a name stood there");
        // Numbers above the mask's width are complained about where they are defined.
        let bit = if number <= 32 { bit(number) } else { 0 };
        if mask & bit != 0 {
            return Err(Flaw {
                at: token.at,
                what: format!("'{}' is there twice", shown(&token.text)),
            });
        }
        mask |= bit;
        places.push((number, token.at));
        if !cursor.takes(",") {
            break;
        }
    }
    places.sort_by_key(|&(number, _)| number);
    Ok((mask, places.into_iter().map(|(_, at)| at).collect()))
}
