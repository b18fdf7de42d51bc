//! Names in a file of their own, with a sum of the routine that they were written for.

use crate::line::{self, unless_flawed, Flaw, Line, MOST_FLAWS};
use crate::names::Names;
use crate::records::{Node, Records, FORK, OFF, ON};
use crate::words::Cursor;
use crate::Packed;

/// Names that are lent to a file of bytes.
#[derive(Clone, Debug, Default, PartialEq, Eq)]
pub struct Lent {
    pub names: Names,
    /// The sum of the records that they name; older files of names have none.
    pub sum: Option<u64>,
}

impl Lent {
    /// The names of a text, with its sum.
    pub fn of(packed: &Packed) -> Lent {
        Lent {
            names: packed.names.clone(),
            sum: Some(sum(&packed.records)),
        }
    }

    /// The file of names, to be kept beside a file of bytes.
    pub fn text(&self) -> String {
        let text = self.names.text();
        match (self.sum, text.split_once('\n')) {
            (Some(sum), Some((first, rest))) => format!("{first}\nsum {}\n{rest}", hex(sum)),
            _ => text,
        }
    }

    /// Reads such a file. Whether the names fit a file of bytes is seen when they are used.
    pub fn read(text: &str) -> Result<Lent, Vec<Flaw>> {
        let (lines, mut flaws) = line::lines(text);
        let mut lent = Lent::default();
        let mut limited = Vec::new();
        for (index, line) in lines.iter().enumerate() {
            if flaws.len() > 2 * MOST_FLAWS {
                break;
            }
            let read = match index {
                0 => first(line),
                _ if Cursor::new(line).takes("role") => {
                    limited.push(line);
                    Ok(())
                }
                _ => lent.add(line),
            };
            flaws.extend(read.err());
        }
        // A role's line may stand above that with its name.
        flaws.extend(lent.names.limit_all(&limited));
        flaws.sort_by_key(|flaw| (flaw.at.line, flaw.at.column));
        unless_flawed(lent, flaws)
    }

    fn add(&mut self, line: &Line) -> Result<(), Flaw> {
        let mut cursor = Cursor::new(line);
        if !cursor.takes("sum") {
            return self.names.add(line);
        }
        if self.sum.is_some() {
            let what = "a second sum".to_string();
            return Err(Flaw {
                at: line.at(),
                what,
            });
        }
        let digits = |text: &str| text.len() == 16 && text.bytes().all(|b| b.is_ascii_hexdigit());
        let token = cursor.token().filter(|token| digits(&token.text));
        let sum = token.and_then(|token| u64::from_str_radix(&token.text, 16).ok());
        let Some(sum) = sum else {
            return cursor.expected("a sum: 16 digits from 0 to 9 and a to f");
        };
        self.sum = Some(sum);
        cursor.skip();
        cursor.end()
    }

    /// That these are the names of another routine, or of the same in another order; none if
    /// their sum is that of the records, or they have none.
    pub fn other(&self, records: &Records) -> Option<String> {
        let (theirs, due) = (self.sum?, sum(records));
        (theirs != due).then(|| {
            let [theirs, due] = [theirs, due].map(hex);
            format!("their sum is {theirs}, and the file's is {due}")
        })
    }
}

fn first(line: &Line) -> Result<(), Flaw> {
    let mut cursor = Cursor::new(line);
    cursor.word("names")?;
    cursor.end()
}

fn hex(sum: u64) -> String {
    format!("{sum:016x}")
}

/// A sum of all that names depend on: FNV-1a of 64 bits over the records' words. Placing and
/// turning don't change it: it leaves out the version, `on` and `off`, roots and second
/// children.
pub fn sum(records: &Records) -> u64 {
    let counts = [
        records.users.len(),
        records.roles.len(),
        records.kinds.len(),
        records.channels.len(),
        records.sessions.len(),
    ];
    let mut words: Vec<u16> = counts.iter().map(|&count| count as u16).collect();
    words.extend(&records.users);
    for role in &records.roles {
        let [sends, receives] =
            [role.sends, role.receives].map(|mask| [mask as u16, (mask >> 16) as u16]);
        words.extend([sends, receives].concat());
        words.push(role.juniors);
    }
    words.extend(&records.kinds);
    words.extend(records.channels.iter().flat_map(|c| [c.owner, c.kind]));
    words.extend(records.sessions.iter().flat_map(|s| [s.user, s.mask]));
    words.extend(records.nodes.iter().flat_map(step));
    words
        .into_iter()
        .flat_map(u16::to_le_bytes)
        .fold(BASIS, |sum, byte| {
            (sum ^ u64::from(byte)).wrapping_mul(PRIME)
        })
}

/// FNV-1a's own numbers.
const BASIS: u64 = 0xcbf2_9ce4_8422_2325;
const PRIME: u64 = 0x0100_0000_01b3;

/// The words of a node that stay as they are when it is placed.
fn step(node: &Node) -> Vec<u16> {
    match *node {
        [ON | OFF, ..] => Vec::new(),
        [FORK, ..] => vec![FORK, 0, 0],
        node => node.to_vec(),
    }
}
