//! Standard output, standard error, and where else what is made may go.

use crate::source::{reason, shown, Identity, Source};
use crate::writing::{self, Written};
use crate::WrongUse;
use std::io::{self, ErrorKind, IsTerminal, Write};
use std::path::PathBuf;

/// Where what is made is to go.
pub struct Out {
    /// None is standard output.
    pub path: Option<PathBuf>,
    /// Whether it may go over an input.
    pub force: bool,
}

impl Out {
    /// How messages name it.
    fn name(&self) -> String {
        match &self.path {
            Some(path) => shown(path),
            None => "standard output".to_string(),
        }
    }

    /// Whether both lead to one file, which need not be there yet.
    pub fn is_same(&self, other: &Out) -> bool {
        let [one, other] = [self, other].map(|out| out.path.as_deref());
        let [Some(one), Some(other)] = [one, other] else {
            return false;
        };
        let identity = Identity::of_path(one);
        let there = identity.is_some() && identity == Identity::of_path(other);
        let place = writing::place(one);
        there || (place.is_some() && place == writing::place(other))
    }

    /// Behind what was done: where it went, if that is a file. The word before its name.
    pub fn told(&self, word: &str) -> String {
        match &self.path {
            Some(_) => format!("{word} {}", self.name()),
            None => String::new(),
        }
    }
}

/// Writes to standard output. A reader that has left is reported as any other failure.
pub fn print(bytes: &[u8]) -> Result<(), WrongUse> {
    let mut out = io::stdout().lock();
    let printed = out.write_all(bytes).and_then(|()| out.flush());
    printed.map_err(|error| {
        let why = match error.kind() {
            ErrorKind::BrokenPipe => "nobody reads it".to_string(),
            _ => reason(&error),
        };
        WrongUse(format!("standard output can't be written: {why}"))
    })
}

/// Writes a line to standard error, if it can be written.
pub fn say(line: &str) {
    let _ = writeln!(io::stderr().lock(), "{line}");
}

/// Fails if what is written would go over one of the inputs, by whatever name or link.
pub fn spare(inputs: &[&Source], out: &Out) -> Result<(), WrongUse> {
    let written = match &out.path {
        Some(path) => Identity::of_path(path),
        None => Identity::of_open(io::stdout()),
    };
    let mut inputs = inputs.iter();
    let over = inputs.find(|input| written.is_some() && written == input.identity());
    match over {
        Some(input) if !out.force => {
            let (name, input) = (out.name(), input.name());
            let why = "an input is not written over without --force";
            Err(WrongUse(format!(
                "{name} is the same file as {input}, and {why}"
            )))
        }
        _ => Ok(()),
    }
}

/// Writes a clinic's file where it is wanted.
pub fn deliver(bytes: &[u8], out: &Out) -> Result<(), WrongUse> {
    Ready::bytes(bytes, out)?.put()
}

/// Writes what may go to a terminal where it is wanted.
pub fn deliver_text(bytes: &[u8], out: &Out) -> Result<(), WrongUse> {
    Ready::text(bytes, out)?.put()
}

/// What is to go somewhere, as far as that can be done without its being there.
pub struct Ready<'a> {
    out: &'a Out,
    bytes: &'a [u8],
    written: Option<Written>,
}

impl<'a> Ready<'a> {
    /// A clinic's file.
    pub fn bytes(bytes: &'a [u8], out: &'a Out) -> Result<Ready<'a>, WrongUse> {
        match &out.path {
            None if io::stdout().is_terminal() => Err(WrongUse(
                "a clinic's file is binary and is not written to a terminal; name a file with -o"
                    .to_string(),
            )),
            _ => Ready::text(bytes, out),
        }
    }

    /// What may go to a terminal.
    pub fn text(bytes: &'a [u8], out: &'a Out) -> Result<Ready<'a>, WrongUse> {
        let path = out.path.as_ref();
        let written = path.map(|path| Written::new(bytes, path));
        let written = written
            .transpose()
            .map_err(|error| unwritten(out, &error))?;
        Ok(Ready {
            out,
            bytes,
            written,
        })
    }

    /// Whether both are to be in one file.
    pub fn is_same(&self, other: &Ready) -> bool {
        let both = self.written.as_ref().zip(other.written.as_ref());
        both.is_some_and(|(one, other)| one.is_same(other))
    }

    /// Whether it may be long until it is there, as someone has to read it.
    pub fn is_stream(&self) -> bool {
        self.written.as_ref().is_none_or(Written::is_direct)
    }

    /// Puts it there.
    pub fn put(self) -> Result<(), WrongUse> {
        match self.written {
            Some(written) => written.put().map_err(|error| unwritten(self.out, &error)),
            None if io::stdout().is_terminal() => print(legible(self.bytes).as_bytes()),
            None => print(self.bytes),
        }
    }
}

/// A text as a terminal may print it: what it would obey is written out, but the ends of
/// lines.
fn legible(text: &[u8]) -> String {
    let text = String::from_utf8_lossy(text);
    let lines = text.split('\n').map(|line| {
        let (line, end) = match line.strip_suffix('\r') {
            Some(line) => (line, "\r"),
            None => (line, ""),
        };
        text::printable_line(line).into_owned() + end
    });
    lines.collect::<Vec<_>>().join("\n")
}

fn unwritten(out: &Out, error: &io::Error) -> WrongUse {
    let (name, why) = (out.name(), reason(error));
    WrongUse(format!("{name}: can't be written: {why}"))
}
