//! Where a file comes from.

use crate::input::{Input, MARK};
use crate::output;
use crate::reading::{self, Start, LONGEST_LIST, LONGEST_TEXT};
use crate::WrongUse;
use std::ffi::OsString;
use std::fs::{self, File, Metadata};
use std::io::{self, ErrorKind};
use std::os::fd::AsFd;
use std::os::unix::ffi::OsStrExt;
use std::os::unix::fs::{FileTypeExt, MetadataExt};
use std::path::{Path, PathBuf};

/// The system's number for a stream that is closed, or open for something else (EBADF).
const NOT_OPEN: i32 = 9;

/// A file by its name, or standard input.
pub enum Source {
    StandardInput,
    File(PathBuf),
    /// One of these that is refused if it has no bytes; a list or a table only if it is a
    /// stream.
    NotEmpty(Box<Source>),
}

impl Source {
    /// `-` is standard input.
    pub fn named(word: OsString) -> Source {
        if word == "-" {
            Source::StandardInput
        } else {
            Source::File(PathBuf::from(word))
        }
    }

    /// How messages name it.
    pub fn name(&self) -> String {
        match self {
            Source::StandardInput => "standard input".to_string(),
            Source::File(path) => shown(path),
            Source::NotEmpty(source) => source.name(),
        }
    }

    /// Whether it is standard input.
    pub fn is_standard_input(&self) -> bool {
        match self {
            Source::StandardInput => true,
            Source::File(_) => false,
            Source::NotEmpty(source) => source.is_standard_input(),
        }
    }

    /// As it was typed, as far as that is UTF-8.
    pub fn typed(&self) -> String {
        match self {
            Source::StandardInput => "-".to_string(),
            Source::File(path) => path.to_string_lossy().to_string(),
            Source::NotEmpty(source) => source.typed(),
        }
    }

    /// Which file it is, if it is one.
    pub fn identity(&self) -> Option<Identity> {
        match self {
            Source::StandardInput => Identity::of_open(io::stdin()),
            Source::File(path) => Identity::of_path(path),
            Source::NotEmpty(source) => source.identity(),
        }
    }

    /// The clinic's file that it is, or that its text says.
    pub fn clinic(&self) -> Result<Input, WrongUse> {
        let start = self.start()?;
        if start.is_empty() {
            self.empty("a clinic with nothing planned")?;
        }
        Input::of(self.name(), start)
    }

    /// What becomes of zero bytes, which are taken for this. In a stream they are mostly what
    /// a command that failed has left.
    fn empty(&self, taken: &str) -> Result<(), WrongUse> {
        let (name, streams) = (self.name(), self.is_stream());
        let failed = match self.is_standard_input() {
            true => "did the command before the pipe fail?",
            false => "did the command that writes it fail?",
        };
        if let Source::NotEmpty(_) = self {
            let why = match streams {
                true => format!("\n  {failed}"),
                false => String::new(),
            };
            return Err(WrongUse::refused(&format!(
                "pilzdamo: {name}: refused: it has no bytes, and --not-empty asks for some{why}"
            )));
        }
        if streams {
            output::say(&format!(
                "pilzdamo: {name}: warning: zero bytes, taken for {taken}; {failed}\n  --not-empty refuses zero bytes"
            ));
        }
        Ok(())
    }

    /// What becomes of a list or a table of zero bytes: one of an ordinary file may be empty.
    fn empty_beside(&self, taken: &str) -> Result<(), WrongUse> {
        match self.is_stream() {
            true => self.empty(taken),
            false => Ok(()),
        }
    }

    /// Whether its bytes come from elsewhere: it is neither an ordinary file nor the null
    /// device.
    fn is_stream(&self) -> bool {
        let about = match self {
            Source::StandardInput => about(io::stdin()),
            Source::File(path) => fs::metadata(path),
            Source::NotEmpty(source) => return source.is_stream(),
        };
        about.is_ok_and(|about| !about.is_file() && !is_null(&about))
    }

    /// Its bytes, or the start of them that any longer file is answered by.
    pub fn start(&self) -> Result<Start, WrongUse> {
        self.open()
            .and_then(Start::read)
            .map_err(|error| self.unread(&error))
    }

    /// All its bytes, if a text can have as many.
    pub fn read(&self) -> Result<Vec<u8>, WrongUse> {
        self.read_up_to(LONGEST_TEXT)
    }

    /// All its bytes, if a list of choices can have as many.
    pub fn choices(&self) -> Result<Vec<u8>, WrongUse> {
        let bytes = self.read_up_to(LONGEST_LIST)?;
        if bytes.is_empty() {
            self.empty_beside("an empty list of choices")?;
        }
        Ok(bytes)
    }

    /// All bytes of a table, without a mark of the byte order.
    pub fn table(&self) -> Result<Vec<u8>, WrongUse> {
        let bytes = self.read()?;
        if bytes.is_empty() {
            self.empty_beside("an empty table")?;
        }
        match bytes.strip_prefix(MARK.as_bytes()) {
            Some(unmarked) => Ok(unmarked.to_vec()),
            None => Ok(bytes),
        }
    }

    /// All its bytes, at most so many.
    fn read_up_to(&self, most: u64) -> Result<Vec<u8>, WrongUse> {
        let read = self.open().and_then(|file| reading::up_to(most, file));
        match read.map_err(|error| self.unread(&error))? {
            Some(bytes) => Ok(bytes),
            None => Err(too_long(&self.name(), most)),
        }
    }

    fn open(&self) -> io::Result<File> {
        match self {
            // Past the library's own buffer, so that the file's position is known.
            Source::StandardInput => Ok(File::from(io::stdin().as_fd().try_clone_to_owned()?)),
            Source::File(path) => File::open(path),
            Source::NotEmpty(source) => source.open(),
        }
    }

    fn unread(&self, error: &io::Error) -> WrongUse {
        let why = match error.raw_os_error() {
            Some(NOT_OPEN) => "it isn't open for reading".to_string(),
            _ => reason(error),
        };
        WrongUse(format!("{}: can't be read: {why}", self.name()))
    }
}

/// A clinic's file, and where the names for it are, if that is said.
pub struct NamedFile {
    pub file: Source,
    pub names: Option<Source>,
}

impl NamedFile {
    /// How messages name the file.
    pub fn name(&self) -> String {
        self.file.name()
    }

    /// All that is read.
    pub fn sources(&self) -> Vec<&Source> {
        std::iter::once(&self.file).chain(&self.names).collect()
    }

    /// The clinic's file that it is, or that its text says; with the names for its bytes.
    pub fn clinic(&self) -> Result<Input, WrongUse> {
        let input = self.file.clinic()?;
        match &self.names {
            None => Ok(input),
            Some(names) => input.with_names(names),
        }
    }
}

/// A path in a message.
pub fn shown(path: &Path) -> String {
    match path.as_os_str().as_bytes() {
        [] => "''".to_string(),
        path => text::printable(path),
    }
}

/// What a file has under all its names and links, and no other has. Pipes and devices
/// have none.
#[derive(PartialEq)]
pub struct Identity {
    device: u64,
    number: u64,
}

impl Identity {
    /// Of the file that a path leads to.
    pub fn of_path(path: &Path) -> Option<Identity> {
        Identity::of(fs::metadata(path).ok()?)
    }

    /// Of the file that a stream is connected to.
    pub fn of_open(stream: impl AsFd) -> Option<Identity> {
        Identity::of(about(stream).ok()?)
    }

    fn of(file: Metadata) -> Option<Identity> {
        file.is_file().then(|| Identity {
            device: file.dev(),
            number: file.ino(),
        })
    }
}

/// What is known of a stream.
fn about(stream: impl AsFd) -> io::Result<Metadata> {
    File::from(stream.as_fd().try_clone_to_owned()?).metadata()
}

/// Whether it is the device that has no bytes.
fn is_null(about: &Metadata) -> bool {
    let null = fs::metadata("/dev/null");
    null.is_ok_and(|null| null.file_type().is_char_device() && null.rdev() == about.rdev())
        && about.file_type().is_char_device()
}

/// Said of a text that is longer than any.
pub fn too_long(name: &str, most: u64) -> WrongUse {
    WrongUse(format!(
        "{name}: it has more than {most} bytes, and no text of its sort is read beyond them"
    ))
}

/// Why a file can't be read or written, in plain words where there are some.
pub fn reason(error: &io::Error) -> String {
    match error.kind() {
        ErrorKind::NotFound => "there is no such file or folder".to_string(),
        ErrorKind::PermissionDenied => "permission denied".to_string(),
        ErrorKind::IsADirectory => "it is a folder".to_string(),
        _ => error.to_string(),
    }
}
