//! Files read only as far as their answers need.

use crate::length::{Bytes, Length};
use std::fs::File;
use std::io::{self, Read, Seek};
use std::ops::Deref;

/// The most bytes of which all are kept. No clinic's file has as many.
pub const LONGEST: u64 = 1_000_000;

/// The most bytes of a text. That of a file whose 1,024 nodes stand each below the one
/// before has over a million, and no canonical text with invented names has two.
pub const LONGEST_TEXT: u64 = 4_000_000;

/// The most bytes of a list of choices, of which each may have names and a comment.
pub const LONGEST_LIST: u64 = 16_000_000;

/// How far a stream is followed to learn its length.
const FOLLOWED: u64 = 16_000_000;

/// A file's bytes, or the start of one that is longer than [`LONGEST`]. The engine answers
/// for the start as for the whole: an even number of bytes of an even number, an odd one
/// of an odd one.
pub struct Start {
    bytes: Vec<u8>,
    length: Length,
}

impl Deref for Start {
    type Target = [u8];

    fn deref(&self) -> &[u8] {
        &self.bytes
    }
}

impl Bytes for Start {
    fn start(&self) -> &[u8] {
        self
    }

    fn length(&self) -> Length {
        self.length
    }
}

impl Start {
    pub fn whole(bytes: Vec<u8>) -> Start {
        let length = Length::Exactly(bytes.len() as u64);
        Start { bytes, length }
    }

    pub fn read(mut file: File) -> io::Result<Start> {
        let mut bytes = some(LONGEST + 1, &mut file)?;
        let mut most = LONGEST;
        if text::is_text(&bytes) {
            most = LONGEST_TEXT;
            bytes.extend(some(most + 1 - bytes.len() as u64, &mut file)?);
        }
        if bytes.len() as u64 <= most {
            return Ok(Start::whole(bytes));
        }
        let length = length(bytes.len() as u64, file)?;
        let odd = match length {
            Length::Exactly(length) => length % 2,
            Length::MoreThan(_) => 0,
        };
        bytes.truncate((LONGEST + odd) as usize);
        Ok(Start { bytes, length })
    }

    /// Whether all of it was read.
    pub fn is_whole(&self) -> bool {
        self.length == self.bytes.length()
    }
}

/// All of a file that has at most so many bytes.
pub fn up_to(most: u64, mut file: File) -> io::Result<Option<Vec<u8>>> {
    let bytes = some(most + 1, &mut file)?;
    Ok((bytes.len() as u64 <= most).then_some(bytes))
}

/// So many bytes, or as many as there are.
fn some(most: u64, file: &mut File) -> io::Result<Vec<u8>> {
    let mut bytes = Vec::new();
    file.take(most).read_to_end(&mut bytes)?;
    Ok(bytes)
}

/// How long a file is of which so many bytes were read: an ordinary one by what is said of
/// it, a stream by its end, if that comes soon.
fn length(read: u64, mut file: File) -> io::Result<Length> {
    let about = file.metadata()?;
    if about.is_file() {
        // Nothing is said of the length of some files of the system.
        if let Some(behind) = about.len().checked_sub(file.stream_position()?) {
            return Ok(Length::Exactly(read + behind));
        }
    }
    let due = FOLLOWED + 1 - read;
    let behind = io::copy(&mut file.take(due), &mut io::sink())?;
    Ok(match behind < due {
        true => Length::Exactly(read + behind),
        false => Length::MoreThan(FOLLOWED),
    })
}
