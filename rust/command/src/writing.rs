//! Files that are written whole or not at all.

use crate::signals::Waiting;
use crate::source::Identity;
use std::fs::{self, File, Metadata, OpenOptions};
use std::io::{self, ErrorKind, Write};
use std::os::unix::fs::{fchown, MetadataExt, OpenOptionsExt};
use std::path::{Path, PathBuf};

/// How many names are tried for a file of one's own.
const NAMES: u32 = 1_000;

/// What the names of such files begin with; two numbers follow.
const OWN: &str = ".pilzdamo-";

/// What is to be in a file, written but not yet there. Until it is put there the file is
/// as it was, and if it never is, nothing of it is left, also if a signal ends the command.
/// Only a command that is killed at once leaves a file, which the next write there removes.
pub enum Written {
    /// Beside the file that it is to replace.
    Beside { beside: Beside, target: PathBuf },
    /// For what is no ordinary file.
    Direct { bytes: Vec<u8>, path: PathBuf },
}

impl Written {
    pub fn new(bytes: &[u8], path: &Path) -> io::Result<Written> {
        let direct = || Written::Direct {
            bytes: bytes.to_vec(),
            path: path.to_path_buf(),
        };
        if is_stream(path) {
            return Ok(direct());
        }
        let there = match fs::metadata(path) {
            Err(error) if error.kind() == ErrorKind::NotFound => None,
            there => Some(there?),
        };
        match &there {
            Some(there) if there.is_dir() => return Err(ErrorKind::IsADirectory.into()),
            Some(there) if !there.is_file() => return Ok(direct()),
            _ => (),
        }
        let waiting = Waiting::new();
        let target = match &there {
            // What may not be written is not replaced either.
            Some(_) => found(path, &OpenOptions::new().write(true).open(path)?)?,
            None => new_target(path)?,
        };
        remove_old(folder(&target));
        let beside = Beside::new(folder(&target), there.is_some(), waiting)?;
        beside.fill(bytes, there.as_ref())?;
        Ok(Written::Beside { beside, target })
    }

    /// Whether both are to be in one file.
    pub fn is_same(&self, other: &Written) -> bool {
        let targets = [self, other].map(|written| match written {
            Written::Beside { target, .. } => place(target),
            Written::Direct { .. } => None,
        });
        targets[0].is_some() && targets[0] == targets[1]
    }

    /// Whether it may be long until it is there, as someone has to read it.
    pub fn is_direct(&self) -> bool {
        matches!(self, Written::Direct { .. })
    }

    /// Puts it there.
    pub fn put(self) -> io::Result<()> {
        match self {
            Written::Beside { beside, target } => beside.rename(&target),
            Written::Direct { bytes, path } => {
                // Behind what is there, if a stream leads to a file.
                let mut file = OpenOptions::new().append(true).open(path)?;
                file.write_all(&bytes)?;
                file.flush()
            }
        }
    }
}

/// A new file of the command's own. It goes with this, unless it got another name; until
/// then signals wait, and it is locked.
pub struct Beside {
    file: File,
    path: PathBuf,
    is_renamed: bool,
    _waiting: Waiting,
}

impl Beside {
    /// One in a folder, for nobody else if it is to replace another, whose permissions it is
    /// given before it is put there.
    fn new(folder: &Path, replaces: bool, waiting: Waiting) -> io::Result<Beside> {
        let mode = if replaces { 0o600 } else { 0o666 };
        let mut options = OpenOptions::new();
        options.write(true).create_new(true).mode(mode);
        for number in 0..NAMES {
            let path = folder.join(format!("{OWN}{}-{number}", std::process::id()));
            let file = match options.open(&path) {
                Err(error) if error.kind() == ErrorKind::AlreadyExists => continue,
                Err(error) if error.kind() == ErrorKind::PermissionDenied => {
                    return Err(io::Error::other("no file can be made in its folder"))
                }
                file => file?,
            };
            // Where files can't be locked, none is removed as an old one.
            let _ = file.lock();
            // Before it was locked, it may have been removed as one.
            if file.metadata()?.nlink() > 0 {
                return Ok(Beside {
                    file,
                    path,
                    is_renamed: false,
                    _waiting: waiting,
                });
            }
        }
        Err(ErrorKind::AlreadyExists.into())
    }

    /// Fills it, and gives it the owner and the permissions of the file that it is to
    /// replace; an owner that can't be given stays the caller.
    fn fill(&self, bytes: &[u8], like: Option<&Metadata>) -> io::Result<()> {
        let mut file = &self.file;
        file.write_all(bytes)?;
        file.flush()?;
        if let Some(like) = like {
            let now = file.metadata()?;
            if (now.uid(), now.gid()) != (like.uid(), like.gid()) {
                let _ = fchown(file, Some(like.uid()), Some(like.gid()));
            }
            file.set_permissions(like.permissions())?;
        }
        file.sync_all()
    }

    fn rename(mut self, target: &Path) -> io::Result<()> {
        fs::rename(&self.path, target)?;
        self.is_renamed = true;
        Ok(())
    }
}

impl Drop for Beside {
    fn drop(&mut self) {
        if !self.is_renamed {
            let _ = fs::remove_file(&self.path);
        }
    }
}

/// Removes files of the command's own that nobody holds any more.
fn remove_old(folder: &Path) {
    let entries = fs::read_dir(folder).into_iter().flatten().flatten();
    for entry in entries.filter(|entry| is_own(&entry.file_name().to_string_lossy())) {
        let path = entry.path();
        if !fs::symlink_metadata(&path).is_ok_and(|about| about.is_file()) {
            continue;
        }
        let Ok(file) = File::open(&path) else {
            continue;
        };
        // It stays locked until it is gone, and so has this name until then.
        if file.try_lock().is_ok() && is_at(&file, &path) {
            let _ = fs::remove_file(&path);
        }
    }
}

/// Whether a file has a name as the command gives it to its own.
fn is_own(name: &str) -> bool {
    let numbers = name.strip_prefix(OWN).and_then(|name| name.split_once('-'));
    let is_number = |word: &str| !word.is_empty() && word.bytes().all(|b| b.is_ascii_digit());
    numbers.is_some_and(|(process, number)| is_number(process) && is_number(number))
}

/// Whether an open file is the one that a path leads to.
fn is_at(file: &File, path: &Path) -> bool {
    let identity = Identity::of_open(file);
    identity.is_some() && identity == Identity::of_path(path)
}

/// The own name of a file that the system has opened by a path, which may be a link.
fn found(path: &Path, file: &File) -> io::Result<PathBuf> {
    if !is_link(path) {
        return Ok(path.to_path_buf());
    }
    let target = fs::canonicalize(path)?;
    match is_at(file, &target) {
        true => Ok(target),
        false => Err(io::Error::other("its link was changed meanwhile")),
    }
}

/// The own name of a file that isn't there yet. If a link leads to it, the system makes it
/// where it is to be, and it is gone again at once.
fn new_target(path: &Path) -> io::Result<PathBuf> {
    if !is_link(path) {
        return Ok(path.to_path_buf());
    }
    let mut options = OpenOptions::new();
    let file = options.write(true).create(true).open(path)?;
    let target = found(path, &file)?;
    if file.metadata()?.len() == 0 {
        fs::remove_file(&target)?;
    }
    Ok(target)
}

fn is_link(path: &Path) -> bool {
    fs::symlink_metadata(path).is_ok_and(|about| about.is_symlink())
}

/// Where the file of a path is or would be, if its folder is there and it is no stream.
/// A link is one itself.
pub fn place(path: &Path) -> Option<PathBuf> {
    let folder = fs::canonicalize(folder(path)).ok()?;
    (!is_stream(path)).then_some(folder.join(path.file_name()?))
}

/// Whether a path names an open stream or a device, such as /dev/stdout, whatever it
/// leads to; or is a link to standard output.
fn is_stream(path: &Path) -> bool {
    let folder = fs::canonicalize(folder(path));
    let is_device =
        folder.is_ok_and(|folder| folder == Path::new("/dev") || folder.starts_with("/proc"));
    let printed = || Identity::of_open(io::stdout());
    is_device || (is_link(path) && printed().is_some() && printed() == Identity::of_path(path))
}

/// The folder that a path is in.
fn folder(path: &Path) -> &Path {
    match path.parent() {
        Some(folder) if folder != Path::new("") => folder,
        _ => Path::new("."),
    }
}
