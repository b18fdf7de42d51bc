//! The engine against the second implementation, on random files.

use second::Version;
use trials::{compare, files, seed};

#[test]
fn random_files() {
    compare(Version::One, seed(), files()).demand();
}

#[test]
fn random_files_of_version_2() {
    compare(Version::Two, seed(), files()).demand();
}
