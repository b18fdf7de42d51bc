//! The command `pilzdamo`; `help.txt` says what it does.

use std::env;
use std::process::ExitCode;

fn main() -> ExitCode {
    ExitCode::from(command::go(env::args_os().skip(1)))
}
