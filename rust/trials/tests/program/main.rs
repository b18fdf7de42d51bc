//! The built programs: a file on standard input, or files by their names, and an
//! answer on standard output.

mod inforce;
mod judge;
mod place;
mod run;
mod runs;
