//! Signals that wait while a file of the command's own is there. No other module of this
//! crate has unsafe code.

use std::cell::{Cell, RefCell};
use std::ffi::c_int;
use std::marker::PhantomData;
use std::ptr;

/// Hangup, interrupt and termination, by their numbers on every Unix.
const ENDING: [c_int; 3] = [1, 2, 15];

/// What the system is asked for: that more signals wait, or that exactly those of a set do.
const ADD: c_int = if cfg!(target_os = "linux") { 0 } else { 1 };
const EXACTLY: c_int = if cfg!(target_os = "linux") { 2 } else { 3 };

/// A set of signals. The system's own has at most 128 bytes, and only the system's functions
/// look into it.
#[repr(C, align(16))]
#[derive(Clone, Copy)]
struct Set([u8; 128]);

extern "C" {
    fn sigemptyset(set: *mut Set) -> c_int;
    fn sigaddset(set: *mut Set, signal: c_int) -> c_int;
    fn pthread_sigmask(how: c_int, set: *const Set, old: *mut Set) -> c_int;
}

thread_local! {
    /// How many ask that signals wait.
    static ASKED: Cell<usize> = const { Cell::new(0) };
    /// The signals that waited before.
    static BEFORE: RefCell<Set> = const { RefCell::new(Set([0; 128])) };
}

/// While it is there, signals that would end the command wait; they come when the last one
/// goes. It stays in its thread.
pub struct Waiting(PhantomData<*const ()>);

impl Waiting {
    pub fn new() -> Waiting {
        if ASKED.replace(ASKED.get() + 1) == 0 {
            BEFORE.with_borrow_mut(wait);
        }
        Waiting(PhantomData)
    }
}

impl Drop for Waiting {
    fn drop(&mut self) {
        if ASKED.replace(ASKED.get() - 1) == 1 {
            BEFORE.with_borrow(come);
        }
    }
}

/// Lets the signals wait, and keeps which did before.
fn wait(before: &mut Set) {
    let mut set = Set([0; 128]);
    // SAFETY: each pointer is to a set of our own that is as large as the system's or larger
    // and lives through the call, and the functions keep none of them.
    unsafe {
        sigemptyset(&mut set);
        for signal in ENDING {
            sigaddset(&mut set, signal);
        }
        pthread_sigmask(ADD, &set, before);
    }
}

/// Lets only those wait that did before.
fn come(before: &Set) {
    // SAFETY: as above; `before` was filled by the system, and no old set is asked for.
    unsafe {
        pthread_sigmask(EXACTLY, before, ptr::null_mut());
    }
}
