//! The engine's functions, with a safe call to each. No other module has unsafe code.
//!
//! Every function is proved to read only what the pointers and lengths name, to write
//! only through pointers to `mut`, and to end. It keeps no pointer.

use crate::{
    Closing, InForce, Offers, Placed, Ready, Reason, Round, Seats, Sheet, Thread, Totals, Verdict,
    Written,
};
use std::ops::Range;

extern "C" {
    fn pilzdamo_read(file: *const u8, len: usize) -> Verdict;
    fn pilzdamo_check(file: *const u8, len: usize) -> Verdict;
    fn pilzdamo_check_at(
        file: *const u8,
        len: usize,
        hours: *const u16,
        words: usize,
        minute: u16,
    ) -> Verdict;
    fn pilzdamo_place(file: *const u8, len: usize, out: *mut u8, out_len: usize) -> Placed;
    fn pilzdamo_place_at(
        file: *const u8,
        len: usize,
        hours: *const u16,
        words: usize,
        minute: u16,
        out: *mut u8,
        out_len: usize,
    ) -> Placed;
    fn pilzdamo_measure(file: *const u8, len: usize) -> Placed;
    fn pilzdamo_measure_at(
        file: *const u8,
        len: usize,
        hours: *const u16,
        words: usize,
        minute: u16,
    ) -> Placed;
    fn pilzdamo_run(
        file: *const u8,
        len: usize,
        choices: *const u16,
        words: usize,
        out: *mut u8,
        out_len: usize,
    ) -> Verdict;
    fn pilzdamo_round(
        file: *const u8,
        len: usize,
        choices: *const u16,
        words: usize,
        out: *mut u8,
        out_len: usize,
    ) -> Round;
    fn pilzdamo_ready(file: *const u8, len: usize, choices: *const u16, words: usize) -> Ready;
    fn pilzdamo_totals(file: *const u8, len: usize, choices: *const u16, words: usize) -> Totals;
    fn pilzdamo_run_seated(
        file: *const u8,
        len: usize,
        choices: *const u16,
        words: usize,
        seats: *const u16,
        seats_len: usize,
        out: *mut u8,
        out_len: usize,
    ) -> Written;
    fn pilzdamo_round_seated(
        file: *const u8,
        len: usize,
        choices: *const u16,
        words: usize,
        seats: *const u16,
        seats_len: usize,
        out: *mut u8,
        out_len: usize,
    ) -> Round;
    fn pilzdamo_seats(
        file: *const u8,
        len: usize,
        choices: *const u16,
        words: usize,
        seats: *const u16,
        seats_len: usize,
    ) -> Seats;
    fn pilzdamo_closed(
        file: *const u8,
        len: usize,
        seats: *const u16,
        seats_len: usize,
        states: *const u16,
        words: usize,
        places: *const u32,
        rows: usize,
        next: *const u32,
        next_len: usize,
    ) -> Closing;
    fn pilzdamo_closed_part(
        file: *const u8,
        len: usize,
        seats: *const u16,
        seats_len: usize,
        states: *const u16,
        words: usize,
        places: *const u32,
        rows: usize,
        next: *const u32,
        next_len: usize,
        from: usize,
        to: usize,
        begin: usize,
        end: usize,
    ) -> Closing;
    fn pilzdamo_offers(
        file: *const u8,
        len: usize,
        seats: *const u16,
        seats_len: usize,
        state: *const u16,
        words: usize,
        out: *mut u16,
        out_len: usize,
    ) -> Offers;
    fn pilzdamo_total(beside: *const u16, words: usize, kind: u16) -> u16;
    fn pilzdamo_reason(
        number: u16,
        counts: u16,
        place: u16,
        tag: u16,
        out: *mut u8,
        out_len: usize,
    ) -> u16;
    fn pilzdamo_read_reason(sentence: *const u8, len: usize) -> Reason;
    fn pilzdamo_phrase(number: u16, out: *mut u8, out_len: usize) -> u16;
    fn pilzdamo_start(
        file: *const u8,
        len: usize,
        threads: *mut Thread,
        records: usize,
        beside: *mut u16,
        words: usize,
    ) -> Verdict;
    fn pilzdamo_choose(
        file: *const u8,
        len: usize,
        threads: *mut Thread,
        records: usize,
        beside: *mut u16,
        words: usize,
        thread: u16,
        partner: u16,
    ) -> Verdict;
    fn pilzdamo_to_columns(file: *const u8, len: usize, out: *mut u8, out_len: usize) -> Written;
    fn pilzdamo_to_rows(file: *const u8, len: usize, out: *mut u8, out_len: usize) -> Written;
    fn pilzdamo_merge(
        first: *const u8,
        first_len: usize,
        second: *const u8,
        second_len: usize,
        out: *mut u8,
        out_len: usize,
    ) -> Written;
    fn pilzdamo_in_force(
        first: *const u8,
        first_len: usize,
        second: *const u8,
        second_len: usize,
        day: u16,
    ) -> InForce;
    fn pilzdamo_sheet(input: *const u8, len: usize) -> Sheet;
}

// What is answered, and a record that is lent: words and nothing between them, but for a
// word before the length of `Offers`.
const _: () = {
    assert!(size_of::<Verdict>() == 2 * 2);
    assert!(size_of::<Placed>() == 2 * 4);
    assert!(size_of::<Ready>() == 2 * 4);
    assert!(size_of::<Round>() == 2 * 131);
    assert!(size_of::<Totals>() == 2 * 34);
    assert!(size_of::<Reason>() == 2 * 4);
    assert!(size_of::<Written>() == 2 * 3);
    assert!(size_of::<Seats>() == 2 * 580);
    assert!(size_of::<Closing>() == 2 * 2 + 4);
    assert!(size_of::<Offers>() == 2 * 4 + 4);
    assert!(size_of::<InForce>() == 2 * 5);
    assert!(size_of::<Sheet>() == 4 * 34);
    assert!(size_of::<Thread>() == 2 * 11);
};

#[inline]
pub fn read(file: &[u8]) -> Verdict {
    // SAFETY: the engine only reads the `len` bytes from `file` on, during the
    // call; a slice vouches for them, also where there are none.
    unsafe { pilzdamo_read(file.as_ptr(), file.len()) }
}

#[inline]
pub fn check(file: &[u8]) -> Verdict {
    // SAFETY: as in `read`.
    unsafe { pilzdamo_check(file.as_ptr(), file.len()) }
}

#[inline]
pub fn check_at(file: &[u8], hours: &[u16], minute: u16) -> Verdict {
    // SAFETY: the engine only reads the `len` bytes from `file` on and the
    // `words` words from `hours` on, during the call; the slices vouch for them.
    unsafe {
        pilzdamo_check_at(
            file.as_ptr(),
            file.len(),
            hours.as_ptr(),
            hours.len(),
            minute,
        )
    }
}

#[inline]
pub fn place(file: &[u8], out: &mut [u8]) -> Placed {
    // SAFETY: the engine only reads the `len` bytes from `file` on, and only
    // reads and writes the `out_len` bytes from `out` on, during the call. The
    // slices vouch for them, and that no byte is in both.
    unsafe { pilzdamo_place(file.as_ptr(), file.len(), out.as_mut_ptr(), out.len()) }
}

#[inline]
pub fn place_at(file: &[u8], hours: &[u16], minute: u16, out: &mut [u8]) -> Placed {
    // SAFETY: the engine only reads the `len` bytes from `file` on and the
    // `words` words from `hours` on, and only reads and writes the `out_len`
    // bytes from `out` on, during the call. The slices vouch for them, and that
    // nothing of `out` is in the other two.
    unsafe {
        pilzdamo_place_at(
            file.as_ptr(),
            file.len(),
            hours.as_ptr(),
            hours.len(),
            minute,
            out.as_mut_ptr(),
            out.len(),
        )
    }
}

#[inline]
pub fn measure(file: &[u8]) -> Placed {
    // SAFETY: as in `read`.
    unsafe { pilzdamo_measure(file.as_ptr(), file.len()) }
}

#[inline]
pub fn measure_at(file: &[u8], hours: &[u16], minute: u16) -> Placed {
    // SAFETY: as in `check_at`.
    unsafe {
        pilzdamo_measure_at(
            file.as_ptr(),
            file.len(),
            hours.as_ptr(),
            hours.len(),
            minute,
        )
    }
}

#[inline]
pub fn run(file: &[u8], choices: &[u16], out: &mut [u8]) -> Verdict {
    // SAFETY: the engine only reads the `len` bytes from `file` on and the
    // `words` words from `choices` on, and only reads and writes the `out_len`
    // bytes from `out` on, during the call. The slices vouch for them, and that
    // nothing of `out` is in the other two.
    unsafe {
        pilzdamo_run(
            file.as_ptr(),
            file.len(),
            choices.as_ptr(),
            choices.len(),
            out.as_mut_ptr(),
            out.len(),
        )
    }
}

#[inline]
pub fn round(file: &[u8], choices: &[u16], out: &mut [u8]) -> Round {
    // SAFETY: as in `run`.
    unsafe {
        pilzdamo_round(
            file.as_ptr(),
            file.len(),
            choices.as_ptr(),
            choices.len(),
            out.as_mut_ptr(),
            out.len(),
        )
    }
}

#[inline]
pub fn ready(file: &[u8], choices: &[u16]) -> Ready {
    // SAFETY: the engine only reads the `len` bytes from `file` on and the
    // `words` words from `choices` on, during the call; the slices vouch for
    // them.
    unsafe { pilzdamo_ready(file.as_ptr(), file.len(), choices.as_ptr(), choices.len()) }
}

#[inline]
pub fn totals(file: &[u8], choices: &[u16]) -> Totals {
    // SAFETY: as in `ready`.
    unsafe { pilzdamo_totals(file.as_ptr(), file.len(), choices.as_ptr(), choices.len()) }
}

#[inline]
pub fn run_seated(file: &[u8], choices: &[u16], seats: &[u16], out: &mut [u8]) -> Written {
    // SAFETY: the engine only reads the `len` bytes from `file` on, the `words` words
    // from `choices` on and the `seats_len` words from `seats` on, and only reads and
    // writes the `out_len` bytes from `out` on, during the call. The slices vouch for
    // them, and that nothing of `out` is in the other three.
    unsafe {
        pilzdamo_run_seated(
            file.as_ptr(),
            file.len(),
            choices.as_ptr(),
            choices.len(),
            seats.as_ptr(),
            seats.len(),
            out.as_mut_ptr(),
            out.len(),
        )
    }
}

#[inline]
pub fn round_seated(file: &[u8], choices: &[u16], seats: &[u16], out: &mut [u8]) -> Round {
    // SAFETY: as in `run_seated`.
    unsafe {
        pilzdamo_round_seated(
            file.as_ptr(),
            file.len(),
            choices.as_ptr(),
            choices.len(),
            seats.as_ptr(),
            seats.len(),
            out.as_mut_ptr(),
            out.len(),
        )
    }
}

#[inline]
pub fn seats(file: &[u8], choices: &[u16], seats: &[u16]) -> Seats {
    // SAFETY: the engine only reads the `len` bytes from `file` on, the `words` words
    // from `choices` on and the `seats_len` words from `seats` on, during the call; the
    // slices vouch for them.
    unsafe {
        pilzdamo_seats(
            file.as_ptr(),
            file.len(),
            choices.as_ptr(),
            choices.len(),
            seats.as_ptr(),
            seats.len(),
        )
    }
}

#[inline]
pub fn closed(file: &[u8], seats: &[u16], states: &[u16], places: &[u32], next: &[u32]) -> Closing {
    // SAFETY: the engine only reads the `len` bytes from `file` on, the `seats_len` words
    // from `seats` on, the `words` words from `states` on, the `rows` numbers from `places`
    // on and the `next_len` numbers from `next` on, during the call; the slices vouch for
    // them.
    unsafe {
        pilzdamo_closed(
            file.as_ptr(),
            file.len(),
            seats.as_ptr(),
            seats.len(),
            states.as_ptr(),
            states.len(),
            places.as_ptr(),
            places.len(),
            next.as_ptr(),
            next.len(),
        )
    }
}

#[inline]
pub fn closed_part(
    file: &[u8],
    seats: &[u16],
    states: &[u16],
    places: &[u32],
    next: &[u32],
    rows: Range<usize>,
    numbers: Range<usize>,
) -> Closing {
    // SAFETY: as in `closed`. Rows and numbers may be any, also such as aren't there.
    unsafe {
        pilzdamo_closed_part(
            file.as_ptr(),
            file.len(),
            seats.as_ptr(),
            seats.len(),
            states.as_ptr(),
            states.len(),
            places.as_ptr(),
            places.len(),
            next.as_ptr(),
            next.len(),
            rows.start,
            rows.end,
            numbers.start,
            numbers.end,
        )
    }
}

#[inline]
pub fn offers(file: &[u8], seats: &[u16], state: &[u16], out: &mut [u16]) -> Offers {
    // SAFETY: the engine only reads the `len` bytes from `file` on, the `seats_len` words
    // from `seats` on and the `words` words from `state` on, and only reads and writes the
    // `out_len` words from `out` on, during the call. The slices vouch for them, and that
    // nothing of `out` is in the other three.
    unsafe {
        pilzdamo_offers(
            file.as_ptr(),
            file.len(),
            seats.as_ptr(),
            seats.len(),
            state.as_ptr(),
            state.len(),
            out.as_mut_ptr(),
            out.len(),
        )
    }
}

#[inline]
pub fn total(beside: &[u16], kind: u16) -> u16 {
    // SAFETY: the engine only reads the `words` words from `beside` on, during the
    // call; the slice vouches for them.
    unsafe { pilzdamo_total(beside.as_ptr(), beside.len(), kind) }
}

#[inline]
pub fn reason(reason: Reason, out: &mut [u8]) -> u16 {
    // SAFETY: the engine only reads and writes the `out_len` bytes from `out` on,
    // during the call; the slice vouches for them.
    unsafe {
        pilzdamo_reason(
            reason.number,
            reason.counts,
            reason.place,
            reason.tag,
            out.as_mut_ptr(),
            out.len(),
        )
    }
}

#[inline]
pub fn read_reason(sentence: &[u8]) -> Reason {
    // SAFETY: as in `read`, of the bytes of the sentence.
    unsafe { pilzdamo_read_reason(sentence.as_ptr(), sentence.len()) }
}

#[inline]
pub fn phrase(number: u16, out: &mut [u8]) -> u16 {
    // SAFETY: as in `reason`.
    unsafe { pilzdamo_phrase(number, out.as_mut_ptr(), out.len()) }
}

#[inline]
pub fn start(file: &[u8], threads: &mut [Thread], beside: &mut [u16]) -> Verdict {
    // SAFETY: the engine only reads the `len` bytes from `file` on, and only
    // reads and writes the `records` records from `threads` on and the `words`
    // words from `beside` on, during the call. The slices vouch for them, and that
    // no two of the three have a byte in common. A record has no padding, and any
    // words in it make a thread.
    unsafe {
        pilzdamo_start(
            file.as_ptr(),
            file.len(),
            threads.as_mut_ptr(),
            threads.len(),
            beside.as_mut_ptr(),
            beside.len(),
        )
    }
}

#[inline]
pub fn choose(
    file: &[u8],
    threads: &mut [Thread],
    beside: &mut [u16],
    thread: u16,
    partner: u16,
) -> Verdict {
    // SAFETY: as in `start`.
    unsafe {
        pilzdamo_choose(
            file.as_ptr(),
            file.len(),
            threads.as_mut_ptr(),
            threads.len(),
            beside.as_mut_ptr(),
            beside.len(),
            thread,
            partner,
        )
    }
}

#[inline]
pub fn merge(first: &[u8], second: &[u8], out: &mut [u8]) -> Written {
    // SAFETY: the engine only reads the `first_len` bytes from `first` on and the
    // `second_len` bytes from `second` on, and only reads and writes the `out_len`
    // bytes from `out` on, during the call. The slices vouch for them, and that
    // nothing of `out` is in the other two.
    unsafe {
        pilzdamo_merge(
            first.as_ptr(),
            first.len(),
            second.as_ptr(),
            second.len(),
            out.as_mut_ptr(),
            out.len(),
        )
    }
}

#[inline]
pub fn to_columns(file: &[u8], out: &mut [u8]) -> Written {
    // SAFETY: the engine only reads the `len` bytes from `file` on, and only reads and
    // writes the `out_len` bytes from `out` on, during the call. The slices vouch for
    // them, and that nothing of `out` is in the other.
    unsafe { pilzdamo_to_columns(file.as_ptr(), file.len(), out.as_mut_ptr(), out.len()) }
}

#[inline]
pub fn to_rows(file: &[u8], out: &mut [u8]) -> Written {
    // SAFETY: as in `to_columns`.
    unsafe { pilzdamo_to_rows(file.as_ptr(), file.len(), out.as_mut_ptr(), out.len()) }
}

pub fn in_force(first: &[u8], second: &[u8], day: u16) -> InForce {
    // SAFETY: the engine only reads the `first_len` bytes from `first` on and the
    // `second_len` bytes from `second` on, during the call; the slices vouch for them.
    unsafe {
        pilzdamo_in_force(
            first.as_ptr(),
            first.len(),
            second.as_ptr(),
            second.len(),
            day,
        )
    }
}

#[inline]
pub fn sheet(input: &[u8]) -> Sheet {
    // SAFETY: as in `read`, of the bytes of the input.
    unsafe { pilzdamo_sheet(input.as_ptr(), input.len()) }
}
