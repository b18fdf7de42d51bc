//! The header, tried by a C program: what it prints.

use pilzdamo::{Closing, Counts, InForce, Offers, Placed, Ready, Reason, Round, Seats, Sheet};
use pilzdamo::{Thread, Totals, Verdict, Written, NUMBERS, SHEET_FILES};
use pilzdamo::{BEFORE_ROUND, BESIDE, RECORDS, ROOM, ROOM_1, ROUND_WORDS, ROWS, RUN_ROOM};
use pilzdamo::{LINE_WORDS, NO_TAG, ROLES, SEATS, SENTENCE, SESSIONS, TOTALS, WEEK};
use pilzdamo::{OFFERS_ROOM, ROW_WORDS};
use std::process::{Command, Output};

const FOLDER: &str = env!("CARGO_MANIFEST_DIR");
const PROGRAM: &str = concat!(env!("CARGO_TARGET_TMPDIR"), "/desk");

/// What the program prints after sizes, rooms and the like.
const PRINTED: &str = "\
read the booking: clean
check it: refused 13 1
measure it: refusal 0 0, 94 bytes, on steps: 1
place it: refusal 0 0, 94 bytes, on steps: 1
its nodes: 7 2 0 6 257 2 6 258 2 8 2 0 0 0 0
behind it: ab
check what is placed: clean
place it again: refusal 14 1, 0 bytes, on steps: 0
place it in just enough: refusal 0 0, 94 bytes, on steps: 1
place it in less: refusal 17 0, 0 bytes, on steps: 0
copied grants: refusal 15 2, 0 bytes, on steps: 0
a junior: refusal 0 0, 204 bytes, on steps: 3
check it: clean
a junior in less: refusal 17 0, 0 bytes, on steps: 0
a junior that is no lower: refused 21 24
noon: clean
evening: refused 24 1
no such role: refused 23 1
no such minute: refused 22 0
place for noon: refusal 0 0, 94 bytes, on steps: 1
role: 1
place for the evening: refusal 0 0, 94 bytes, on steps: 1
role: 2
measure for noon: refusal 0 0, 94 bytes, on steps: 1
measure part of a row: refusal 22 0, 0 bytes, on steps: 0
part of a row: refusal 22 0, 0 bytes, on steps: 0
run: clean
choices done: 12, refusal: 0
thread 1: user 1, node 4, mask 0, roles 0, first variable 4
thread 2: user 2, node 11, mask 0, roles 0, first variable 4
thread 3: user 3, node 17, mask 4, roles 1, first variable 0
thread 4: user 3, node 23, mask 4, roles 1, first variable 4
thread 5: user 3, node 28, mask 4, roles 1, first variable 4
thread 6: user 3, node 32, mask 4, roles 1, first variable 0
ready after 4 choices: refusal 0 0, 3 sends to 4
start in too little: refused 18 0
start: clean
started: 6 threads, 0 made channels
thread 1: user 1, node 1, mask 0, first and last variable 0 0
thread 2: user 2, node 8, mask 0, first and last variable 0 0
thread 3: user 3, node 15, mask 0, first and last variable 0 0
thread 4: user 3, node 19, mask 0, first and last variable 0 0
thread 5: user 3, node 25, mask 0, first and last variable 0 0
thread 6: user 3, node 31, mask 0, first and last variable 0 0
behind them: abab abab abab
waiting at the start:
chosen: 6 threads, nodes 4 and 11, first variables 4 and 4
waiting: 1 on kind 2
choose no thread: refused 18 1
lend too little: refused 18 0
lend a word too little: refused 18 0
lend a total too many: refused 18 0
total of kind 32: 1, of kinds 0 and 33: 0 0, of a word less: 0
at the start: refusal 0 0, totals 0 0 0 0 0 0 0 0 0 0 0 0 0 0 0 0 0 0 0 0 0 0 0 0 0 0 0 0 0 0 0 0
after six: refusal 0 0, totals 4 1 0 0 0 0 0 0 0 0 0 0 0 0 0 0 0 0 0 0 0 0 0 0 0 0 0 0 0 0 0 0
where it stops: refusal 18 7, totals 4 1 0 0 0 0 0 0 0 0 0 0 0 0 0 0 0 0 0 0 0 0 0 0 0 0 0 0 0 0 0 0
half a choice: refusal 17 0, totals 0 0 0 0 0 0 0 0 0 0 0 0 0 0 0 0 0 0 0 0 0 0 0 0 0 0 0 0 0 0 0 0
no file: refusal 1 0, totals 0 0 0 0 0 0 0 0 0 0 0 0 0 0 0 0 0 0 0 0 0 0 0 0 0 0 0 0 0 0 0 0
round: refusal 0 0, 80 bytes, choices 1,0 2,0 3,0; choices done: 3
round: refusal 0 0, 80 bytes, choices 1,3; choices done: 4
round: refusal 0 0, 80 bytes, choices 1,3; choices done: 5
round: refusal 0 0, 80 bytes, choices 1,0 2,3; choices done: 7
round: refusal 0 0, 56 bytes, choices 1,0 1,2 2,0; choices done: 10
round: refusal 0 0, 32 bytes, choices 1,0 2,0; choices done: 12
round: refusal 0 0, 8 bytes, choices 1,0; choices done: 13
round: refusal 0 0, 8 bytes, choices; choices done: 13
last word: 0
a list that stops: refusal 18 6, 80 bytes, first word 0
choices done: 5, refusal: 18
thread 1: user 1, node 4, mask 2, roles 1, first variable 0
thread 2: user 1, node 7, mask 2, roles 1, first variable 0
thread 3: user 2, node 14, mask 4, roles 1, first variable 2
65471 choices: refusal 18 6, 80 bytes
65472 choices: refusal 17 0, 0 bytes
with seats: refusal 0 0, 152 bytes
choices done: 4, refusal: 0
thread 1: user 1, node 2, mask 1, roles 1, first variable 0
thread 2: user 2, node 8, mask 0, roles 0, first variable 0
thread 3: user 3, node 16, mask 4, roles 1, first variable 0
thread 4: user 3, node 19, mask 0, roles 0, first variable 0
thread 5: user 3, node 25, mask 0, roles 0, first variable 0
thread 6: user 3, node 31, mask 0, roles 0, first variable 0
behind it: ab
seats: refusal 0 0, waited 2, last 26
role 1: taken 1, line 2
role 3: taken 1, line
waiting on kind 1: 1
where it stops: refusal 18 5, waited 2, last 26
role 1: taken 1, line 2
role 3: taken 1, line
waiting on kind 1: 1
a list that stops: refusal 18 5, 152 bytes
too many seats: refusal 17 0, 0 bytes
two start: refusal 26 2, 0 bytes
round: refusal 0 0, 152 bytes, choices 1,0 2,0
one state: refusal 0 0, row 0
two rows: refusal 18 0, row 2
a word less: refusal 18 0, row 1
no row: refusal 17 0, row 0
one byte: refusal 1 0, row 0
a seat: refusal 17 0, row 0
all of it: refusal 0 0, row 0
none of it: refusal 17 0, row 0
a row of two: refusal 18 0, row 2
after a number: refusal 0 0, row 0
a number too few: refusal 18 0, row 1
offers: refusal 0 0, offers 2, words 64
thread 1, partner 0, answer 0: 2 0 1 2 0 0 0 0 0 0 0 0 0 0 1 3 0 0 0 0 0 0 0 0 0 0 1 2
thread 2, partner 0, answer 0: 2 0 1 1 0 0 0 0 0 0 0 0 0 0 1 4 0 0 0 0 0 0 0 0 0 0 1 2
behind them: abab
in less: refusal 17 0, offers 1, words 32
thread 1, partner 0, answer 0: 2 0 1 2 0 0 0 0 0 0 0 0 0 0 1 3 0 0 0 0 0 0 0 0 0 0 1 2
a word less: refusal 18 0, offers 0, words 0
a seat: refusal 17 0, offers 0, words 0
one byte: refusal 1 0, offers 0, words 0
merge: refusal 0 0, 266 bytes
its counts: 7 2 2 2 5 28
behind it: ab
read it: clean
measure it: refusal 0 0, 344 bytes, on steps: 5
other tables: refusal 25 0, 0 bytes
too many nodes: refusal 3 0, 0 bytes
the first's own: refusal 10 2, 0 bytes
the second's own: refusal 2 0, 0 bytes
in less: refusal 17 0, 0 bytes
to columns: refusal 0 0, 168 bytes
its version: 3, behind it: ab
measure it: refusal 0 0, 204 bytes, on steps: 3
place it: refusal 0 0, 204 bytes, on steps: 3
its version: 3
to rows: refusal 0 0, 168 bytes
as before: 1
to rows again: refusal 2 0, 0 bytes
in less: refusal 17 0, 0 bytes
in November: refusal 0 0, notice 1, 82 bytes from byte 4 on
read its file: clean
in December: refusal 0 0, notice 2, 150 bytes from byte 4 on
read its file: clean
in October: refusal 28 0, notice 1, 0 bytes from byte 0 on
cut: refusal 27 2, notice 1, 0 bytes from byte 0 on
two days alone: refusal 27 1, notice 1, 0 bytes from byte 0 on
sheet: files 4, refused 1 at 9, sessions 4, on steps 5, most 2, per 1,000: 1250 and 0
cut off: files 3, refused 1 at 9, sessions 3, on steps 3, most 1, per 1,000: 1000 and 0
no files: files 0, refused sessions 0, on steps 0, most 0, per 1,000: 0 and 0
record: refused 6 27
role: refused 13 4
no bytes: clean
place no bytes: refusal 0 0, 26 bytes, on steps: 0
what is placed: clean
one byte: refused 1 0
odd: refused 17 0
unequal: refused 19 2
choices done: 1, refusal: 19
thread 1: user 1, node 1, mask 0, roles 0, first variable 0
thread 2: user 1, node 3, mask 0, roles 0, first variable 0
thread 3: user 1, node 4, mask 0, roles 0, first variable 0
said: Refused 13: no active role permits the step at node 4, a send.
read: 13 3 4 6
said: Refused 3: a count is out of range; no place.
read: 3 0 0 9
said: Refused 23: the row names no such role, or no stretch of the week at row 64.
read: 23 5 64 9
said: Refused 27: the notice has under 4 bytes, a wrong length word or a refused file at notice 2.
read: 27 6 2 9
said: 
read: 0 0 0 0
phrase: Refused 20: it would be the 65th thread or made channel
in less: 0 0
";

/// Runs a command that must succeed.
fn succeed(command: &mut Command) -> Output {
    let output = command.output().expect("it starts");
    let said = String::from_utf8_lossy(&output.stderr);
    assert!(output.status.success(), "{command:?}: {said}");
    output
}

#[test]
fn a_c_program_calls_the_engine() {
    succeed(
        Command::new("cc")
            .current_dir(FOLDER)
            .args(["-std=c99", "-Wall", "-Wextra", "-Werror", "-pedantic"])
            .args(["-I.", "tests/c/desk.c", env!("PILZDAMO_ARCHIVE")])
            .args(["-o", PROGRAM]),
    );
    let examples = format!("{FOLDER}/../../examples");
    let output = succeed(Command::new(PROGRAM).arg(examples));
    let sizes = [
        size_of::<Verdict>(),
        size_of::<Placed>(),
        size_of::<Ready>(),
        size_of::<Round>(),
        size_of::<Totals>(),
        size_of::<Reason>(),
        size_of::<Written>(),
        size_of::<Seats>(),
        size_of::<Thread>(),
        size_of::<InForce>(),
        size_of::<Sheet>(),
        size_of::<Closing>(),
        size_of::<Offers>(),
    ];
    let line = |name: &str, numbers: &[usize]| {
        let numbers: Vec<String> = numbers.iter().map(usize::to_string).collect();
        format!("{name}: {}\n", numbers.join(" "))
    };
    let sizes = line("sizes", &sizes);
    let rooms = line("rooms", &[ROOM, ROOM_1, RUN_ROOM, RECORDS, BESIDE]);
    let hours = line("hours", &[WEEK.into(), ROWS]);
    let rounds = line("rounds", &[ROUND_WORDS, BEFORE_ROUND]);
    let totals = line("totals", &[TOTALS]);
    let seats = line("seats", &[ROLES, SESSIONS, LINE_WORDS, SEATS.into()]);
    let offers = line("offers", &[ROW_WORDS, OFFERS_ROOM]);
    let sheets = line("sheets", &[NUMBERS, SHEET_FILES]);
    let counts = Counts::ALL.map(|counts| usize::from(counts.number()));
    let reasons = [&[SENTENCE, NO_TAG.into()][..], &counts].concat();
    let reasons = line("reasons", &reasons);
    let printed = String::from_utf8_lossy(&output.stdout);
    let lines = sizes + &rooms + &hours + &rounds + &totals + &seats + &offers;
    let lines = lines + &sheets + &reasons;
    assert_eq!(printed, lines + PRINTED);
}
