use crate::cases::{booking, cases, choose_cases, place_cases, placed_booking, run_cases};
use crate::cases::{check_at_cases, place_at_cases, round_cases, start_cases, totals_cases};
use crate::cases::{closing_cases, closing_part_cases, offers_cases};
use crate::cases::{merge_cases, notice_cases, reason_cases, records, sheet_cases};
use crate::cases::{seat_cases, seated_round_cases, turn_cases, Turn};
use crate::cases::{Due, DueOfBoth, BOOKING, NO_SENTENCES};
use crate::draft::{set_word, to_bytes, Draft};
use crate::{begin, closing, closing_part, merge, offers, resume, search, total, totals};
use crate::{cause, cause_in_choosing, cause_in_placing, cause_in_run, cause_in_starting};
use crate::{cause_at, cause_in_merging, cause_in_placing_at, cause_in_round, check_at};
use crate::{cause_in_notice, cause_in_notices, in_force, sheet, whole_files, Sheet};
use crate::{cause_in_reason, phrase, read_reason, reason};
use crate::{cause_in_seated_run, round_seated, run_seated, seats};
use crate::{cause_in_turning, to_columns, to_rows, TURNED_ROOM};
use crate::{check, choose, is_of_file, is_of_reading, measure, measure_at};
use crate::{place, place_at, read, read_names, ready, round, run, start};
use crate::{
    Cause, Certificate, Closing, Placed, Reason, Run, Thread, Unsaid, Verdict, Version, Written,
    SENTENCE,
};
use crate::{BEFORE_ROUND, BEFORE_TOTALS, BESIDE, MERGED_ROOM, RECORDS, ROOM, RUN_ROOM};
use std::collections::BTreeSet;

fn verdict((number, place): (u16, u16)) -> Verdict {
    Verdict { number, place }
}

#[test]
fn named_cases() {
    for case in cases() {
        let (file, name) = (&case.file, case.name);
        let [shape, names] = [case.by(is_of_reading), case.by(is_of_file)].map(verdict);
        assert_eq!(read(file), shape, "1 to 8: {name}");
        assert_eq!(read_names(file), names, "1 to 10: {name}");
        assert_eq!(check(file), verdict(case.answer), "1 to 13: {name}");
        let told = cause(file).map_or(Verdict::CLEAN, |refusal| refusal.verdict());
        assert_eq!(told, check(file), "cause: {name}");
    }
}

#[test]
fn named_cases_of_placing() {
    for case in place_cases() {
        case.demand("second", place);
        case.demand_measured("second", measure);
        let told = cause_in_placing(&case.file, case.room).map(|refusal| refusal.verdict());
        match case.due {
            Due::Refused(number, place) => assert_eq!(told, Some(Verdict { number, place })),
            Due::Placed(file, _) => {
                assert_eq!(told, None);
                assert_eq!(check(&file), Verdict::CLEAN, "{}", case.name);
            }
        }
    }
}

#[test]
fn named_cases_of_the_check_at_a_minute() {
    let mut causes = BTreeSet::new();
    for case in check_at_cases() {
        case.demand("second", check_at);
        let refusal = cause_at(&case.file, &case.hours, case.minute);
        let told = refusal.map_or(Verdict::CLEAN, |refusal| refusal.verdict());
        assert_eq!((told.number, told.place), case.answer, "{}", case.name);
        causes.extend(refusal.map(|refusal| refusal.cause));
    }
    for cause in [Cause::of_hours(), Cause::of_closed()].concat() {
        assert!(causes.contains(&cause), "no case of {cause:?}");
    }
}

#[test]
fn named_cases_of_placing_at_a_minute() {
    for case in place_at_cases() {
        case.demand("second", place_at);
        case.demand_measured("second", measure_at);
        let (file, room) = (&case.case.file, case.case.room);
        let refusal = cause_in_placing_at(file, &case.hours, case.minute, room);
        let told = refusal.map(|refusal| refusal.verdict());
        match &case.case.due {
            &Due::Refused(number, place) => assert_eq!(told, Some(Verdict { number, place })),
            Due::Placed(placed, _) => {
                assert_eq!(told, None);
                let checked = check_at(placed, &case.hours, case.minute);
                assert_eq!(checked, Verdict::CLEAN, "{}", case.case.name);
            }
        }
    }
}

/// Measuring never answers 17.
#[test]
fn what_is_measured_is_what_is_placed_in_enough_room() {
    for case in place_cases() {
        let placed = place(&case.file, &mut [0; ROOM]);
        assert_eq!(measure(&case.file), placed, "{}", case.name);
    }
    for case in place_at_cases() {
        let (file, hours, minute) = (&case.case.file, &case.hours, case.minute);
        let placed = place_at(file, hours, minute, &mut [0; ROOM]);
        assert_eq!(
            measure_at(file, hours, minute),
            placed,
            "{}",
            case.case.name
        );
    }
}

/// Without rows all roles are open, whatever the minute.
#[test]
fn an_empty_table_changes_nothing() {
    for case in cases() {
        for minute in [0, 5_000, 10_079] {
            assert_eq!(check_at(&case.file, &[], minute), check(&case.file));
        }
    }
    for case in place_cases() {
        case.demand("second", |file, out| place_at(file, &[], 10_079, out));
    }
}

#[test]
fn named_cases_of_running() {
    let mut causes = BTreeSet::new();
    for case in run_cases() {
        case.demand("second", run);
        case.demand_ready("second", ready);
        let refusal = cause_in_run(&case.file, &case.choices, case.room);
        let told = refusal.map_or(Verdict::CLEAN, |refusal| refusal.verdict());
        assert_eq!((told.number, told.place), case.answer, "{}", case.name);
        causes.extend(refusal.map(|refusal| refusal.cause));
    }
    for cause in Cause::of_running() {
        assert!(causes.contains(&cause), "no case of {cause:?}");
    }
}

#[test]
fn named_cases_of_rounds() {
    let mut causes = BTreeSet::new();
    for case in round_cases() {
        case.demand("second", round);
        let refusal = cause_in_round(&case.file, &case.choices, case.room);
        let told = refusal.map_or(Verdict::CLEAN, |refusal| refusal.verdict());
        assert_eq!((told.number, told.place), case.answer, "{}", case.name);
        causes.extend(refusal.map(|refusal| refusal.cause));
    }
    for cause in Cause::of_running() {
        assert!(causes.contains(&cause), "no case of {cause:?}");
    }
    assert_eq!(BEFORE_ROUND, 65_471);
}

#[test]
fn named_cases_of_seats() {
    let mut causes = BTreeSet::new();
    for case in seat_cases() {
        case.demand("second", run_seated);
        case.demand_seats("second", seats);
        let refusal = cause_in_seated_run(&case.file, &case.choices, &case.seats, case.room);
        let told = refusal.map_or(Verdict::CLEAN, |refusal| refusal.verdict());
        assert_eq!((told.number, told.place), case.answer, "{}", case.name);
        causes.extend(refusal.map(|refusal| refusal.cause));
    }
    for cause in Cause::of_seats() {
        assert!(causes.contains(&cause), "no case of {cause:?}");
    }
    for case in seated_round_cases() {
        case.demand("second", round_seated);
    }
}

#[test]
fn named_cases_of_certificates() {
    for case in closing_cases() {
        case.demand("second", closing);
        if case.found {
            let states = case.certificate.places.len();
            let found = |limit| search(&case.file, &case.seats, limit);
            assert_eq!(
                found(states),
                Some(case.certificate.clone()),
                "{}",
                case.name
            );
            assert_eq!(found(states - 1), None, "{}", case.name);
        }
    }
}

/// What holds whole holds in parts, row by row, each with the numbers that the search gave it.
#[test]
fn named_cases_of_parts_of_certificates() {
    for case in closing_part_cases() {
        case.demand("second", closing_part);
    }
    for case in closing_cases().into_iter().filter(|case| case.found) {
        let Certificate {
            states,
            places,
            next,
        } = &case.certificate;
        let mut read = 0;
        for row in 0..places.len() {
            let of_row = |end| {
                let (rows, numbers) = (row..row + 1, read..end);
                closing_part(&case.file, &case.seats, states, places, next, rows, numbers)
            };
            let holds = |end: &usize| of_row(*end) == Closing::CLEAN;
            let mut ends = (read..=next.len()).filter(holds);
            let end = ends.next().expect("it holds");
            assert_eq!(ends.next(), None, "{}", case.name);
            read = end;
        }
        assert_eq!(read, next.len(), "{}", case.name);
    }
}

#[test]
fn named_cases_of_offers() {
    for case in offers_cases() {
        case.demand("second", offers);
    }
}

/// With all words 0 runs, rounds and totals are those without seats.
#[test]
fn without_limits_nothing_changes() {
    let seats_of = |file: &[u8]| vec![0; file.get(4).copied().unwrap_or(0).into()];
    for case in run_cases() {
        if is_of_file(case.answer.0) {
            continue;
        }
        let table = seats_of(&case.file);
        case.demand("second", |file, choices, out| {
            let told = run_seated(file, choices, &table, out);
            verdict((told.number, told.place))
        });
        let read = seats(&case.file, &case.choices, &table);
        assert_eq!(read.totals, totals(&case.file, &case.choices).totals);
        assert_eq!((read.waited, read.last), (0, 0), "{}", case.name);
    }
    for case in round_cases() {
        if is_of_file(case.answer.0) {
            continue;
        }
        let table = seats_of(&case.file);
        case.demand("second", |file, choices, out| {
            round_seated(file, choices, &table, out)
        });
    }
}

/// What is written is what a run through the list and then the round's choices
/// writes.
#[test]
fn a_round_is_the_run_through_both_lists() {
    for case in round_cases() {
        if case.answer != (0, 0) {
            continue;
        }
        let both = [&case.choices[..], &case.round].concat();
        let (mut out, mut due) = ([0; RUN_ROOM], [0; RUN_ROOM]);
        round(&case.file, &case.choices, &mut out);
        assert_eq!(run(&case.file, &both, &mut due), Verdict::CLEAN);
        assert_eq!(out, due, "{}", case.name);
    }
}

#[test]
fn named_cases_of_starting() {
    let mut causes = BTreeSet::new();
    for case in start_cases() {
        case.demand("second", start);
        let (threads, beside) = case.lists();
        let refusal = cause_in_starting(&case.file, &threads, &beside);
        let told = refusal.map_or(Verdict::CLEAN, |refusal| refusal.verdict());
        assert_eq!((told.number, told.place), case.answer, "{}", case.name);
        causes.extend(refusal.map(|refusal| refusal.cause));
    }
    for cause in Cause::of_starting() {
        assert!(causes.contains(&cause), "no case of {cause:?}");
    }
}

#[test]
fn named_cases_of_choosing() {
    let mut causes = BTreeSet::new();
    for case in choose_cases() {
        case.demand("second", choose);
        let (threads, beside) = case.lists();
        let [thread, partner] = case.choice;
        let refusal = cause_in_choosing(&case.file, &threads, &beside, thread, partner);
        let told = refusal.map_or(Verdict::CLEAN, |refusal| refusal.verdict());
        assert_eq!((told.number, told.place), case.answer, "{}", case.name);
        causes.extend(refusal.map(|refusal| refusal.cause));
    }
    for cause in Cause::of_choosing() {
        assert!(causes.contains(&cause), "no case of {cause:?}");
    }
}

#[test]
fn named_cases_of_totals() {
    for case in totals_cases() {
        case.demand("second", totals);
    }
}

/// Goes through a list of a file that runs, with the totals counted anew and read
/// from the desk's words at the start and after every choice.
fn assert_totals(name: &str, file: &[u8], choices: &[u16]) {
    let Ok(mut run) = begin(file) else { return };
    let (mut threads, mut beside) = ([Thread::default(); RECORDS], [7; BESIDE]);
    assert_eq!(start(file, &mut threads, &mut beside), Verdict::CLEAN);
    let assert_kept = |run: &Run, beside: &[u16], done: usize| {
        assert_eq!(run.totals(), &run.counted_totals(), "{name} after {done}");
        assert_eq!(beside[BEFORE_TOTALS..], *run.totals(), "{name}: lent");
        let so_far = totals(file, &choices[..2 * done]);
        assert_eq!((so_far.number, so_far.totals), (0, *run.totals()), "{name}");
        for (kind, total_due) in (1..).zip(run.totals()) {
            assert_eq!(total(beside, kind), *total_due, "{name}: kind {kind}");
        }
    };
    assert_kept(&run, &beside, 0);
    for (done, &[thread, partner]) in (1..).zip(choices.as_chunks().0) {
        let verdict = choose(file, &mut threads, &mut beside, thread, partner);
        if run.choose(thread, partner).is_err() {
            assert_eq!(verdict.place, 1, "{name}");
            assert_kept(&run, &beside, done - 1);
            break;
        }
        assert_eq!(verdict, Verdict::CLEAN, "{name}");
        assert_kept(&run, &beside, done);
        let lent = resume(file, &threads, &beside).expect("it may be lent again");
        assert_eq!(lent.totals(), run.totals(), "{name}: lent again");
    }
}

/// Totals step by step, in all lists that aren't very long.
#[test]
fn totals_are_kept_at_every_choice() {
    let runs = run_cases().into_iter();
    let runs = runs.map(|case| (case.name, case.file, case.choices));
    let rounds = round_cases().into_iter();
    let rounds = rounds.map(|case| (case.name, case.file, [case.choices, case.round].concat()));
    let of_totals = totals_cases().into_iter();
    let of_totals = of_totals.map(|case| (case.name, case.file, case.choices));
    for (name, file, choices) in runs.chain(rounds).chain(of_totals) {
        if choices.len() < 1_000 && choices.len().is_multiple_of(2) {
            assert_totals(name, &file, &choices);
        }
    }
}

#[test]
fn a_total_is_read_from_162_words() {
    let mut beside = [0; BESIDE];
    for (at, word) in beside.iter_mut().enumerate() {
        *word = at as u16 + 1_000;
    }
    assert_eq!(BESIDE, 162);
    assert_eq!(total(&beside, 0), 0);
    assert_eq!(total(&beside, 1), 1_130);
    assert_eq!(total(&beside, 2), 1_131);
    assert_eq!(total(&beside, 32), 1_161);
    for kind in [33, 34, 64, 256, 257, 288, 65_535] {
        assert_eq!(total(&beside, kind), 0);
    }
    let longer = [9; 324];
    for words in (0..162).chain(163..324) {
        assert_eq!(total(&longer[..words], 1), 0, "{words} words");
        assert_eq!(total(&longer[..words], 32), 0, "{words} words");
    }
}

#[test]
fn the_booking_of_the_runs_is_placed() {
    let mut out = [0; ROOM];
    let due = placed_booking().bytes();
    let placed = place(&booking().bytes(), &mut out);
    assert_eq!(placed, Placed::written(due.len() as u16, 3));
    assert_eq!(out[..due.len()], due);
}

#[test]
fn the_booking_is_built_as_the_paper_writes_it() {
    let file = to_bytes(&BOOKING);
    assert_eq!(file.len(), 82);
    let built = |name| cases().into_iter().find(|c| c.name == name).unwrap().file;
    assert_eq!(built("the booking"), file);
    assert_eq!(built("the booking, placed").len(), 94);
}

#[test]
fn the_largest_files() {
    assert_eq!(Version::ALL.map(Version::header), [13, 14, 14]);
    assert_eq!(Version::ALL.map(Version::largest), [6_874, 6_908, 6_908]);
    assert_eq!(ROOM, 6_908);
}

/// 21 comes after 6.
fn turn(cause: &Cause) -> u16 {
    match cause.number() {
        21 => 2 * 6 + 1,
        number => 2 * number,
    }
}

#[test]
fn causes_are_listed_once_and_in_order() {
    let all = [Cause::all(), Cause::of_placing()].concat();
    assert!(all.windows(2).all(|two| two[0] < two[1]));
    assert!(all.is_sorted_by_key(turn));
    assert_eq!(all.last().map(|cause| cause.number()), Some(17));
    let of_running = Cause::of_running();
    assert!(of_running.windows(2).all(|two| two[0] < two[1]));
    let of_choosing = Cause::of_choosing();
    assert!(of_choosing.windows(2).all(|two| two[0] < two[1]));
    let at_choices = of_running.split_at(3).1;
    assert!(of_choosing.ends_with(at_choices));
    assert!(at_choices.is_sorted_by_key(|cause| cause.number()));
    assert_eq!(at_choices.last().map(|cause| cause.number()), Some(20));
}

/// The writer by a reason.
fn say(of: Reason, out: &mut [u8]) -> u16 {
    reason(of.number, of.counts, of.place, of.tag, out)
}

#[test]
fn named_cases_of_reasons() {
    for case in reason_cases() {
        case.demand("second", say);
        case.demand_read("second", read_reason);
        let unsaid = cause_in_reason(case.reason, SENTENCE);
        assert_eq!(unsaid.is_none(), case.sentence.is_some());
        assert_eq!(cause_in_reason(case.reason, 119), Some(Unsaid::Room));
    }
    for sentence in NO_SENTENCES {
        let told = read_reason(sentence.as_bytes());
        assert_eq!(told, Reason::NONE, "{sentence}");
    }
}

/// Every reason with a place that is one of these: its sentence begins with its
/// number's phrase, has at most 120 bytes, is read back, and no other has it.
#[test]
fn every_reason_has_its_own_sentence() {
    let (mut sentences, mut count) = (BTreeSet::new(), 0);
    for number in 0..=40 {
        for counts in 0..=7 {
            for tag in 0..=10 {
                for place in [0, 1, 9, 10, 99, 100, 999, 1_000, 9_999, 10_000, 65_535] {
                    let of = Reason {
                        number,
                        counts,
                        place,
                        tag,
                    };
                    let (mut out, mut meaning) = ([0; SENTENCE], [0; SENTENCE]);
                    let length = usize::from(say(of, &mut out));
                    assert_eq!(length == 0, cause_in_reason(of, SENTENCE).is_some());
                    if length == 0 {
                        continue;
                    }
                    assert_eq!(read_reason(&out[..length]), of);
                    let start = usize::from(phrase(number, &mut meaning));
                    assert!(start > 0 && out.starts_with(&meaning[..start]));
                    assert!(sentences.insert(out[..length].to_vec()));
                    count += 1;
                }
            }
        }
    }
    // Twelve of no place; of each place 15 without a tag, and seven numbers with nine tags.
    assert_eq!((sentences.len(), count), (count, 12 + 10 * (15 + 7 * 9)));
}

#[test]
fn phrases_of_numbers() {
    for number in (0..=40).chain([256, 257, 65_535]) {
        for room in [0, 119, 120, 121] {
            let mut out = vec![0xa5; room];
            let length = usize::from(phrase(number, &mut out));
            let due = (1..=28).contains(&number) && room >= 120;
            assert_eq!(length > 0, due, "{number} in {room} bytes");
            assert!(out[length..].iter().all(|byte| *byte == 0xa5));
        }
    }
    let mut out = [0; SENTENCE];
    let length = usize::from(phrase(13, &mut out));
    let due = "Refused 13: no active role permits the step";
    assert_eq!(String::from_utf8_lossy(&out[..length]), due);
}

#[test]
fn named_cases_of_merging() {
    let mut causes = BTreeSet::new();
    for case in merge_cases() {
        case.demand("second", merge);
        let refusal = cause_in_merging(&case.first, &case.second, case.room);
        let told = refusal.map(|refusal| refusal.verdict());
        match case.due {
            DueOfBoth::Refused(number, place) => assert_eq!(told, Some(Verdict { number, place })),
            DueOfBoth::Merged(_) => assert_eq!(told, None, "{}", case.name),
        }
        causes.extend(refusal.map(|refusal| refusal.cause));
    }
    let due = [
        vec![Cause::OutputTooShort],
        [Version::Two, Version::Three]
            .map(Cause::OtherVersion)
            .to_vec(),
        Cause::of_both(),
    ];
    for cause in due.concat() {
        assert!(causes.contains(&cause), "no case of {cause:?}");
    }
}

/// Two files that are merged pass the check exactly if both do, and are placed with
/// the on steps of both: the cases of checking and of placing, each with itself and
/// with the next of the same tables.
#[test]
fn merged_files_are_judged_as_both() {
    let checked = cases().into_iter().map(|case| case.file);
    let placed = place_cases().into_iter().map(|case| case.file);
    let files: Vec<_> = checked.chain(placed).collect();
    let (mut merged, mut passed, mut placed) = (0, 0, 0);
    for (at, first) in files.iter().enumerate() {
        for second in &files[at..files.len().min(at + 20)] {
            let mut out = [0; MERGED_ROOM];
            let written = merge(first, second, &mut out);
            if written.number != 0 {
                continue;
            }
            let both = &out[..written.length.into()];
            merged += 1;
            assert_eq!(read_names(both), Verdict::CLEAN);
            let pass = |file: &[u8]| check(file) == Verdict::CLEAN;
            assert_eq!(pass(both), pass(first) && pass(second));
            passed += usize::from(pass(both));
            let steps = [first, second, both].map(measure);
            if steps.iter().all(|placed| placed.number == 0) {
                let [one, other, all] = steps.map(|placed| placed.on_steps);
                assert_eq!(one + other, all);
                placed += usize::from(one > 0 && other > 0);
            }
        }
    }
    assert!(
        merged > 500 && passed > 50 && placed > 100,
        "{merged} {passed} {placed}"
    );
}

fn turned(turn: Turn, file: &[u8], out: &mut [u8]) -> Written {
    match turn {
        Turn::ToColumns => to_columns(file, out),
        Turn::ToRows => to_rows(file, out),
    }
}

#[test]
fn named_cases_of_turning() {
    let mut causes = BTreeSet::new();
    for case in turn_cases() {
        case.demand("second", turned);
        let refusal = cause_in_turning(case.turn.from(), &case.file, case.room);
        let told = refusal.map(|refusal| refusal.cause.number());
        assert_eq!(told, case.due.as_ref().err().copied(), "{}", case.name);
        causes.extend(refusal.map(|refusal| refusal.cause));
    }
    for cause in [Version::One, Version::Two, Version::Three].map(Cause::OtherVersion) {
        assert!(causes.contains(&cause), "no case of {cause:?}");
    }
}

/// The column file of a version 2 file; where 1 to 5 refuse it, the same with a first
/// word of 3.
fn by_column(file: &[u8]) -> Vec<u8> {
    let mut out = vec![0; TURNED_ROOM];
    let written = to_columns(file, &mut out);
    if written.number == 0 {
        out.truncate(written.length.into());
        return out;
    }
    let mut file = file.to_vec();
    set_word(&mut file, 0, 3);
    file
}

/// The cases of version 2 have the same answers by column, and what is placed keeps
/// its form.
#[test]
fn column_files_are_answered_as_their_rows() {
    let is_second = |file: &[u8]| file.len() >= 2 && Version::claimed(file) == Version::Two;
    let (mut checked, mut placings, mut runs) = (0, 0, 0);
    for case in cases().into_iter().filter(|case| is_second(&case.file)) {
        let columns = by_column(&case.file);
        assert_eq!(read(&columns), read(&case.file), "{}", case.name);
        assert_eq!(check(&columns), check(&case.file), "{}", case.name);
        checked += 1;
    }
    for case in place_cases() {
        if !is_second(&case.file) || case.room < ROOM {
            continue;
        }
        let (mut out, mut of_rows) = ([0; ROOM], [0; ROOM]);
        let placed = place(&by_column(&case.file), &mut out);
        assert_eq!(placed, place(&case.file, &mut of_rows), "{}", case.name);
        let length = usize::from(placed.length);
        if placed.number == 0 {
            assert_eq!(out[..length], by_column(&of_rows[..length]));
            placings += 1;
        }
    }
    for case in run_cases() {
        if is_second(&case.file) {
            case.demand("by column", |file, choices, out| {
                run(&by_column(file), choices, out)
            });
            runs += 1;
        }
    }
    assert!(checked > 50 && placings > 5 && runs > 5);
}
#[test]
fn named_cases_of_notices() {
    let mut causes = BTreeSet::new();
    for case in notice_cases() {
        case.demand("second", in_force);
        let refusal = cause_in_notices(&case.first, &case.second, case.day);
        let told = refusal.map_or(Verdict::CLEAN, |refusal| refusal.verdict());
        let due = verdict((case.due.number, case.due.place));
        assert_eq!(told, due, "{}", case.name);
        let unsound = [&case.first, &case.second].map(|notice| cause_in_notice(notice));
        assert_eq!(unsound != [None; 2], due.number == 27, "{}", case.name);
        causes.extend(refusal.map(|refusal| refusal.cause));
    }
    for cause in [Cause::of_notices(), vec![Cause::NotBegun]].concat() {
        assert!(causes.contains(&cause), "no case of {cause:?}");
    }
}

#[test]
fn named_cases_of_sheets() {
    let mut numbers = BTreeSet::new();
    for case in sheet_cases() {
        case.demand("second", sheet);
        let refused = (1..).zip(case.due.refused);
        numbers.extend(refused.filter(|(_, count)| *count > 0).map(|(n, _)| n));
    }
    let due = (1..=10).chain([14, 15, 16, 21]);
    assert_eq!(numbers, due.collect());
}

/// A sheet by placing each file by itself, and counting the on nodes of what is
/// written, tree by tree.
fn by_placing(input: &[u8]) -> Sheet {
    let mut sheet = Sheet::default();
    for file in whole_files(input) {
        let mut out = [0; ROOM];
        let placed = place(file, &mut out);
        sheet.files += 1;
        if placed.number != 0 {
            sheet.refused[usize::from(placed.number) - 1] += 1;
            continue;
        }
        let draft = Draft::of(&out[..placed.length.into()]);
        sheet.sessions += draft.sessions.len() as u32;
        sheet.on_steps += u32::from(placed.on_steps);
        let ends = draft.sessions.iter().skip(1).map(|[_, _, root]| *root);
        let ends = ends.chain([draft.nodes.len() as u16 + 1]);
        for ([_, _, root], end) in draft.sessions.iter().zip(ends) {
            let tree = &draft.nodes[usize::from(*root) - 1..usize::from(end) - 1];
            let on = tree.iter().filter(|[tag, ..]| *tag == 7).count();
            sheet.most = sheet.most.max(on as u32);
        }
    }
    if sheet.sessions > 0 {
        sheet.quotient = 1_000 * sheet.on_steps / sheet.sessions;
        sheet.remainder = 1_000 * sheet.on_steps % sheet.sessions;
    }
    sheet
}

/// All the cases of placing in one sheet, in two orders.
#[test]
fn a_sheet_is_what_placing_gives() {
    for case in sheet_cases() {
        assert_eq!(sheet(&case.input), by_placing(&case.input), "{}", case.name);
    }
    let mut files: Vec<_> = place_cases().into_iter().map(|case| case.file).collect();
    files.retain(|file| file.len() <= usize::from(u16::MAX));
    let told = sheet(&records(&files));
    assert_eq!(told, by_placing(&records(&files)));
    assert!(
        told.files > 50 && told.sessions > 30 && told.most > 5,
        "{told:?}"
    );
    files.reverse();
    assert_eq!(sheet(&records(&files)), told);
}
