//! What is timed: a question to both, with its input.

use crate::timing::{Samples, Times, ROUNDS};
use second::cases::Turn;
use second::{Certificate, Closing, Ready, Reason, Verdict, SENTENCE};
use second::{BEFORE_TOTALS, MERGED_ROOM, ROOM, RUN_ROOM};
use std::hint::black_box;
use std::ops::Range;
use trials::{At, Certified, Dealt, Lending, Lent, Lists, Notices, Pair, Part, Seated, Turned};

/// A question and what it is asked of.
#[derive(Clone)]
pub enum Input {
    Read(Vec<u8>),
    Check(Vec<u8>),
    Place {
        file: Vec<u8>,
        /// What it is refused with, 0 if it is placed.
        number: u16,
    },
    /// A file that can be placed.
    Measure(Vec<u8>),
    /// A file that passes at the minute.
    CheckAt(At),
    /// A file that is placed at the minute.
    PlaceAt(At),
    /// A run to the end of its list.
    Run {
        file: Vec<u8>,
        choices: Vec<u16>,
    },
    /// A round of so many choices after a list that is done.
    Round {
        file: Vec<u8>,
        choices: Vec<u16>,
        count: usize,
    },
    /// A run to the end of its list, a round after it, and what is read of the seats,
    /// with a table of seats.
    RunSeated(Seated),
    RoundSeated(Seated),
    Seats(Seated),
    /// A certificate that holds, and parts of it.
    Closed(Certified),
    ClosedParts(Certified, Vec<Part>),
    /// A certificate that holds, for what is offered in each of its states.
    Offers(Certified),
    /// A ready pair that isn't there.
    Ready {
        file: Vec<u8>,
        choices: Vec<u16>,
    },
    /// The totals after a list that is done.
    Totals {
        file: Vec<u8>,
        choices: Vec<u16>,
    },
    /// A send that is done.
    Choose(Lent),
    /// A start in these lists.
    Start(Lent),
    /// A reason that has this sentence.
    Reason {
        reason: Reason,
        sentence: Vec<u8>,
    },
    /// A sentence that is read.
    ReadReason(Vec<u8>),
    /// Two files that are merged.
    Merge([Vec<u8>; 2]),
    /// A file that is turned.
    Turn {
        turn: Turn,
        file: Vec<u8>,
    },
    /// Two notices of which one is in force on the day.
    InForce(Notices),
    /// Files in a row.
    Sheet(Vec<u8>),
    /// Files that can be placed, each measured by itself.
    MeasureEach(Vec<Vec<u8>>),
}

/// A row of a table.
pub struct Case {
    pub name: String,
    pub input: Input,
    /// The calls of a sample.
    pub calls: u32,
}

impl Case {
    pub fn new(name: impl Into<String>, input: Input, calls: u32) -> Case {
        let name = name.into();
        Case { name, input, calls }
    }

    /// The file, the sentence, or all records; the first of several files or notices.
    pub fn bytes(&self) -> &[u8] {
        match &self.input {
            Input::Read(file) | Input::Check(file) | Input::Measure(file) => file,
            Input::Place { file, .. } | Input::Run { file, .. } => file,
            Input::Round { file, .. } | Input::Totals { file, .. } => file,
            Input::Ready { file, .. } => file,
            Input::Choose(Lent { file, .. }) | Input::Start(Lent { file, .. }) => file,
            Input::CheckAt(At { file, .. }) | Input::PlaceAt(At { file, .. }) => file,
            Input::Reason { sentence, .. } | Input::ReadReason(sentence) => sentence,
            Input::Merge([file, _]) | Input::Turn { file, .. } => file,
            Input::RunSeated(seated) | Input::RoundSeated(seated) => &seated.dealt.file,
            Input::Seats(seated) => &seated.dealt.file,
            Input::Closed(certified) | Input::ClosedParts(certified, _) => &certified.file,
            Input::Offers(certified) => &certified.file,
            Input::InForce(Notices { first, .. }) => first,
            Input::Sheet(input) => input,
            Input::MeasureEach(files) => &files[0],
        }
    }

    /// How many bytes it has, or all files or notices.
    pub fn length(&self) -> usize {
        match &self.input {
            Input::Merge(files) => files.iter().map(Vec::len).sum(),
            Input::InForce(Notices { first, second, .. }) => first.len() + second.len(),
            Input::MeasureEach(files) => files.iter().map(Vec::len).sum(),
            _ => self.bytes().len(),
        }
    }

    /// How many states it goes through, of a certificate.
    pub fn states(&self) -> Option<usize> {
        match &self.input {
            Input::Closed(certified) | Input::ClosedParts(certified, _) => {
                Some(certified.certificate.places.len())
            }
            Input::Offers(certified) => Some(certified.certificate.places.len()),
            _ => None,
        }
    }

    /// Both answer the same, and what is due. Gives the bytes that are written.
    pub fn agree(&self) -> Vec<u8> {
        let name = &self.name;
        match &self.input {
            Input::Read(file) | Input::Check(file) => {
                assert_eq!(trials::agreed(file, name), (0, 0));
                Vec::new()
            }
            Input::Place { file, number } => {
                let (placed, mut out) = trials::agreed_placing(file, &[0; ROOM], name);
                assert_eq!(placed.number, *number, "{name}");
                out.truncate(placed.length.into());
                out
            }
            Input::Measure(file) => {
                assert_eq!(trials::agreed_measure(file, name).number, 0, "{name}");
                Vec::new()
            }
            Input::CheckAt(at) => {
                let verdict = trials::agreed_check_at(at, name);
                assert_eq!(verdict, Verdict::CLEAN, "{name}");
                Vec::new()
            }
            Input::PlaceAt(at) => {
                let (placed, mut out) = trials::agreed_placing_at(at, &[0; ROOM], name);
                assert_eq!(placed.number, 0, "{name}");
                out.truncate(placed.length.into());
                out
            }
            Input::Run { file, choices } => {
                let (verdict, out) = trials::agreed_run(&dealt(file, choices), name);
                assert_eq!(verdict, Verdict::CLEAN, "{name}");
                out
            }
            Input::Round {
                file,
                choices,
                count,
            } => {
                let (round, out) = trials::agreed_round(&dealt(file, choices), name);
                assert_eq!(round.number, 0, "{name}");
                assert_eq!(trials::choices_of(&round).len(), *count, "{name}");
                out
            }
            Input::RunSeated(seated) | Input::RoundSeated(seated) | Input::Seats(seated) => {
                let told = trials::agreed_seated(seated, name);
                assert_eq!(told.run.number, 0, "{name}");
                told.out
            }
            Input::Closed(certified) => {
                let closing = trials::agreed_closing(certified, name);
                assert_eq!(closing, Closing::CLEAN, "{name}");
                Vec::new()
            }
            Input::ClosedParts(certified, parts) => {
                for part in parts {
                    let closing = trials::agreed_part(certified, part, name);
                    assert_eq!(closing, Closing::CLEAN, "{name}");
                }
                Vec::new()
            }
            Input::Offers(certified) => {
                for state in rows(certified) {
                    let lending = Lending {
                        file: certified.file.clone(),
                        seats: certified.seats.clone(),
                        state: state.to_vec(),
                        before: vec![0; OFFERS],
                    };
                    assert_eq!(trials::agreed_offers(&lending, name).0.number, 0, "{name}");
                }
                Vec::new()
            }
            Input::Ready { file, choices } => {
                let none = Ready::pair(0, 0);
                assert_eq!(trials::engine_ready(file, choices), none, "{name}");
                assert_eq!(second::ready(file, choices), none, "{name}");
                Vec::new()
            }
            Input::Totals { file, choices } => {
                let told = trials::agreed_totals(file, choices, name);
                assert_eq!(told.number, 0, "{name}");
                Vec::new()
            }
            Input::Start(Lent { file, lists, .. }) => {
                let (verdict, _) = trials::agreed_start(file, lists, name);
                assert_eq!(verdict, Verdict::CLEAN, "{name}");
                Vec::new()
            }
            Input::Merge([first, second]) => {
                let pair = Pair {
                    first: first.clone(),
                    second: second.clone(),
                    before: vec![0; MERGED_ROOM],
                };
                let (written, mut out) = trials::agreed_merge(&pair, name);
                assert_eq!(written.number, 0, "{name}");
                out.truncate(written.length.into());
                out
            }
            Input::Turn { turn, file } => {
                let turned = Turned {
                    turn: *turn,
                    file: file.clone(),
                    before: vec![0; ROOM],
                };
                let (written, mut out) = trials::agreed_turn(&turned, name);
                assert_eq!(written.number, 0, "{name}");
                out.truncate(written.length.into());
                out
            }
            Input::InForce(notices) => {
                assert_eq!(trials::agreed_in_force(notices, name).number, 0, "{name}");
                Vec::new()
            }
            Input::Sheet(input) => {
                let sheet = trials::agreed_sheet(input, name);
                assert_eq!((sheet.files, sheet.refused), (1_000, [0; 28]), "{name}");
                Vec::new()
            }
            Input::MeasureEach(files) => {
                for file in files {
                    assert_eq!(trials::agreed_measure(file, name).number, 0, "{name}");
                }
                Vec::new()
            }
            Input::Choose(Lent {
                file,
                lists,
                choice,
            }) => {
                let (verdict, _) = trials::agreed_choice(file, lists, *choice, name);
                assert_eq!(verdict, Verdict::CLEAN, "{name}");
                Vec::new()
            }
            Input::Reason { reason, sentence } => {
                let said = trials::agreed_reason(*reason, &[0; SENTENCE]);
                assert_eq!(said, *sentence, "{name}");
                said
            }
            Input::ReadReason(sentence) => {
                assert_ne!(trials::agreed_read(sentence), Reason::NONE, "{name}");
                Vec::new()
            }
        }
    }

    /// Times both for a round.
    pub fn time(&self, samples: &mut Samples) {
        match &self.input {
            Input::Read(file) => samples.take(
                self.calls,
                || pilzdamo::read(black_box(file)),
                || second::read_names(black_box(file)),
            ),
            Input::Check(file) => samples.take(
                self.calls,
                || pilzdamo::check(black_box(file)),
                || second::check(black_box(file)),
            ),
            Input::Place { file, .. } => {
                let (mut out, mut of_second) = (vec![0; ROOM], vec![0; ROOM]);
                samples.take(
                    self.calls,
                    || pilzdamo::place(black_box(file), black_box(&mut out)),
                    || second::place(black_box(file), black_box(&mut of_second)),
                );
            }
            Input::Measure(file) => samples.take(
                self.calls,
                || pilzdamo::measure(black_box(file)),
                || second::measure(black_box(file)),
            ),
            Input::CheckAt(At {
                file,
                hours,
                minute,
            }) => samples.take(
                self.calls,
                || pilzdamo::check_at(black_box(file), black_box(hours), *minute),
                || second::check_at(black_box(file), black_box(hours), *minute),
            ),
            Input::PlaceAt(at) => place_at(at, self.calls, samples),
            Input::Run { file, choices } => {
                let input = || (black_box(&file[..]), black_box(&choices[..]));
                let (mut out, mut of_second) = (vec![0; RUN_ROOM], vec![0; RUN_ROOM]);
                let engine = || {
                    let (file, choices) = input();
                    pilzdamo::run(file, choices, black_box(&mut out))
                };
                let second = || {
                    let (file, choices) = input();
                    second::run(file, choices, black_box(&mut of_second))
                };
                samples.take(self.calls, engine, second);
            }
            Input::Round { file, choices, .. } => round(file, choices, self.calls, samples),
            Input::RunSeated(seated) => seated_call(
                seated,
                self.calls,
                samples,
                pilzdamo::run_seated,
                second::run_seated,
            ),
            Input::RoundSeated(seated) => seated_call(
                seated,
                self.calls,
                samples,
                pilzdamo::round_seated,
                second::round_seated,
            ),
            Input::Seats(seated) => seated_call(
                seated,
                self.calls,
                samples,
                |file, choices, seats, _| pilzdamo::seats(file, choices, seats),
                |file, choices, seats, _| second::seats(file, choices, seats),
            ),
            Input::Closed(certified) => samples.take(
                self.calls,
                || black_box(certified).asked(trials::engine_closing),
                || black_box(certified).asked(second::closing),
            ),
            Input::ClosedParts(certified, parts) => samples.take(
                self.calls,
                || closed_parts(certified, parts, trials::engine_closing_part),
                || closed_parts(certified, parts, second::closing_part),
            ),
            Input::Offers(certified) => {
                let (mut out, mut of_second) = (vec![0; OFFERS], vec![0; OFFERS]);
                samples.take(
                    self.calls,
                    || offers(certified, &mut out, pilzdamo::offers),
                    || offers(certified, &mut of_second, second::offers),
                );
            }
            Input::Ready { file, choices } => samples.take(
                self.calls,
                || pilzdamo::ready(black_box(file), black_box(choices)),
                || second::ready(black_box(file), black_box(choices)),
            ),
            Input::Totals { file, choices } => samples.take(
                self.calls,
                || pilzdamo::totals(black_box(file), black_box(choices)),
                || second::totals(black_box(file), black_box(choices)),
            ),
            Input::Choose(lent) => choose(lent, self.calls, samples),
            Input::Start(lent) => start(lent, self.calls, samples),
            Input::Reason { reason, .. } => {
                let (mut out, mut of_second) = ([0; SENTENCE], [0; SENTENCE]);
                samples.take(
                    self.calls,
                    || trials::engine_reason(black_box(*reason), black_box(&mut out)),
                    || trials::second_reason(black_box(*reason), black_box(&mut of_second)),
                );
            }
            Input::ReadReason(sentence) => samples.take(
                self.calls,
                || pilzdamo::read_reason(black_box(sentence)),
                || second::read_reason(black_box(sentence)),
            ),
            Input::Merge(files) => merge(files, self.calls, samples),
            Input::Turn { turn, file } => {
                let (mut out, mut of_second) = (vec![0; ROOM], vec![0; ROOM]);
                samples.take(
                    self.calls,
                    || trials::engine_turn(*turn, black_box(file), black_box(&mut out)),
                    || trials::second_turn(*turn, black_box(file), black_box(&mut of_second)),
                );
            }
            Input::InForce(Notices { first, second, day }) => samples.take(
                self.calls,
                || pilzdamo::in_force(black_box(first), black_box(second), *day),
                || second::in_force(black_box(first), black_box(second), *day),
            ),
            Input::Sheet(input) => samples.take(
                self.calls,
                || pilzdamo::sheet(black_box(input)),
                || second::sheet(black_box(input)),
            ),
            Input::MeasureEach(files) => measure_each(files, self.calls, samples),
        }
    }
}

/// Words of an output that are enough for the offers in spring's states.
pub const OFFERS: usize = 4_000;

/// The words of each row.
pub fn rows(certified: &Certified) -> impl Iterator<Item = &[u16]> {
    let Certificate { states, places, .. } = &certified.certificate;
    let ends = places[1..].iter().map(|end| *end as usize);
    let ends = ends.chain([states.len()]);
    let rows = places.iter().zip(ends);
    rows.map(|(begin, end)| &states[*begin as usize..end])
}

/// All parts, one after the other.
fn closed_parts(
    certified: &Certified,
    parts: &[Part],
    closing: impl Fn(&[u8], &[u16], &[u16], &[u32], &[u32], Range<usize>, Range<usize>) -> Closing,
) {
    for part in parts {
        black_box(black_box(part).asked(black_box(certified), &closing));
    }
}

/// What is offered in each state.
fn offers<V>(
    certified: &Certified,
    out: &mut [u16],
    offers: impl Fn(&[u8], &[u16], &[u16], &mut [u16]) -> V,
) {
    let Certified { file, seats, .. } = certified;
    for state in rows(certified) {
        let _ = black_box(offers(
            black_box(file),
            seats,
            black_box(state),
            black_box(out),
        ));
    }
}

/// A run's input, with an output of zeros.
pub fn dealt(file: &[u8], choices: &[u16]) -> Dealt {
    Dealt {
        file: file.to_vec(),
        choices: choices.to_vec(),
        before: vec![0; RUN_ROOM],
    }
}

fn round(file: &[u8], choices: &[u16], calls: u32, samples: &mut Samples) {
    let input = || (black_box(file), black_box(choices));
    let (mut out, mut of_second) = (vec![0; RUN_ROOM], vec![0; RUN_ROOM]);
    let engine = || {
        let (file, choices) = input();
        pilzdamo::round(file, choices, black_box(&mut out))
    };
    let second = || {
        let (file, choices) = input();
        second::round(file, choices, black_box(&mut of_second))
    };
    samples.take(calls, engine, second);
}

/// A call with a table of seats, of both.
fn seated_call<V, W>(
    seated: &Seated,
    calls: u32,
    samples: &mut Samples,
    engine: impl Fn(&[u8], &[u16], &[u16], &mut [u8]) -> V,
    second: impl Fn(&[u8], &[u16], &[u16], &mut [u8]) -> W,
) {
    let (Dealt { file, choices, .. }, seats) = (&seated.dealt, &seated.seats);
    let input = || (black_box(&file[..]), black_box(&choices[..]));
    let (mut out, mut of_second) = (vec![0; RUN_ROOM], vec![0; RUN_ROOM]);
    let engine = || {
        let (file, choices) = input();
        engine(file, choices, black_box(seats), black_box(&mut out))
    };
    let second = || {
        let (file, choices) = input();
        second(file, choices, black_box(seats), black_box(&mut of_second))
    };
    samples.take(calls, engine, second);
}

fn place_at(at: &At, calls: u32, samples: &mut Samples) {
    let At {
        file,
        hours,
        minute,
    } = at;
    let (mut out, mut of_second) = (vec![0; ROOM], vec![0; ROOM]);
    let input = || (black_box(&file[..]), black_box(&hours[..]));
    let engine = || {
        let (file, hours) = input();
        pilzdamo::place_at(file, hours, *minute, black_box(&mut out))
    };
    let second = || {
        let (file, hours) = input();
        second::place_at(file, hours, *minute, black_box(&mut of_second))
    };
    samples.take(calls, engine, second);
}

fn merge([first, second]: &[Vec<u8>; 2], calls: u32, samples: &mut Samples) {
    let (mut out, mut of_second) = (vec![0; MERGED_ROOM], vec![0; MERGED_ROOM]);
    let input = || (black_box(&first[..]), black_box(&second[..]));
    let engine = || {
        let (first, second) = input();
        pilzdamo::merge(first, second, black_box(&mut out))
    };
    let of_second = || {
        let (first, second) = input();
        second::merge(first, second, black_box(&mut of_second))
    };
    samples.take(calls, engine, of_second);
}

fn measure_each(files: &[Vec<u8>], calls: u32, samples: &mut Samples) {
    let engine = || {
        for file in black_box(files) {
            let _ = black_box(pilzdamo::measure(file));
        }
    };
    let second = || {
        for file in black_box(files) {
            let _ = black_box(second::measure(file));
        }
    };
    samples.take(calls, engine, second);
}

/// A start writes the same each time.
fn start(lent: &Lent, calls: u32, samples: &mut Samples) {
    let Lent { file, lists, .. } = lent;
    let mut threads: Vec<_> = lists.threads.iter().map(trials::to_engine).collect();
    let mut beside = lists.beside.clone();
    let engine = || {
        let (threads, beside) = (black_box(&mut threads), black_box(&mut beside));
        pilzdamo::start(black_box(file), threads, beside)
    };
    let mut of_second = lists.clone();
    let second = || {
        let Lists { threads, beside } = black_box(&mut of_second);
        second::start(black_box(file), threads, beside)
    };
    samples.take(calls, engine, second);
}

/// Before each call the two threads that the send moves and the totals are put back;
/// nothing else is changed by it.
fn choose(lent: &Lent, calls: u32, samples: &mut Samples) {
    let Lent {
        file,
        lists,
        choice,
    } = lent;
    let [thread, partner] = *choice;
    let totals = &lists.beside[BEFORE_TOTALS..];
    let moved = choice.map(|number| usize::from(number) - 1);
    let records: Vec<_> = lists.threads.iter().map(trials::to_engine).collect();
    let (mut threads, mut beside) = (records.clone(), lists.beside.clone());
    let engine = || {
        for at in moved {
            threads[at] = records[at];
        }
        beside[BEFORE_TOTALS..].copy_from_slice(totals);
        let (threads, beside) = (black_box(&mut threads), black_box(&mut beside));
        pilzdamo::choose(black_box(file), threads, beside, thread, partner)
    };
    let mut of_second = lists.clone();
    let second = || {
        for at in moved {
            of_second.threads[at] = lists.threads[at];
        }
        of_second.beside[BEFORE_TOTALS..].copy_from_slice(totals);
        let Lists { threads, beside } = black_box(&mut of_second);
        second::choose(black_box(file), threads, beside, thread, partner)
    };
    samples.take(calls, engine, second);
}

/// Times all cases, round by round.
pub fn time_all(cases: &[&Case]) -> Vec<Times> {
    let mut all: Vec<_> = cases.iter().map(|_| Samples::default()).collect();
    for _ in 0..ROUNDS {
        for (case, samples) in cases.iter().zip(&mut all) {
            case.time(samples);
        }
    }
    all.into_iter().map(Samples::times).collect()
}
