//! How much stack each call needs, on the largest inputs, and that a thread with 64 KiB
//! of it is enough for every call.
//!
//! A call is made on a thread whose stack is painted beforehand: what is no longer
//! painted was used. That a thread needs some stack for itself is measured by one that
//! calls nothing.
#![cfg(all(target_os = "linux", target_arch = "x86_64"))]

use pilzdamo::{Desk, Reason, Thread, BESIDE, NO_TAG, RECORDS, ROOM, RUN_ROOM};
use pilzdamo::{OFFERS_ROOM, SENTENCE};
use second::Version;
use std::ffi::{c_int, c_ulong, c_void};
use std::hint::black_box;

/// The most that a call may need, as docs/API.md says.
const MOST: usize = 48_000;

/// What is enough for a thread that makes calls, as docs/API.md says.
const ENOUGH: usize = 64 * 1024;

/// What a thread is given while its use is measured: more, since nothing guards its end.
const GIVEN: usize = 4 * ENOUGH;

const PAINT: u8 = 0xa5;

#[repr(C, align(4096))]
struct Page([u8; 4096]);

#[repr(C, align(8))]
struct Attributes([u8; 64]);

extern "C" {
    fn pthread_attr_init(attributes: *mut Attributes) -> c_int;
    fn pthread_attr_setstack(attributes: *mut Attributes, from: *mut c_void, size: usize) -> c_int;
    fn pthread_attr_destroy(attributes: *mut Attributes) -> c_int;
    fn pthread_create(
        thread: *mut c_ulong,
        attributes: *const Attributes,
        start: extern "C" fn(*mut c_void) -> *mut c_void,
        argument: *mut c_void,
    ) -> c_int;
    fn pthread_join(thread: c_ulong, result: *mut *mut c_void) -> c_int;
}

type Job<'a> = Box<dyn FnMut() + 'a>;

extern "C" fn begin(argument: *mut c_void) -> *mut c_void {
    // SAFETY: `used` hands over a job that outlives the thread, and joins the thread.
    let job = unsafe { &mut *argument.cast::<Job>() };
    job();
    std::ptr::null_mut()
}

/// The bytes of stack that a thread uses for a job and for itself.
fn used(job: &mut Job) -> usize {
    let mut stack: Vec<Page> = (0..GIVEN / 4096).map(|_| Page([PAINT; 4096])).collect();
    let from = stack.as_mut_ptr();
    // SAFETY: the stack is the vector's own memory, aligned to a page, and neither it nor
    // the job is touched before the thread has been joined.
    unsafe {
        let mut attributes = Attributes([0; 64]);
        assert_eq!(pthread_attr_init(&mut attributes), 0);
        assert_eq!(
            pthread_attr_setstack(&mut attributes, from.cast(), GIVEN),
            0
        );
        let mut thread = 0;
        let argument = (job as *mut Job).cast();
        assert_eq!(pthread_create(&mut thread, &attributes, begin, argument), 0);
        assert_eq!(pthread_join(thread, std::ptr::null_mut()), 0);
        pthread_attr_destroy(&mut attributes);
    }
    let bytes = stack.iter().flat_map(|page| page.0);
    GIVEN - bytes.take_while(|byte| *byte == PAINT).count()
}

/// Files that are large in different ways.
struct Files {
    all: Vec<Vec<u8>>,
    runs: Vec<(Vec<u8>, Vec<u16>)>,
}

fn files() -> Files {
    let seed = trials::seed();
    let mut all = vec![Vec::new(), vec![1], vec![9; 26]];
    for version in [Version::One, Version::Two, Version::Three] {
        all.push(trials::largest(version, seed));
        all.push(trials::typical(version, seed));
        all.push(trials::largest_bare(version, seed));
        all.push(trials::typical_bare(version, seed));
    }
    all.push(trials::full_bare(seed));
    all.push(trials::overfull_bare(seed));
    all.extend(trials::largest_pair(seed));
    // Forks below forks, and a wrong second child at the last of them.
    for wrong in [0, 1] {
        let fork = |number: u16| [1, 1024 - number + u16::from(number == 511) * wrong, 0];
        let nodes = (1..=511).map(fork).chain((0..512).map(|_| [0, 0, 0]));
        let draft = second::draft::Draft {
            users: vec![[0]],
            sessions: vec![[1, 0, 1]],
            nodes: nodes.collect(),
            ..Default::default()
        };
        all.push(draft.bytes());
    }
    let runs = vec![
        trials::largest_run(seed),
        trials::typical_run(seed),
        trials::crowded(),
        trials::meeting_round(),
        trials::lone_round(),
    ];
    all.extend(runs.iter().map(|(file, _)| file.clone()));
    Files { all, runs }
}

/// The most stack that a call needs of those that a list of inputs gives.
struct Needs {
    itself: usize,
    most: Vec<(&'static str, usize)>,
}

impl Needs {
    fn new() -> Needs {
        let mut nothing: Job = Box::new(|| {
            black_box(0);
        });
        Needs {
            itself: used(&mut nothing),
            most: Vec::new(),
        }
    }

    fn call<T>(&mut self, name: &'static str, mut call: impl FnMut() -> T) {
        let mut job: Job = Box::new(|| {
            black_box(call());
        });
        let whole = used(&mut job);
        assert!(
            whole <= ENOUGH,
            "{name}: a thread needs {whole} bytes of stack"
        );
        let needs = whole.saturating_sub(self.itself);
        match self.most.iter_mut().find(|(there, _)| *there == name) {
            Some((_, most)) => *most = needs.max(*most),
            None => self.most.push((name, needs)),
        }
    }
}

#[test]
fn every_call_in_64_kibibytes() {
    let Files { all, runs } = files();
    let mut needs = Needs::new();
    let mut out = vec![0; ROOM];
    let hours: Vec<u16> = (0..64).flat_map(|_| [1, 0, 10_080]).collect();
    for file in &all {
        needs.call("read", || pilzdamo::read(file));
        needs.call("check", || pilzdamo::check(file));
        needs.call("check_at", || pilzdamo::check_at(file, &hours, 7));
        needs.call("place", || pilzdamo::place(file, &mut out));
        needs.call("place_at", || pilzdamo::place_at(file, &hours, 7, &mut out));
        needs.call("measure", || pilzdamo::measure(file));
        needs.call("measure_at", || pilzdamo::measure_at(file, &hours, 7));
        needs.call("to_columns", || pilzdamo::to_columns(file, &mut out));
        needs.call("to_rows", || pilzdamo::to_rows(file, &mut out));
        for other in &all {
            needs.call("merge", || pilzdamo::merge(file, other, &mut out));
        }
        let notice = |day: u16| {
            let length = file.len() as u16;
            [&day.to_le_bytes()[..], &length.to_le_bytes(), file].concat()
        };
        let (first, second) = (notice(1), notice(2));
        needs.call("in_force", || pilzdamo::in_force(&first, &second, 2));
    }
    let sheet = pilzdamo::records(&all).expect("records");
    needs.call("sheet", || pilzdamo::sheet(&sheet));

    let mut out = vec![0; RUN_ROOM];
    let mut offers = vec![0; OFFERS_ROOM];
    for (file, choices) in &runs {
        // A round follows at most so many choices.
        let fewer = &choices[..choices.len().min(2 * pilzdamo::BEFORE_ROUND)];
        let roles = file.get(4).copied().unwrap_or(0);
        let no_limit = vec![0; roles.into()];
        let one_each = vec![1; roles.into()];
        needs.call("run", || pilzdamo::run(file, choices, &mut out));
        needs.call("round", || pilzdamo::round(file, fewer, &mut out));
        needs.call("ready", || pilzdamo::ready(file, choices));
        needs.call("totals", || pilzdamo::totals(file, choices));
        for seats in [&no_limit, &one_each] {
            needs.call("run_seated", || {
                pilzdamo::run_seated(file, choices, seats, &mut out)
            });
            needs.call("round_seated", || {
                pilzdamo::round_seated(file, fewer, seats, &mut out)
            });
            needs.call("seats", || pilzdamo::seats(file, choices, seats));
            // A search that is cut off leaves nothing; then a table of one row will do.
            let found = second::search(file, seats, 1_000).unwrap_or_default();
            let places = if found.places.is_empty() {
                vec![0]
            } else {
                found.places
            };
            needs.call("closed", || {
                pilzdamo::closed(file, seats, &found.states, &places, &found.next)
            });
            needs.call("closed_part", || {
                let (rows, numbers) = (0..places.len(), 0..found.next.len());
                let (states, next) = (&found.states, &found.next);
                pilzdamo::closed_part(file, seats, states, &places, next, rows, numbers)
            });
            let state = pilzdamo::start_row(file, seats).unwrap_or_default();
            needs.call("offers", || {
                pilzdamo::offers(file, seats, &state, &mut offers)
            });
        }
        let mut threads = vec![Thread::default(); RECORDS];
        let mut beside = vec![0; BESIDE];
        needs.call("start", || pilzdamo::start(file, &mut threads, &mut beside));
        needs.call("choose", || {
            pilzdamo::choose(file, &mut threads, &mut beside, 1, 0)
        });
        needs.call("total", || pilzdamo::total(&beside, 1));
    }
    for number in 0..=29 {
        let reason = Reason {
            number,
            counts: 3,
            place: 65_535,
            tag: if (9..=15).contains(&number) {
                8
            } else {
                NO_TAG
            },
        };
        let mut out = vec![0; SENTENCE];
        let mut length = 0;
        needs.call("reason", || length = pilzdamo::reason(reason, &mut out));
        let sentence = &out[..length.into()];
        needs.call("read_reason", || pilzdamo::read_reason(sentence));
        let mut out = vec![0; SENTENCE];
        needs.call("phrase", || pilzdamo::phrase(number, &mut out));
    }

    println!("a thread for itself: {}", needs.itself);
    for (name, most) in &needs.most {
        println!("{name}: {most}");
    }
    assert_eq!(needs.most.len(), 28, "not every call was tried");
    for (name, most) in needs.most {
        assert!(most <= MOST, "{name} needs {most} bytes of stack");
    }
}

/// A thread that has no more: the calls that need most, and a desk.
#[test]
fn on_a_thread_of_64_kibibytes() {
    let Files { all, runs } = files();
    let sheet = pilzdamo::records(&all).expect("records");
    let (file, choices) = trials::meeting_round();
    let small = std::thread::Builder::new().stack_size(ENOUGH);
    let joined = small.spawn(move || {
        let mut out = vec![0; ROOM];
        for file in &all {
            let _ = black_box(pilzdamo::place(file, &mut out));
            let _ = black_box(pilzdamo::measure(file));
        }
        let _ = black_box(pilzdamo::sheet(&sheet));
        for (file, choices) in &runs {
            let seats = vec![0; file[4].into()];
            let _ = black_box(pilzdamo::run(file, choices, &mut out));
            let _ = black_box(pilzdamo::seats(file, choices, &seats));
        }
        let mut desk = Desk::after(&file, &choices).expect("it runs");
        let next = desk.choices();
        let &(thread, partner) = next.first().expect("one that can be done");
        desk.choose(thread, partner).expect("it can be done");
    });
    joined.expect("a thread").join().expect("it ends");
}

/// The calls keep nothing between them: many threads at once have the answers of one.
#[test]
fn from_several_threads_at_once() {
    let Files { all, runs } = files();
    let answers = || {
        let mut all: Vec<String> = (all.iter())
            .map(|file| {
                let mut out = vec![0; ROOM];
                let placed = pilzdamo::place(file, &mut out);
                format!("{} {placed} {out:?}", pilzdamo::check(file))
            })
            .collect();
        for (file, choices) in &runs {
            let few = &choices[..choices.len().min(2_000)];
            let mut out = vec![0; RUN_ROOM];
            let round = pilzdamo::round(file, few, &mut out);
            let totals = pilzdamo::totals(file, few);
            all.push(format!("{round} {totals} {out:?}"));
        }
        all
    };
    let due = answers();
    std::thread::scope(|scope| {
        for _ in 0..8 {
            scope.spawn(|| {
                for _ in 0..5 {
                    assert!(answers() == due, "another answer beside other threads");
                }
            });
        }
    });
}
