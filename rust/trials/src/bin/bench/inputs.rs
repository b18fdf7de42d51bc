//! The inputs of the main table.

use crate::case::{dealt, rows, Case, Input, OFFERS};
use second::cases::{run_cases, Turn};
use second::draft::Draft;
use second::{Version, ROOM, RUN_ROOM};
use trials::{juniors, At, Certified, Lent, Notices, Part, Seated};

/// A file, and a list of choices.
pub type Run = (Vec<u8>, Vec<u16>);

/// Files, and their records in a row.
pub type Files = (Vec<Vec<u8>>, Vec<u8>);

/// Files and lists, the largest there are and typical ones of 40 nodes.
pub struct Inputs {
    pub largest: Vec<u8>,
    pub typical: Vec<u8>,
    /// To be placed: a chain, and 32 sessions with forks, both with a result of
    /// 1,024 nodes.
    pub largest_bare: Vec<u8>,
    pub full_bare: Vec<u8>,
    /// Of 1,024 nodes itself, so that it is refused.
    pub overfull_bare: Vec<u8>,
    pub typical_bare: Vec<u8>,
    /// The same four in version 2.
    pub largest_2: Vec<u8>,
    pub typical_2: Vec<u8>,
    pub largest_bare_2: Vec<u8>,
    pub typical_bare_2: Vec<u8>,
    /// The same in version 3.
    pub largest_3: Vec<u8>,
    pub typical_3: Vec<u8>,
    pub largest_bare_3: Vec<u8>,
    pub typical_bare_3: Vec<u8>,
    pub largest_run: Run,
    pub typical_run: Run,
    pub short_run: Run,
    pub crowded: Run,
    /// Lists that lead to 64 threads: 32 that send to the 32 others, and such as
    /// all step alone.
    pub meeting_round: Run,
    pub lone_round: Run,
    pub typical_round: Run,
    pub largest_lent: Lent,
    pub typical_lent: Lent,
    /// With seats: the list of the largest run, for all of whose choices there are seats;
    /// and lists in which sessions wait.
    pub free_seated: Seated,
    pub largest_seated: Seated,
    pub typical_seated: Seated,
    /// All states of spring's routine, placed, without seats.
    pub spring: Certified,
    /// Two to be merged, whose records together reach every limit; and two of 40 nodes.
    pub largest_pair: [Vec<u8>; 2],
    pub typical_pair: [Vec<u8>; 2],
    /// Notices of two files of 40 nodes.
    pub notices: Notices,
    /// 1,000 files of 40 nodes, and their records.
    pub typical_sheet: Files,
    /// 1,000 files of 32 sessions, and their records.
    pub full_sheet: Files,
}

impl Inputs {
    pub fn new(seed: u64) -> Inputs {
        let version = Version::One;
        let largest = trials::largest(version, seed);
        let typical = trials::typical(version, seed);
        let largest_bare = trials::largest_bare(version, seed);
        let typical_bare = trials::typical_bare(version, seed);
        let [largest_2, typical_2, largest_bare_2, typical_bare_2] =
            [&largest, &typical, &largest_bare, &typical_bare].map(|file| juniors::with_all(file));
        Inputs {
            largest_3: by_column(&largest_2),
            typical_3: by_column(&typical_2),
            largest_bare_3: by_column(&largest_bare_2),
            typical_bare_3: by_column(&typical_bare_2),
            largest_2,
            typical_2,
            largest_bare_2,
            typical_bare_2,
            largest,
            typical,
            largest_bare,
            full_bare: trials::full_bare(seed),
            overfull_bare: trials::overfull_bare(seed),
            typical_bare,
            largest_run: trials::largest_run(seed),
            typical_run: trials::typical_run(seed),
            short_run: short_run(),
            crowded: trials::crowded(),
            meeting_round: trials::meeting_round(),
            lone_round: trials::lone_round(),
            typical_round: trials::typical_round(seed),
            largest_lent: trials::full_lent(seed),
            typical_lent: trials::typical_lent(seed),
            free_seated: free_seated(trials::largest_run(seed)),
            largest_seated: seated(trials::largest_seated(seed)),
            typical_seated: seated(trials::typical_seated(seed)),
            spring: spring(),
            largest_pair: trials::largest_pair(seed),
            typical_pair: trials::typical_pair(seed),
            notices: trials::typical_notices(seed),
            typical_sheet: trials::typical_sheet(seed),
            full_sheet: trials::full_sheet(seed),
        }
    }

    /// The rows.
    pub fn cases(&self) -> Vec<Case> {
        let read = |file: &Vec<u8>| Input::Read(file.clone());
        let check = |file: &Vec<u8>| Input::Check(file.clone());
        let measure = |file: &Vec<u8>| Input::Measure(file.clone());
        let place = |file: &Vec<u8>, number| {
            let file = file.clone();
            Input::Place { file, number }
        };
        let run = |(file, choices): &Run| {
            let (file, choices) = (file.clone(), choices.clone());
            Input::Run { file, choices }
        };
        let (file, choices) = self.crowded.clone();
        let ready = Input::Ready { file, choices };
        let round = |run: &Run| {
            let (file, choices) = run.clone();
            let count = round_of(run).len();
            Input::Round {
                file,
                choices,
                count,
            }
        };
        let totals = |(file, choices): &Run| {
            let (file, choices) = (file.clone(), choices.clone());
            Input::Totals { file, choices }
        };
        let choose = |lent: &Lent| Input::Choose(lent.clone());
        let start = |lent: &Lent| Input::Start(lent.clone());
        let merge = |pair: &[Vec<u8>; 2]| Input::Merge(pair.clone());
        let run_seated = |seated: &Seated| Input::RunSeated(seated.clone());
        let round_seated = |seated: &Seated| Input::RoundSeated(seated.clone());
        let seats = |seated: &Seated| Input::Seats(seated.clone());
        let [run_2, run_3] = both_forms(&self.typical_run.0).map(|file| Input::Run {
            file,
            choices: self.typical_run.1.clone(),
        });
        let [choose_2, choose_3] = both_forms(&self.largest_lent.file).map(|file| {
            Input::Choose(Lent {
                file,
                ..self.largest_lent.clone()
            })
        });
        let turn = |turn, file: &Vec<u8>| {
            let file = file.clone();
            Input::Turn { turn, file }
        };
        let sheet = |(_, input): &Files| Input::Sheet(input.clone());
        let measure_each = |(files, _): &Files| Input::MeasureEach(files.clone());
        vec![
            Case::new("read largest", read(&self.largest), 50),
            Case::new("read typical", read(&self.typical), 300),
            Case::new("check largest", check(&self.largest), 50),
            Case::new("check typical", check(&self.typical), 300),
            Case::new("place largest", place(&self.largest_bare, 0), 50),
            Case::new("place full", place(&self.full_bare, 0), 50),
            Case::new("place overfull", place(&self.overfull_bare, 16), 50),
            Case::new("place typical", place(&self.typical_bare, 0), 300),
            Case::new("run largest", run(&self.largest_run), 1),
            Case::new("run typical", run(&self.typical_run), 300),
            Case::new("run short", run(&self.short_run), 300),
            Case::new("choose largest", choose(&self.largest_lent), 50),
            Case::new("choose typical", choose(&self.typical_lent), 300),
            Case::new("ready crowded", ready, 100),
            Case::new("read largest 2", read(&self.largest_2), 50),
            Case::new("read typical 2", read(&self.typical_2), 300),
            Case::new("check largest 2", check(&self.largest_2), 50),
            Case::new("check typical 2", check(&self.typical_2), 300),
            Case::new("place largest 2", place(&self.largest_bare_2, 0), 50),
            Case::new("place typical 2", place(&self.typical_bare_2, 0), 300),
            Case::new("measure largest", measure(&self.largest_bare), 50),
            Case::new("measure typical", measure(&self.typical_bare), 300),
            Case::new("check at", Input::CheckAt(with_hours(&self.largest)), 50),
            Case::new(
                "place at",
                Input::PlaceAt(with_hours(&self.largest_bare)),
                50,
            ),
            Case::new("round crowded", round(&self.meeting_round), 100),
            Case::new("round lone", round(&self.lone_round), 100),
            Case::new("round idle", round(&self.crowded), 100),
            Case::new("round typical", round(&self.typical_round), 300),
            Case::new("totals crowded", totals(&self.crowded), 100),
            Case::new("totals typical", totals(&self.typical_run), 300),
            Case::new("start largest", start(&self.largest_lent), 50),
            Case::new("start typical", start(&self.typical_lent), 300),
            Case::new("reason", said(), 1_000),
            Case::new("read reason", Input::ReadReason(SENTENCE.to_vec()), 1_000),
            Case::new("merge largest", merge(&self.largest_pair), 50),
            Case::new("merge typical", merge(&self.typical_pair), 300),
            Case::new("seated free", run_seated(&self.free_seated), 1),
            Case::new("seated largest", run_seated(&self.largest_seated), 1),
            Case::new("seated typical", run_seated(&self.typical_seated), 300),
            Case::new("seated round", round_seated(&self.typical_seated), 300),
            Case::new("seats typical", seats(&self.typical_seated), 300),
            Case::new("closed spring", Input::Closed(self.spring.clone()), 1),
            Case::new("closed parts", halves(&self.spring), 1),
            Case::new("offers spring", Input::Offers(self.spring.clone()), 1),
            Case::new("run typical 2", run_2, 300),
            Case::new("choose largest 2", choose_2, 50),
            Case::new("read largest 3", read(&self.largest_3), 50),
            Case::new("read typical 3", read(&self.typical_3), 300),
            Case::new("check largest 3", check(&self.largest_3), 50),
            Case::new("check typical 3", check(&self.typical_3), 300),
            Case::new("place largest 3", place(&self.largest_bare_3, 0), 50),
            Case::new("place typical 3", place(&self.typical_bare_3, 0), 300),
            Case::new("run typical 3", run_3, 300),
            Case::new("choose largest 3", choose_3, 50),
            Case::new(
                "columns largest",
                turn(Turn::ToColumns, &self.largest_2),
                50,
            ),
            Case::new(
                "columns typical",
                turn(Turn::ToColumns, &self.typical_2),
                300,
            ),
            Case::new("rows largest", turn(Turn::ToRows, &self.largest_3), 50),
            Case::new("rows typical", turn(Turn::ToRows, &self.typical_3), 300),
            Case::new("in force", Input::InForce(self.notices.clone()), 300),
            Case::new("sheet", sheet(&self.typical_sheet), 1),
            Case::new("measure each", measure_each(&self.typical_sheet), 1),
            Case::new("sheet full", sheet(&self.full_sheet), 1),
            Case::new("each full", measure_each(&self.full_sheet), 1),
        ]
    }

    /// What the rows are, in words.
    pub fn words(&self) -> String {
        let run = |(file, choices): &Run| {
            let sends = trials::sends_in(file, choices);
            format!("{} choices, {sends} of them sends", choices.len() / 2)
        };
        let lent = |lent: &Lent| {
            let [threads, made] = [0, 1].map(|at| lent.lists.beside[at]);
            let bound = bound(lent);
            format!("{threads} threads with {bound} variables bound, {made} made channels")
        };
        format!(
            "Largest: 1,024 nodes, all counts at their largest. Typical: 40 nodes, 4 roles.\n\
             Read: refusals 1 to 10. Check: 1 to 13.\n\
             Place: largest is a chain of 1,022 nodes with 16 roles, placed in 1,024 with an on step;\n\
             full has 32 sessions with forks, placed in 1,024; overfull has 1,024, and gets 16.\n\
             Run: largest has {};\n\
             typical has {}; short, the booking of two desks,\n\
             has {}.\n\
             Choose, a send in a lent list: largest has {};\n\
             typical has {}.\n\
             Ready, crowded: 32 choices, then 64 threads of which no two can meet.\n\
             Rows with a 2: the same file in version 2, with all lower roles as juniors of each.\n\
             Rows with a 3: that file in version 3, with its nodes by column. Columns, rows: a\n\
             file turned.\n\
             Measure: what place is asked of, without an output.\n\
             Check at and place at: the largest, with 64 rows of hours, four to each role.\n\
             Round, of 64 threads after 32 choices: crowded has 32 sends, each past the receivers\n\
             before its own, and 32 lone steps; lone has 64 lone steps; in idle no two can meet, as\n\
             in ready. Typical has {} choices, and then {}.\n\
             Totals: how many threads wait on each kind. Crowded is ready's input, typical that of\n\
             run. A run keeps the totals, and choose judges all 32. Start: the files of choose,\n\
             into its lists.\n\
             Reason, and read reason: {:?}\n\
             Merge, two files in one; the bytes are those of both. Largest: 512 nodes each, and half\n\
             of all other records but roles and kinds, so that the result has 6,874 bytes. Typical:\n\
             40 nodes each.\n\
             Seated, a run with seats: free has run largest's list and 32 seats in each role, so\n\
             that every on of a session without a seat gets one; largest has {};\n\
             typical has {}. Its round, and what is read of its seats.\n\
             Closed, a certificate for all lists of choices: the {} states of spring's routine,\n\
             placed, and {} choices that are done in them; the same in two parts, one after the\n\
             other. Offers: all choices of each of these states, each state in a call of its own.\n\
             In force, of two notices; the bytes are those of both, whose files have 40 nodes each.\n\
             Sheet: the records of 1,000 files of 40 nodes, half of them in version 2. Measure each:\n\
             1,000 calls of measure for the same files. Sheet full, and each full: of 1,000 files\n\
             with 32 sessions with forks, ten of them in turns, placed in 1,024 nodes.\n",
            run(&self.largest_run),
            run(&self.typical_run),
            run(&self.short_run),
            lent(&self.largest_lent),
            lent(&self.typical_lent),
            self.typical_round.1.len() / 2,
            sends_of(&round_of(&self.typical_round)),
            String::from_utf8_lossy(SENTENCE),
            waited(&self.largest_seated),
            waited(&self.typical_seated),
            self.spring.certificate.places.len(),
            self.spring.certificate.next.len(),
        )
    }
}

/// A file of version 2 by column.
fn by_column(file: &[u8]) -> Vec<u8> {
    trials::column_file(file).expect("a file of version 2")
}

/// A file in version 2, with all lower roles as juniors of each, and in version 3.
fn both_forms(file: &[u8]) -> [Vec<u8>; 2] {
    let rows = juniors::with_all(file);
    let columns = by_column(&rows);
    [rows, columns]
}

/// A typical sentence.
const SENTENCE: &[u8] = b"Refused 13: no active role permits the step at node 4, a send.";

/// What it is written from.
fn said() -> Input {
    Input::Reason {
        reason: second::read_reason(SENTENCE),
        sentence: SENTENCE.to_vec(),
    }
}

/// The choices of a round after a list.
pub fn round_of((file, choices): &Run) -> Vec<[u16; 2]> {
    let round = second::round(file, choices, &mut [0; RUN_ROOM]);
    trials::choices_of(&round).to_vec()
}

/// How many choices a round has, and how many of them are sends.
fn sends_of(round: &[[u16; 2]]) -> String {
    let sends = round.iter().filter(|[_, partner]| *partner != 0);
    format!("{}, {} of them sends", round.len(), sends.count())
}

/// The booking of two desks, placed, and the choices that take it to its end.
fn short_run() -> Run {
    let mut cases = run_cases().into_iter();
    let case = cases.find(|case| case.name == "the booking to its end");
    let case = case.expect("a case of that name");
    (case.file, case.choices)
}

/// With a table of 64 rows, four to each of 16 roles, which are all open by their
/// last.
fn with_hours(file: &[u8]) -> At {
    let minute = 5_000;
    let stretches = [[0, 100], [200, 300], [9_000, 10_080], [4_000, 6_000]];
    let row = |[first, end]: [u16; 2]| (1..=16).flat_map(move |role| [role, first, end]);
    At {
        file: file.to_vec(),
        hours: stretches.into_iter().flat_map(row).collect(),
        minute,
    }
}

/// With the most seats in each role.
fn free_seated((file, choices): Run) -> Seated {
    let roles = Draft::of(&file).roles.len();
    seated((file, choices, vec![32; roles]))
}

fn seated((file, choices, seats): (Vec<u8>, Vec<u16>, Vec<u16>)) -> Seated {
    let dealt = dealt(&file, &choices);
    Seated { dealt, seats }
}

/// A certificate in two parts, of as many rows but for one.
fn halves(certified: &Certified) -> Input {
    let Certified {
        file,
        seats,
        certificate,
    } = certified;
    let half = certificate.places.len() / 2;
    let mut out = vec![0; OFFERS];
    let offers = |state: &[u16]| usize::from(second::offers(file, seats, state, &mut out).count);
    let cut = rows(certified).take(half).map(offers).sum();
    let first = Part {
        rows: 0..half,
        numbers: 0..cut,
    };
    let other = Part {
        rows: half..certificate.places.len(),
        numbers: cut..certificate.next.len(),
    };
    Input::ClosedParts(certified.clone(), vec![first, other])
}

/// The example of spring, placed, and the certificate of its states.
fn spring() -> Certified {
    let bare = include_bytes!("../../../../../examples/spring/bare.clinic");
    let mut out = [0; ROOM];
    let placed = second::place(bare, &mut out);
    let file = out[..placed.length.into()].to_vec();
    let seats = vec![0; Draft::of(&file).roles.len()];
    let certificate = second::search(&file, &seats, 10_000).expect("it has an end");
    Certified {
        file,
        seats,
        certificate,
    }
}

/// How many choices a list has, and how many of them get no seat.
fn waited(seated: &Seated) -> String {
    let (dealt, seats) = (&seated.dealt, &seated.seats);
    let told = second::seats(&dealt.file, &dealt.choices, seats);
    let sum: u16 = told.waiting.iter().sum();
    format!(
        "{} choices, {} of them answered 26, and {sum} in line",
        dealt.choices.len() / 2,
        told.waited
    )
}

/// How many variables of the threads that count are bound.
fn bound(lent: &Lent) -> usize {
    let counted = &lent.lists.threads[..lent.lists.beside[0].into()];
    let values = counted.iter().flat_map(|thread| thread.variables);
    values.filter(|value| *value != 0).count()
}
