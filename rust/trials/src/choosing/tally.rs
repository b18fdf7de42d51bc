//! Counting choices in lent lists by number and cause, and by what is lent.

use super::fit::Clinic;
use super::Lent;
use crate::juniors;
use crate::lists::Lists;
use second::draft::Draft;
use second::{is_of_file, Cause, Halt, Unfit, Verdict, Version};
use second::{BEFORE_TOTALS, BESIDE, RECORDS, TOTALS};
use std::collections::BTreeMap;

/// The least number of choices for each cause, of those refused with each
/// number, and of those done for each tag.
const LEAST_OF_EACH: u64 = 500;

/// The tags of the nodes at which the thread of a choice that is done stands.
const TAGS: [u16; 8] = [0, 1, 2, 3, 4, 6, 7, 8];

/// What has to come up, and in how many choices.
const LEAST: [(&str, u64); 28] = [
    ("choices done", 10_000),
    ("choices done with 64 threads", 500),
    ("choices done with 64 made channels", 500),
    ("choices done with a thread of eight variables", 500),
    ("choices done where the check refuses the file", 500),
    ("choices done that add the 64th thread", 200),
    ("choices done that make the 64th channel", 200),
    ("sends done to a thread before", 500),
    ("sends done on a channel of kind 17 to 32", 500),
    ("sends done on a made channel", 500),
    ("sends done of a made channel", 500),
    ("sends done on a channel in a variable", 500),
    ("ends done with threads behind", 500),
    ("choices in a list without threads", 500),
    ("1 to 10 before 18 at place 0", 500),
    ("18 at place 0 for a binder's own variable", 500),
    ("18 at place 0 for a made channel past the number", 500),
    ("18 at place 1 for a thread past the count", 500),
    ("11 to 13 where the check passes the file", 500),
    ("choices done while threads wait", 500),
    ("choices done that change one total", 500),
    ("choices done that change several totals", 300),
    ("18 at place 0 for a total that is one up", 500),
    ("18 at place 0 for a total that is one down", 500),
    ("18 at place 0 for two totals exchanged", 500),
    ("18 at place 0 for a kind out of count", 500),
    ("18 at place 0 for 161 words", 500),
    ("18 at place 0 for 163 words", 500),
];

/// The least number of lists for each of the 32 totals, one up and one down; 65,535 is
/// one down from 0.
const LEAST_OF_TOTAL: u64 = 30;

/// What has to come up in version 2 besides. A chain of two counts where the
/// juniors of juniors make a difference.
const LEAST_OF_JUNIORS: [(&str, u64); 4] = [
    ("21 before 18 at place 0", 500),
    ("sends done by a junior", 500),
    ("sends done by a chain of two", 500),
    ("18 at place 0 for a junior that isn't assigned", 500),
];

/// What came up over many choices in files of a version.
pub struct ChooseTally {
    version: Version,
    counts: BTreeMap<&'static str, u64>,
    /// By number and by whether the place is the choice's.
    by_number: BTreeMap<(u16, bool), u64>,
    by_cause: BTreeMap<Cause, u64>,
    done_by_tag: BTreeMap<u16, u64>,
    /// Lists with nothing wrong but one total: its kind, and whether it is one up.
    by_total: BTreeMap<(u16, bool), u64>,
}

/// Why the choice is refused, if it is.
fn cause_of(lent: &Lent) -> Option<Cause> {
    let Lists { threads, beside } = &lent.lists;
    let [thread, partner] = lent.choice;
    let refusal = second::cause_in_choosing(&lent.file, threads, beside, thread, partner);
    refusal.map(|refusal| refusal.cause)
}

/// Why it is refused with another file.
fn cause_with(lent: &Lent, draft: Draft) -> Option<Cause> {
    let file = draft.bytes();
    cause_of(&Lent {
        file,
        ..lent.clone()
    })
}

/// Why it is refused if the two counts are these, and the totals are those of the
/// threads that then count.
fn cause_if_counted(lent: &Lent, counts: [u16; 2]) -> Option<Cause> {
    let mut counted = lent.clone();
    let Lists { threads, beside } = &mut counted.lists;
    beside[..2].copy_from_slice(&counts);
    let totals = Clinic::of(&lent.file).totals(&threads[..counts[0].into()]);
    beside[BEFORE_TOTALS..].copy_from_slice(&totals);
    cause_of(&counted)
}

/// Whether there is another number of records or words than there must be, or
/// a count that is too large.
fn is_misshapen(Lists { threads, beside }: &Lists) -> bool {
    threads.len() != RECORDS || beside.len() != BESIDE || beside[..2].iter().any(|n| *n > 64)
}

impl ChooseTally {
    pub(super) fn new(version: Version) -> ChooseTally {
        ChooseTally {
            version,
            counts: BTreeMap::new(),
            by_number: BTreeMap::new(),
            by_cause: BTreeMap::new(),
            done_by_tag: BTreeMap::new(),
            by_total: BTreeMap::new(),
        }
    }

    fn note(&mut self, what: &'static str, shown: bool) {
        *self.counts.entry(what).or_default() += u64::from(shown);
    }

    pub(super) fn count(&mut self, lent: &Lent, verdict: Verdict, after: &Lists) {
        if Version::claimed(&lent.file) != self.version {
            self.note("files of another version", true);
            return;
        }
        let at_choice = !is_of_file(verdict.number) && verdict.place == 1;
        let number = (verdict.number, at_choice);
        *self.by_number.entry(number).or_default() += 1;
        let Some(cause) = cause_of(lent) else {
            self.count_done(lent, after);
            return;
        };
        *self.by_cause.entry(cause).or_default() += 1;
        match cause {
            Cause::Lent(unfit) => self.count_unfit(lent, unfit),
            Cause::Choice(halt) => self.count_halt(lent, halt),
            _ => {
                let misshapen = is_misshapen(&lent.lists);
                self.note("1 to 10 before 18 at place 0", misshapen);
                let of_juniors = cause.number() == 21;
                self.note("21 before 18 at place 0", of_juniors && misshapen);
            }
        }
    }

    fn count_done(&mut self, lent: &Lent, after: &Lists) {
        let clinic = Clinic::of(&lent.file);
        let Lists { threads, beside } = &lent.lists;
        let counted = &threads[..beside[0].into()];
        let [number, partner] = lent.choice.map(usize::from);
        let thread = &threads[number - 1];
        let tag = clinic.tag(thread);
        *self.done_by_tag.entry(tag).or_default() += 1;
        self.note("choices done", true);
        self.note("choices done with 64 threads", counted.len() == RECORDS);
        self.note("choices done with 64 made channels", beside[1] == 64);
        let full = counted.iter().any(|thread| thread.variables[7] != 0);
        self.note("choices done with a thread of eight variables", full);
        let refused = second::check(&lent.file) != Verdict::CLEAN;
        self.note("choices done where the check refuses the file", refused);
        let full = after.beside[0] == 64 && counted.len() == 63;
        self.note("choices done that add the 64th thread", full);
        let full = after.beside[1] == 64 && beside[1] == 63;
        self.note("choices done that make the 64th channel", full);
        let [totals, totals_after] = [beside, &after.beside].map(|it| &it[BEFORE_TOTALS..]);
        let waiting = totals.iter().any(|total| *total != 0);
        self.note("choices done while threads wait", waiting);
        let changed = (0..TOTALS).filter(|&at| totals[at] != totals_after[at]);
        let changed = changed.count();
        self.note("choices done that change one total", changed == 1);
        self.note("choices done that change several totals", changed > 1);
        let behind = number < counted.len();
        self.note("ends done with threads behind", tag == 0 && behind);
        if tag == 6 {
            let operand = clinic.draft.nodes[usize::from(thread.node) - 1][1];
            let channel = match operand {
                512.. => thread.variables[usize::from(operand) - 512],
                _ => operand,
            };
            let bound = clinic.kinds(&threads[partner - 1]).len();
            let value = after.threads[partner - 1].variables[bound];
            let mut channels = clinic.channels(beside[2..BEFORE_TOTALS].as_chunks().0);
            let high = channels.any(|(found, kind)| found == channel && kind > 16);
            self.note("sends done to a thread before", partner < number);
            self.note("sends done on a channel of kind 17 to 32", high);
            self.note("sends done on a made channel", channel >= 385);
            self.note("sends done of a made channel", value >= 385);
            self.note("sends done on a channel in a variable", operand >= 512);
            let draft = &clinic.draft;
            let refused = |draft| cause_with(lent, draft).is_some();
            self.note("sends done by a junior", refused(juniors::without(draft)));
            let one_level = refused(juniors::of_one_level(draft));
            self.note("sends done by a chain of two", one_level);
        }
    }

    fn count_unfit(&mut self, lent: &Lent, unfit: Unfit) {
        let Lists { threads, beside } = &lent.lists;
        match unfit {
            Unfit::Unbound => {
                let clinic = Clinic::of(&lent.file);
                let nodes = 1..=clinic.draft.nodes.len();
                let counted = threads[..beside[0].into()].iter();
                let mut there = counted.filter(|thread| nodes.contains(&thread.node.into()));
                let early = there.any(|thread| {
                    let binds = matches!(clinic.tag(thread), 3 | 5);
                    binds && thread.variables[clinic.kinds(thread).len()] != 0
                });
                self.note("18 at place 0 for a binder's own variable", early);
            }
            Unfit::Nothing => {
                // It would do if all the channels that there is room for counted.
                let cause = cause_if_counted(lent, [beside[0], 64]);
                let past = !matches!(cause, Some(Cause::Lent(_)));
                self.note("18 at place 0 for a made channel past the number", past);
            }
            Unfit::Mask => {
                let clinic = Clinic::of(&lent.file);
                let counted = threads[..beside[0].into()].iter();
                let mut first =
                    counted.skip_while(|thread| thread.mask & !clinic.assigned(thread) == 0);
                let junior = first.next().is_some_and(|thread| {
                    let reached = juniors::reached(&clinic.draft, clinic.assigned(thread));
                    thread.mask & !reached == 0
                });
                self.note("18 at place 0 for a junior that isn't assigned", junior);
            }
            Unfit::Beside => {
                self.note("18 at place 0 for 161 words", beside.len() == 161);
                self.note("18 at place 0 for 163 words", beside.len() == 163);
            }
            Unfit::Total | Unfit::TotalAbove => self.count_totals(lent, unfit),
            _ => {}
        }
    }

    /// Counts in what way totals are wrong where nothing else is.
    fn count_totals(&mut self, lent: &Lent, unfit: Unfit) {
        let Lists { threads, beside } = &lent.lists;
        let due = Clinic::of(&lent.file).totals(&threads[..beside[0].into()]);
        let lent = &beside[BEFORE_TOTALS..];
        let wrong: Vec<usize> = (0..TOTALS).filter(|&at| lent[at] != due[at]).collect();
        let above = unfit == Unfit::TotalAbove;
        self.note("18 at place 0 for a kind out of count", above);
        match wrong[..] {
            [at] => {
                let up = lent[at] == due[at] + 1;
                let down = lent[at] == due[at].wrapping_sub(1);
                self.note("18 at place 0 for a total that is one up", up);
                let there = down && due[at] > 0;
                self.note("18 at place 0 for a total that is one down", there);
                if up || down {
                    *self.by_total.entry((at as u16 + 1, up)).or_default() += 1;
                }
            }
            [one, other] => {
                let exchanged = (lent[one], lent[other]) == (due[other], due[one]);
                self.note("18 at place 0 for two totals exchanged", exchanged);
            }
            _ => {}
        }
    }

    fn count_halt(&mut self, lent: &Lent, halt: Halt) {
        let [count, made] = [0, 1].map(|at| lent.lists.beside[at]);
        self.note("choices in a list without threads", count == 0);
        match halt.number() {
            11..=13 => {
                let passes = second::check(&lent.file) == Verdict::CLEAN;
                self.note("11 to 13 where the check passes the file", passes);
            }
            18 => {
                // It would be done if the threads up to the named one counted.
                let named = lent.choice[0].max(lent.choice[1]);
                let past = count < named && named <= 64;
                let done = past && cause_if_counted(lent, [named, made]).is_none();
                self.note("18 at place 1 for a thread past the count", done);
            }
            _ => {}
        }
    }

    /// Prints the table, and fails if something came up too seldom.
    pub fn demand(&self) {
        println!("version {}", self.version.number());
        let of_juniors = match self.version {
            Version::One => &[][..],
            Version::Two | Version::Three => &LEAST_OF_JUNIORS,
        };
        let all = || LEAST.iter().chain(of_juniors);
        for ((number, at_choice), count) in &self.by_number {
            let place = match (is_of_file(*number), at_choice) {
                (true, _) => "",
                (_, true) => " at place 1",
                (_, false) => " at place 0",
            };
            println!("{count:>9} of {number}{place}");
        }
        let of_cause = |cause| self.by_cause.get(&cause).copied().unwrap_or(0);
        let of_tag = |tag| self.done_by_tag.get(&tag).copied().unwrap_or(0);
        let of_number = |number| self.by_number.get(&number).copied().unwrap_or(0);
        for cause in Cause::of_choosing() {
            println!("{:>9} {:>3} {cause:?}", of_cause(cause), cause.number());
        }
        for tag in TAGS {
            println!("{:>9} done of tag {tag}", of_tag(tag));
        }
        for (what, _) in all() {
            println!("{:>9} {what}", self.counts.get(what).copied().unwrap_or(0));
        }
        let of_total = |kind, up| self.by_total.get(&(kind, up)).copied().unwrap_or(0);
        for kind in 1..=TOTALS as u16 {
            let [up, down] = [true, false].map(|up| of_total(kind, up));
            println!("{up:>9} total of kind {kind} one up, {down} one down");
        }
        println!("{:>9} choices", self.by_number.values().sum::<u64>());
        for cause in Cause::of_choosing() {
            assert!(of_cause(cause) >= LEAST_OF_EACH, "too few of {cause:?}");
        }
        for tag in TAGS {
            assert!(of_tag(tag) >= LEAST_OF_EACH, "too few done of tag {tag}");
        }
        for number in [11, 12, 13, 18, 19, 20] {
            let count = of_number((number, true));
            assert!(count >= LEAST_OF_EACH, "too few of {number} at place 1");
        }
        for kind in 1..=TOTALS as u16 {
            let fewest = of_total(kind, true).min(of_total(kind, false));
            assert!(fewest >= LEAST_OF_TOTAL, "too few totals of kind {kind}");
        }
        for (what, least) in all() {
            let count = self.counts.get(what).copied().unwrap_or(0);
            assert!(count >= *least, "too few {what}");
        }
    }
}
