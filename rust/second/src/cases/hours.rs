//! Cases of the check and of placing at a minute of the week.

use super::juniors::ladder;
use super::placing::{nodes, placing as place_case, refused, Due, PlaceCase};
use super::{CLEAN, END};
use crate::draft::Draft;
use crate::{Placed, Verdict};

/// A file, a table of hours, a minute, and the refusal by [`crate::check_at`].
pub struct CheckAtCase {
    pub name: &'static str,
    pub file: Vec<u8>,
    pub hours: Vec<u16>,
    pub minute: u16,
    pub answer: (u16, u16),
}

impl CheckAtCase {
    /// Fails unless `check_at` gives the answer that is due.
    pub fn demand(&self, who: &str, check_at: impl Fn(&[u8], &[u16], u16) -> Verdict) {
        let (number, place) = self.answer;
        let answer = check_at(&self.file, &self.hours, self.minute);
        assert_eq!(answer, Verdict { number, place }, "{who}: {}", self.name);
    }
}

/// A case of placing with a table of hours and a minute.
pub struct PlaceAtCase {
    pub case: PlaceCase,
    pub hours: Vec<u16>,
    pub minute: u16,
}

impl PlaceAtCase {
    /// Fails unless `place_at` gives the answer that is due and leaves the output
    /// as it should be, whatever that held before.
    pub fn demand(&self, who: &str, place_at: impl Fn(&[u8], &[u16], u16, &mut [u8]) -> Placed) {
        let place = |file: &[u8], out: &mut [u8]| place_at(file, &self.hours, self.minute, out);
        self.case.demand(who, place);
    }

    /// Fails unless `measure_at` gives the answer that is due in an output that is
    /// long enough, where this one is.
    pub fn demand_measured(&self, who: &str, measure_at: impl Fn(&[u8], &[u16], u16) -> Placed) {
        let measure = |file: &[u8]| measure_at(file, &self.hours, self.minute);
        self.case.demand_measured(who, measure);
    }
}

/// Role 1 is admissions: from 07:00 to 15:00, Monday to Friday.
const WEEKDAYS: [[u16; 3]; 5] = [
    [1, 420, 900],
    [1, 1_860, 2_340],
    [1, 3_300, 3_780],
    [1, 4_740, 5_220],
    [1, 6_180, 6_660],
];

/// Minutes at which it is open, and at which it is closed.
const MONDAY_NOON: u16 = 720;
const SATURDAY_NOON: u16 = 7_920;

/// Three roles, role 1 a junior of role 2. All are user 1's but in the last.
fn desk(names: &str) -> Draft {
    ladder(7, &[0, 1, 0], &nodes(names))
}

/// The same with a starting mask.
fn started(mask: u16, names: &str) -> Draft {
    Draft {
        sessions: vec![[1, mask, 1]],
        ..desk(names)
    }
}

fn at(
    name: &'static str,
    file: Draft,
    rows: &[[u16; 3]],
    minute: u16,
    answer: (u16, u16),
) -> CheckAtCase {
    CheckAtCase {
        name,
        file: file.bytes(),
        hours: rows.as_flattened().to_vec(),
        minute,
        answer,
    }
}

/// Open and closed.
pub fn open() -> Vec<CheckAtCase> {
    let uses = || desk("on1 send1 off1 end");
    let admissions = |name, minute, answer| at(name, uses(), &WEEKDAYS, minute, answer);
    let last = [[1, 10_079, 10_080]];
    vec![
        admissions("Monday 06:59", 419, (24, 1)),
        admissions("Monday 07:00", 420, CLEAN),
        admissions("Monday noon", MONDAY_NOON, CLEAN),
        admissions("Monday 14:59", 899, CLEAN),
        admissions("Monday 15:00", 900, (24, 1)),
        admissions("Friday 07:00", 6_180, CLEAN),
        admissions("Friday 15:00", 6_660, (24, 1)),
        admissions("Saturday noon", SATURDAY_NOON, (24, 1)),
        admissions("the week's first minute", 0, (24, 1)),
        admissions("the week's last minute", 10_079, (24, 1)),
        at("a row of the last minute", uses(), &last, 10_079, CLEAN),
        at("the minute before it", uses(), &last, 10_078, (24, 1)),
        at("a row of the first", uses(), &[[1, 0, 1]], 0, CLEAN),
        at("behind it", uses(), &[[1, 0, 1]], 1, (24, 1)),
        at("the whole week", uses(), &[[1, 0, 10_080]], 10_079, CLEAN),
        at("no rows", uses(), &[], 10_079, CLEAN),
        at("rows of another role", uses(), &[[2, 0, 1]], 9, CLEAN),
        at(
            "two rows, the last open",
            uses(),
            &[[1, 0, 1], [1, 5, 6]],
            5,
            CLEAN,
        ),
        at(
            "two rows that overlap",
            uses(),
            &[[1, 0, 9], [1, 5, 6]],
            8,
            CLEAN,
        ),
        at("64 rows", uses(), &[[1, 3, 4]; 64], 3, CLEAN),
        at("64 rows, closed", uses(), &[[1, 3, 4]; 64], 4, (24, 1)),
    ]
}

/// What a closed role still does, and where 24 has its turn.
pub fn roles() -> Vec<CheckAtCase> {
    let closed = |name, file, answer| at(name, file, &WEEKDAYS, SATURDAY_NOON, answer);
    let role_2 = [[2, 0, 1]];
    let lacks = |names| ladder(4, &[0, 1, 0], &nodes(names));
    vec![
        closed("another role", desk("on3 send3 off3 end"), CLEAN),
        closed("a senior of a closed role", desk("on2 send1 end"), CLEAN),
        at("a closed senior", desk("on2 end"), &role_2, 1, (24, 1)),
        at("its open junior", desk("on1 send1 end"), &role_2, 1, CLEAN),
        closed("closed, from the start", started(1, "send1 end"), CLEAN),
        closed("off from the start", started(1, "off1 end"), CLEAN),
        closed(
            "on where it is on from the start",
            started(1, "send1 on1 end"),
            (24, 2),
        ),
        closed(
            "off, and then on again",
            started(1, "off1 on1 end"),
            (24, 2),
        ),
        closed(
            "off, and then a send",
            started(1, "off1 send1 end"),
            (13, 2),
        ),
        closed("11 before 24", lacks("on1 end"), (11, 1)),
        closed("a later 11", lacks("compare on3 on1 end"), (11, 3)),
        closed("24 before a later 11", desk("on1 fork4 end end"), (24, 1)),
        closed("24 before a later 12", desk("on1 off3 end"), (24, 1)),
        closed("24 before a later 13", desk("on1 send3 end"), (24, 1)),
        closed("13 before a later 24", desk("send3 on1 end"), (13, 1)),
        closed("12 before a later 24", desk("off3 on1 end"), (12, 1)),
        closed("24 in a second branch", desk("fork3 end on1 end"), (24, 3)),
        closed("a late 9 before 24", desk("on1 on4 end"), (9, 2)),
        closed("a late 10 before 24", with_10(desk("on1 end")), (10, 2)),
    ]
}

/// Sends on a user before the last node.
fn with_10(mut draft: Draft) -> Draft {
    let end = draft.nodes.len() - 1;
    draft.nodes.insert(end, [6, 1, 1]);
    draft
}

/// 22 and 23.
pub fn tables() -> Vec<CheckAtCase> {
    let sound = || desk("end");
    let table = |name, hours: &[u16], minute, answer| CheckAtCase {
        name,
        file: sound().bytes(),
        hours: hours.to_vec(),
        minute,
        answer,
    };
    let byte = |name, minute| CheckAtCase {
        file: vec![1],
        ..table(name, &[], minute, (22, 0))
    };
    let row = |name, row, answer| at(name, sound(), &[row], 0, answer);
    let before = |name, file: Draft, answer| at(name, file, &[[4, 0, 1]], 0, answer);
    vec![
        table("minute 10,080", &[], 10_080, (22, 0)),
        table("minute 65,535", &[], 65_535, (22, 0)),
        table("one word", &[1], 0, (22, 0)),
        table("two words", &[1, 0], 0, (22, 0)),
        table("four words", &[1, 0, 9, 2], 0, (22, 0)),
        table("65 rows", &[1, 0, 9].repeat(65), 0, (22, 0)),
        table(
            "64 rows and a word",
            &[[1, 0, 9].repeat(64), vec![1]].concat(),
            0,
            (22, 0),
        ),
        table(
            "10,080 for a minute, and a row",
            &[1, 0, 9],
            10_080,
            (22, 0),
        ),
        byte("22 before 1", 10_080),
        CheckAtCase {
            answer: (1, 0),
            ..byte("one byte at minute 0", 0)
        },
        row("role 0", [0, 0, 9], (23, 1)),
        row("role 4 of 3", [4, 0, 9], (23, 1)),
        row("role 65,535", [65_535, 0, 9], (23, 1)),
        row("first is end", [3, 9, 9], (23, 1)),
        row("first above end", [3, 10, 9], (23, 1)),
        row("end 10,080", [3, 10_079, 10_080], CLEAN),
        row("end 10,081", [3, 10_079, 10_081], (23, 1)),
        row("first 10,080", [3, 10_080, 10_080], (23, 1)),
        at(
            "the lowest row",
            sound(),
            &[[1, 0, 9], [2, 0, 10_080], [3, 9, 0], [0, 0, 0]],
            0,
            (23, 3),
        ),
        at("the last of 64 rows", sound(), &last_wrong(), 0, (23, 64)),
        before("7 before 23", started(8, "end"), (7, 1)),
        before("8 before 23", desk("compare"), (8, 2)),
        before("21 before 23", ladder(7, &[0, 2, 0], &[END]), (21, 29)),
        before("23 before 9", desk("on4 end"), (23, 1)),
        before("23 before 10", with_10(desk("end")), (23, 1)),
        before("23 before 13", desk("send1 end"), (23, 1)),
        at(
            "a role of a file that has none",
            Draft::default(),
            &[[1, 0, 1]],
            0,
            (23, 1),
        ),
    ]
}

/// 64 rows, the last of which ends before it begins.
fn last_wrong() -> Vec<[u16; 3]> {
    let mut rows = vec![[1, 0, 1]; 64];
    rows[63] = [1, 1, 0];
    rows
}

/// Placing at a minute.
pub fn placing() -> Vec<PlaceAtCase> {
    let at = |case, rows: &[[u16; 3]], minute| PlaceAtCase {
        case,
        hours: rows.as_flattened().to_vec(),
        minute,
    };
    let placed = |name, from: &str, to: &str, on_steps| {
        let due = Due::Placed(desk(to).bytes(), on_steps);
        place_case(name, desk(from).bytes(), due)
    };
    let of_admissions =
        |name, to: &str, on_steps| placed(name, "send1 compare send1 end", to, on_steps);
    let two_juniors = |name, to: &str, on_steps| {
        let [from, to] = ["send1 send2 end", to].map(|names| {
            let nodes = nodes(names);
            ladder(7, &[0, 0, 3], &nodes).bytes()
        });
        place_case(name, from, Due::Placed(to, on_steps))
    };
    let at_noon = |case| at(case, &WEEKDAYS, MONDAY_NOON);
    let closed = |case| at(case, &WEEKDAYS, SATURDAY_NOON);
    let shut_2 = |case| at(case, &[[2, 0, 1]], 1);
    let byte = |number| place_case("one byte", vec![1], Due::Refused(number, 0));
    vec![
        at_noon(of_admissions(
            "admissions, open",
            "on1 send1 compare send1 off1 end",
            1,
        )),
        closed(of_admissions(
            "admissions, closed: its senior",
            "on2 send1 compare send1 off2 end",
            1,
        )),
        shut_2(refused(
            "the senior's own grant",
            desk("send1 send2 end"),
            15,
            2,
        )),
        shut_2(placed(
            "the junior, where the senior is closed",
            "send1 send1 end",
            "on1 send1 send1 off1 end",
            1,
        )),
        at(
            two_juniors("one on step, open", "on3 send1 send2 off3 end", 1),
            &[[3, 0, 9]],
            8,
        ),
        at(
            two_juniors("two, closed", "on1 send1 off1 on2 send2 off2 end", 2),
            &[[3, 0, 9]],
            9,
        ),
        at(
            placed("no table", "send1 send2 end", "on2 send1 send2 off2 end", 1),
            &[],
            10_079,
        ),
        closed(placed("nothing asked for", "compare end", "compare end", 0)),
        at(
            refused("15 for a closed role", desk("send3 end"), 15, 1),
            &[[3, 5, 6]],
            6,
        ),
        at(
            placed("the same, open", "send3 end", "on3 send3 off3 end", 1),
            &[[3, 5, 6]],
            5,
        ),
        closed(refused("14 before 15", desk("send3 on3 end"), 14, 2)),
        at(
            refused("23 before 9", desk("on4 end"), 23, 1),
            &[[4, 0, 1]],
            0,
        ),
        at(
            refused("23 before 14", desk("on1 end"), 23, 1),
            &[[1, 0, 0]],
            0,
        ),
        at(
            refused("8 before 23", desk("compare"), 8, 2),
            &[[1, 0, 0]],
            0,
        ),
        at(refused("a minute", desk("end"), 22, 0), &[], 10_080),
        at(byte(22), &[], 10_080),
        at(byte(17).with_room(6_873), &[], 10_080),
        at(byte(1), &[], 0),
        at(
            refused("17 before 22 in version 2", desk("end"), 17, 0).with_room(6_907),
            &[[9, 9, 9]; 65],
            10_080,
        ),
        PlaceAtCase {
            case: refused("part of a row", desk("end"), 22, 0),
            hours: vec![1, 0],
            minute: 0,
        },
        PlaceAtCase {
            case: refused("65 rows", desk("end"), 22, 0),
            hours: [1, 0, 1].repeat(65),
            minute: 0,
        },
    ]
}
