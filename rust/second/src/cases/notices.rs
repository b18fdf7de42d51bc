//! Cases of two notices and a day.

use super::{cases, clinic, BOOKING, END};
use crate::draft::to_bytes;
use crate::{is_of_file, InForce};

/// Two notices, a day, and the one that is in force.
pub struct NoticeCase {
    pub name: &'static str,
    pub first: Vec<u8>,
    pub second: Vec<u8>,
    pub day: u16,
    pub due: InForce,
}

impl NoticeCase {
    /// Fails unless `in_force` gives the answer that is due.
    pub fn demand(&self, who: &str, in_force: impl Fn(&[u8], &[u8], u16) -> InForce) {
        let told = in_force(&self.first, &self.second, self.day);
        assert_eq!(told, self.due, "{who}: {}", self.name);
    }
}

/// All of them.
pub fn notice_cases() -> Vec<NoticeCase> {
    [in_words(), days(), nothing(), lengths(), files(), orders()]
        .into_iter()
        .flatten()
        .collect()
}

/// A notice of a file: its first day, its length, its bytes.
pub fn notice(first_day: u16, file: &[u8]) -> Vec<u8> {
    let length = file.len() as u16;
    [&to_bytes(&[first_day, length]), file].concat()
}

fn case(name: &'static str, [first, second]: [&[u8]; 2], day: u16, due: InForce) -> NoticeCase {
    NoticeCase {
        name,
        first: first.to_vec(),
        second: second.to_vec(),
        day,
        due,
    }
}

/// The booking of 82 bytes, from this day on.
fn booking(first_day: u16) -> Vec<u8> {
    notice(first_day, &to_bytes(&BOOKING))
}

/// A file of 74 bytes, from this day on.
fn other(first_day: u16) -> Vec<u8> {
    let file = clinic(&[END]).bytes();
    assert_eq!(file.len(), 74);
    notice(first_day, &file)
}

const BOOKING_1: InForce = InForce::part(1, 4, 82);
const BOOKING_2: InForce = InForce::part(2, 4, 82);
const OTHER_1: InForce = InForce::part(1, 4, 74);
const OTHER_2: InForce = InForce::part(2, 4, 74);
const UNSOUND_1: InForce = InForce::refused(27, 1);
const UNSOUND_2: InForce = InForce::refused(27, 2);
const NOT_BEGUN: InForce = InForce::refused(28, 0);

/// Notices word by word: November 2026 begins on day 9,801, December on day 9,831.
fn in_words() -> Vec<NoticeCase> {
    #[rustfmt::skip]
    let november = [
        9_801, 26,
        1, 0, 0, 0, 0, 0, 0, 13, 13, 13, 13, 13, 13,
    ];
    #[rustfmt::skip]
    let december = [
        9_831, 28,
        2, 0, 0, 0, 0, 0, 0, 14, 14, 14, 14, 14, 14, 14,
    ];
    let (november, december) = (to_bytes(&november), to_bytes(&december));
    let both = [&november[..], &december];
    vec![
        case("October", both, 9_800, NOT_BEGUN),
        case("November", both, 9_816, InForce::part(1, 4, 26)),
        case("December", both, 9_831, InForce::part(2, 4, 28)),
    ]
}

fn days() -> Vec<NoticeCase> {
    let (early, late) = (booking(100), other(200));
    let in_order = [&early[..], &late];
    let turned = [&late[..], &early];
    let (one, same) = (booking(100), other(100));
    let (first, last) = (booking(0), other(65_535));
    vec![
        case("before both", in_order, 99, NOT_BEGUN),
        case("at the first", in_order, 100, BOOKING_1),
        case("between", in_order, 150, BOOKING_1),
        case("a day before the second", in_order, 199, BOOKING_1),
        case("at the second", in_order, 200, OTHER_2),
        case("after both", in_order, 201, OTHER_2),
        case("turned, before both", turned, 99, NOT_BEGUN),
        case("turned, at the earlier", turned, 100, BOOKING_2),
        case("turned, a day before the later", turned, 199, BOOKING_2),
        case("turned, at the later", turned, 200, OTHER_1),
        case("turned, after both", turned, 65_535, OTHER_1),
        case("equal days", [&one, &same], 100, OTHER_2),
        case("equal days, later", [&one, &same], 101, OTHER_2),
        case("equal days, turned", [&same, &one], 100, BOOKING_2),
        case("equal days, before them", [&one, &same], 99, NOT_BEGUN),
        case("the first day of all", [&first, &last], 0, BOOKING_1),
        case(
            "a day before the last of all",
            [&first, &last],
            65_534,
            BOOKING_1,
        ),
        case("the last day of all", [&first, &last], 65_535, OTHER_2),
        case("the same notice twice", [&one, &one], 100, BOOKING_2),
    ]
}

/// Zero bytes are a file, so that four are a notice.
fn nothing() -> Vec<NoticeCase> {
    let (none, later) = (notice(7, &[]), booking(8));
    vec![
        case(
            "nothing planned",
            [&none, &later],
            7,
            InForce::part(1, 4, 0),
        ),
        case("and then a plan", [&none, &later], 8, BOOKING_2),
        case("a plan to be", [&later, &none], 7, InForce::part(2, 4, 0)),
        case("nothing twice", [&none, &none], 9, InForce::part(2, 4, 0)),
        case("nothing yet", [&none, &none], 6, NOT_BEGUN),
    ]
}

/// 27 by the bytes that there are, and by the length word.
fn lengths() -> Vec<NoticeCase> {
    let sound = booking(5);
    let mut all = Vec::new();
    for length in 0..4 {
        let short = &notice(5, &[])[..length];
        all.push(case("a short first", [short, &sound], 9, UNSOUND_1));
        all.push(case("a short second", [&sound, short], 9, UNSOUND_2));
        all.push(case("both short", [short, short], 9, UNSOUND_1));
    }
    let longer = [&notice(5, &[])[..], &[0]].concat();
    let long_by_2 = [&sound[..], &[0, 0]].concat();
    let cut = &sound[..sound.len() - 1];
    let alone = &sound[..4];
    let of_length = |length: u16| {
        let mut wrong = sound.clone();
        wrong[2..4].copy_from_slice(&length.to_le_bytes());
        wrong
    };
    let (less, more, none) = (of_length(81), of_length(83), of_length(0));
    let high = of_length(82 + 256);
    for wrong in [&longer, &long_by_2, cut, alone, &less, &more, &none, &high] {
        all.push(case("another length, first", [wrong, &sound], 9, UNSOUND_1));
        all.push(case(
            "another length, second",
            [&sound, wrong],
            9,
            UNSOUND_2,
        ));
    }
    // The number of bytes after it, less 65,536.
    let mut wrapped = notice(5, &to_bytes(&BOOKING));
    wrapped.resize(4 + 82 + 65_536, 0);
    all.push(case("65,536 bytes more", [&wrapped, &sound], 9, UNSOUND_1));
    all.push(case(
        "65,536 more, second",
        [&sound, &wrapped],
        9,
        UNSOUND_2,
    ));
    let mut wrapped = notice(5, &[]);
    wrapped.resize(4 + 65_536, 0);
    all.push(case("65,536 bytes", [&wrapped, &sound], 9, UNSOUND_1));
    all
}

/// 27 by a file that is refused, for each case of 1 to 10. A file that 11 to 13 refuse is sound.
fn files() -> Vec<NoticeCase> {
    let sound = other(5);
    let mut all = Vec::new();
    for given in cases() {
        let told = notice(5, &given.file);
        if usize::from(u16::MAX) < given.file.len() {
            continue;
        }
        let length = given.file.len() as u16;
        let (first, second) = match is_of_file(given.answer.0) {
            true => (UNSOUND_1, UNSOUND_2),
            false => (OTHER_2, InForce::part(2, 4, length)),
        };
        all.push(case(given.name, [&told, &sound], 9, first));
        all.push(case(given.name, [&sound, &told], 9, second));
    }
    all
}

/// Both are judged before any day is looked at.
fn orders() -> Vec<NoticeCase> {
    let (sound, wrong) = (booking(100), notice(100, &[1]));
    vec![
        case("27 before 28", [&wrong, &sound], 9, UNSOUND_1),
        case("27 of the second before 28", [&sound, &wrong], 9, UNSOUND_2),
        case("the lower first", [&wrong, &wrong], 100, UNSOUND_1),
        case(
            "27 of one that has not begun",
            [&sound, &notice(200, &[1])],
            150,
            UNSOUND_2,
        ),
        case(
            "27 of one that is superseded",
            [&notice(50, &[1]), &sound],
            150,
            UNSOUND_1,
        ),
    ]
}
