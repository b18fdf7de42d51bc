//! The text form over random files: what is unpacked and packed again is the same.

use second::{Version, ROOM};
use text::{canonical, pack, placed, stripped, unpack, unpack_named, why, Records};
use trials::{deal, deal_bare, files, second_check, second_read, seed};

/// One in so many of the trials' files is taken: 2,000 of each version and family.
const SHARE: u64 = 200;

/// Of those that go there and back: 28,571 of each version and family, some 100,000 of
/// which 1 to 10 let through.
const SHARE_THERE_AND_BACK: u64 = 14;

/// The file, by its text and back; and the text, by its bytes and back.
fn there_and_back(file: &[u8]) {
    let text = unpack(file).unwrap_or_else(|| panic!("no text for {file:?}"));
    let packed = pack(&text).unwrap_or_else(|flaws| panic!("{flaws:?}\n{text}"));
    assert_eq!(packed.bytes(), file, "{text}");
    assert_eq!(canonical(&packed).as_ref(), Some(&text));
    assert_eq!(unpack_named(file, &packed.names), Some(text));
}

fn demand(version: Version, file_of: impl Fn(u64) -> Vec<u8>) {
    let mut sound = 0;
    let dealt = files() / SHARE_THERE_AND_BACK;
    for index in 0..dealt {
        let file = file_of(index);
        if second_read(&file).0 != 0 {
            // Any bytes are answered, and what has a text has it for good.
            if let Some(text) = unpack(&file) {
                assert_eq!(pack(&text).expect("a text").bytes(), file, "{text}");
            }
            continue;
        }
        there_and_back(&file);
        sound += 1;
    }
    println!("{sound} files of {version:?} that 1 to 10 let through");
    assert!(sound >= dealt / 4);
}

#[test]
fn files_of_any_kind() {
    for version in Version::ALL {
        demand(version, |index| deal(version, seed(), index));
    }
}

#[test]
fn files_to_be_placed() {
    for version in Version::ALL {
        demand(version, |index| deal_bare(version, seed(), index).0);
    }
}

/// What is placed comes back as the text with lines put in, and without them it is the
/// text that it was.
#[test]
fn placed_texts() {
    let (mut written, mut put_in) = (0, 0);
    let dealt = files() / SHARE;
    for index in 0..dealt {
        for version in Version::ALL {
            let (file, _) = deal_bare(version, seed(), index);
            let mut out = [0; ROOM];
            let answer = second::place(&file, &mut out);
            if answer.number != 0 {
                continue;
            }
            let text = unpack(&file).expect("a text");
            let packed = pack(&text).expect("a file");
            let out = &out[..answer.length.into()];
            let records = Records::of(out).expect("records");
            let with_roles = placed(&text, &packed, &records).expect("a placement");
            // Zero bytes are placed as 26, for which the command writes `clinic 1`.
            let again = pack(&with_roles).expect("a file");
            if !file.is_empty() {
                assert_eq!(again.bytes(), out, "{with_roles}");
            }
            assert_eq!(stripped(&with_roles, &again), text);
            put_in += u64::from(text != with_roles);
            written += 1;
        }
    }
    println!("{written} placed, {put_in} with roles put in");
    assert!(written >= dealt / 4 && put_in >= dealt / 8);
}

/// Whatever is refused in a text has its place there, and a culprit in names.
#[test]
fn refusals_have_their_places() {
    let mut counts = [0; 30];
    for index in 0..4 * files() / SHARE {
        for version in Version::ALL {
            let (bare, _) = deal_bare(version, seed(), index);
            let placing = second::place(&bare, &mut [0; ROOM]);
            let file = deal(version, seed(), index);
            let check = second_check(&file);
            for (file, (number, place)) in [(bare, (placing.number, placing.place)), (file, check)]
            {
                let Some(text) = unpack(&file).filter(|_| matches!(number, 7 | 10..=15 | 21))
                else {
                    continue;
                };
                let packed = pack(&text).expect("a file");
                let culprit = why(&packed, number, place);
                let culprit = culprit.unwrap_or_else(|| panic!("{number} at {place}\n{text}"));
                assert!(!culprit.what.contains('?'), "{}\n{text}", culprit.what);
                let line = text.split('\n').nth(culprit.at.line - 1).expect("a line");
                assert!(culprit.at.column + culprit.at.width <= line.chars().count() + 1);
                counts[usize::from(number)] += 1;
            }
        }
    }
    println!("{counts:?}");
    let rare = [7, 10, 11, 12, 13, 14, 15, 21].into_iter();
    let rare: Vec<usize> = rare.filter(|&number| counts[number] < 5).collect();
    assert!(rare.is_empty(), "rare: {rare:?} of {counts:?}");
}
