use super::*;
use crate::source::Source;

/// Numbers that look random, the same each time.
struct Dice(u64);

impl Dice {
    fn below(&mut self, end: usize) -> usize {
        let odd = 6_364_136_223_846_793_005;
        self.0 = self
            .0
            .wrapping_mul(odd)
            .wrapping_add(1_442_695_040_888_963_407);
        (self.0 >> 33) as usize % end
    }
}

/// A placed example as a text.
fn example(name: &str) -> Input {
    let folder = concat!(env!("CARGO_MANIFEST_DIR"), "/../../examples");
    let file = Source::named(format!("{folder}/{name}").into());
    let Ok(input) = file.clinic() else {
        panic!("{name} can't be read");
    };
    let Ok((placed, _)) = pilzdamo::placed(&input) else {
        return input;
    };
    let names = &input.text.as_ref().expect("a text").packed.names;
    let text = text::unpack_named(&placed, names).expect("names that fit");
    match Input::of_text(name.to_string(), text.as_bytes()) {
        Ok(input) => input,
        Err(_) => panic!("{name} can't be read"),
    }
}

/// A list of up to so many choices that aren't refused, at times with one after them that
/// is.
fn list(input: &Input, table: &Table, dice: &mut Dice, most: usize) -> Vec<u16> {
    let mut run = Follower::start(input, Seating::Asked(table)).expect("a run");
    let mut tries = 0;
    while run.words.len() < 2 * most && tries < 400 {
        tries += 1;
        let threads = run.roll.threads.len();
        if threads == 0 {
            break;
        }
        let thread = dice.below(threads) as u16 + 1;
        let partner = match dice.below(2) {
            0 => 0,
            _ => dice.below(threads) as u16 + 1,
        };
        let longer = [&run.words[..], &[thread, partner]].concat();
        let told = pilzdamo::seats(input, &longer, &table.words);
        if told.verdict().is_clean() {
            assert!(run.choose(thread, partner));
            tries = 0;
        } else if dice.below(200) == 0 {
            return longer;
        }
    }
    run.words
}

/// The lines that are followed are the engine's: the quick way is the slow one.
#[test]
fn quick_and_slow_alike() {
    let mut dice = Dice(1);
    let (mut waited, mut halted, mut ended) = (0, 0, 0);
    for name in ["seats/asked.txt", "spring/cut.txt", "spring/bare.txt"] {
        let input = example(name);
        for seats in [[0, 1, 0], [1, 0, 0], [1, 1, 1], [1, 2, 3]] {
            let table = Table::of("seats", &seats);
            for _ in 0..12 {
                let words = list(&input, &table, &mut dice, 150);
                let choices = numbered(&words);
                let told = pilzdamo::seats(&input, &words, &seats);
                waited += told.waited;
                halted += u16::from(!told.verdict().is_clean());
                ended += 1;
                let quick = walk(&input, &choices, Seating::by(Some(&table)));
                let slow = walk(&input, &choices, Seating::Asked(&table));
                assert!(quick.is_some(), "{name} {seats:?}: {words:?}");
                assert_eq!(quick, slow, "{name} {seats:?}: {words:?}");
                if told.verdict().is_clean() {
                    read_again(&input, &quick.unwrap_or_default(), &table);
                }
            }
        }
    }
    assert!(waited > 100 && halted > 5, "{waited}, {halted} of {ended}");
}

/// What is written of a list in names is read as the same list.
fn read_again(input: &Input, followed: &Followed, table: &Table) {
    let line = followed.line(&input.sessions(), 0..followed.met.len());
    let Ok(again) = List::of(String::new(), line.as_bytes(), input, Some(table)) else {
        panic!("not read: {line}");
    };
    assert_eq!(again.words, followed.words, "{line}");
}

/// What the engine answers otherwise doesn't count.
#[test]
fn another_list_does_not_agree() {
    let (input, table) = (example("spring/cut.txt"), Table::of("seats", &[1, 0, 0]));
    let lines = Seating::by(Some(&table));
    let mut run = Follower::start(&input, lines).expect("a run");
    // Both schedulers want role 1, and the second waits.
    assert!(run.choose(1, 0) && run.choose(2, 0) && run.agrees());
    // A choice that was not followed: the second asks again.
    run.words.extend([2, 0]);
    assert!(!run.agrees());
}

/// A role that its user hasn't is refused, and not waited for.
#[test]
fn a_role_that_is_not_assigned() {
    let text = "\
clinic 1
role holder
user one: holder
user two
session first by one
  on holder
session second by two
  on holder
";
    let Ok(input) = Input::of_text("unassigned".to_string(), text.as_bytes()) else {
        panic!("it can't be read");
    };
    let table = Table::of("seats", &[1]);
    let choices = numbered(&[1, 0, 2, 0]);
    let quick = walk(&input, &choices, Seating::by(Some(&table)));
    assert!(quick.is_some());
    assert_eq!(quick, walk(&input, &choices, Seating::Asked(&table)));
}
