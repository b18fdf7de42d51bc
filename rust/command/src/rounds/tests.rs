use super::*;
use crate::lists::List;
use crate::reading::Start;
use crate::seats::Table;
use crate::source::Source;
use pilzdamo::{Round, State, RUN_ROOM};
use std::collections::BTreeMap;
use text::{Channel, Node, Records, Role, Session, Version};

/// Numbers that look random, the same each time.
struct Dice(u64);

impl Dice {
    fn below(&mut self, end: usize) -> usize {
        let odd = 6_364_136_223_846_793_005;
        self.0 = self
            .0
            .wrapping_mul(odd)
            .wrapping_add(1_442_695_040_888_963_407);
        (self.0 >> 33) as usize % end
    }

    fn from(&mut self, low: u16, high: u16) -> u16 {
        low + self.below(usize::from(high - low) + 1) as u16
    }
}

/// Role 1 sends, role 2 receives and role 3 does both, in version 2 by its juniors. Kind 2
/// carries channels of kind 1, such as channel 1.
fn tables(dice: &mut Dice) -> Records {
    let role = |sends, receives| Role {
        sends,
        receives,
        juniors: 0,
    };
    let mut records = Records {
        version: Version::One,
        users: vec![7, 1],
        roles: vec![role(3, 0), role(0, 3), role(1, 1)],
        kinds: vec![0, 1],
        channels: vec![Channel { owner: 1, kind: 1 }],
        ..Records::default()
    };
    if dice.below(3) == 0 {
        records.version = Version::Two;
        records.roles[2] = Role {
            juniors: 3,
            ..role(0, 0)
        };
    }
    for _ in 0..dice.below(3) {
        let kind = dice.from(1, 2);
        records.channels.push(Channel { owner: 1, kind });
    }
    records
}

/// A file of sessions that have much to do with each other. Some never end, and some fill
/// the list of threads or of channels.
fn deal(dice: &mut Dice) -> Records {
    let mut records = tables(dice);
    for _ in 0..dice.from(1, 12) {
        let mask = [7, 7, 7, 1, 2, 4, 6, 0][dice.below(8)];
        let root = records.nodes.len() as u16 + 1;
        records.sessions.push(Session {
            user: 1,
            mask,
            root,
        });
        let steps = dice.below(8);
        match dice.below(10) {
            0 => records.nodes.extend(own_channel(root)),
            1 => records.nodes.extend([[2, 0, 0], [3, 1, 0], [0, 0, 0]]),
            _ => grow(dice, &mut records.nodes, &records.channels, steps),
        }
    }
    records
}

/// Makes a channel, and sends on it in one branch to the other.
fn own_channel(root: u16) -> [Node; 7] {
    let (fork, compare) = ([1, root + 4, 0], [4, 513, 2]);
    let (send, receive) = ([6, 512, 2], [5, 512, 0]);
    [
        [3, 1, 0],
        fork,
        send,
        [0, 0, 0],
        receive,
        compare,
        [0, 0, 0],
    ]
}

/// A tree of so many steps. What a fork binds isn't used.
fn grow(dice: &mut Dice, nodes: &mut Vec<Node>, channels: &[Channel], steps: usize) {
    for left in (0..steps).rev() {
        let at = dice.below(channels.len());
        let channel = 257 + at as u16;
        let value = match channels[at].kind {
            1 => dice.from(1, 2),
            _ => 257,
        };
        nodes.push(match dice.below(32) {
            0..=9 => [5, channel, 0],
            10..=18 => [6, channel, value],
            19..=20 => [4, 1, dice.from(1, 2)],
            21..=22 => [7, dice.from(1, 3), 0],
            23 => [8, dice.from(1, 3), 0],
            24 => [3, dice.from(1, 2), 0],
            25..=28 => [2, 0, 0],
            29..=30 => {
                let fork = nodes.len();
                nodes.push([1, 0, 0]);
                let first = dice.below(left + 1);
                grow(dice, nodes, channels, first);
                nodes[fork][1] = nodes.len() as u16 + 1;
                return grow(dice, nodes, channels, left);
            }
            _ => [4, 1, 1],
        });
    }
    nodes.push([0, 0, 0]);
}

/// The engine's round after these choices, and the state that it leads to.
fn engine(input: &Input, words: &[u16], table: Option<&Table>) -> (Round, State) {
    let mut room = [0; RUN_ROOM];
    let round = match table {
        None => pilzdamo::round(input, words, &mut room),
        Some(table) => pilzdamo::round_seated(input, words, &table.words, &mut room),
    };
    assert!(round.verdict().is_clean());
    (round, State::of(&room).expect("a state"))
}

/// Goes through up to so many rounds, each of which is the engine's, and counts what came.
fn compare(
    input: &Input,
    table: Option<&Table>,
    most: usize,
    came: &mut BTreeMap<&'static str, usize>,
) {
    let mut rounds = Rounds::start(input, Seating::by(table), false).expect("a run");
    let mut lines = String::new();
    let mut count = |what: &'static str, more: usize| *came.entry(what).or_default() += more;
    for _ in 0..most {
        let before = rounds.run.words.clone();
        let (due, state) = engine(input, &before, table);
        let line = rounds.go();
        let (done, own) = rounds.run.words.split_at(before.len());
        assert_eq!((done, own), (&before[..], due.choices()), "{}", input.name);
        assert_eq!(line.is_none(), own.is_empty());
        assert_eq!(rounds.run.desk.threads(), state.threads);
        assert!(rounds.run.desk.made().eq(state.made.iter().copied()));
        count("rounds", 1);
        count("choices", own.len() / 2);
        count(
            "meetings",
            own.as_chunks().0.iter().filter(|[_, p]| *p > 0).count(),
        );
        count("full of threads", usize::from(state.threads.len() == 64));
        count("full of channels", usize::from(state.made.len() == 64));
        let Some(line) = line else {
            count("empty rounds", 1);
            break;
        };
        lines += &(line + "\n");
    }
    count("visits without a seat", rounds.run.waited.len());
    assert!(rounds.run.agrees());
    let Ok(again) = List::of(String::new(), lines.as_bytes(), input, table) else {
        panic!("not read: {lines}");
    };
    assert_eq!(again.words, rounds.run.words, "{lines}");
    count("ends where all wait", still(&mut rounds, input, table));
    assert!(rounds.run.agrees());
}

/// Does one more round, and says whether it was taken back. Then the engine does the same
/// round again and again, and nobody in it gets a seat.
fn still(rounds: &mut Rounds, input: &Input, table: Option<&Table>) -> usize {
    let (before, done) = (rounds.run.moment(), rounds.run.words.clone());
    if rounds.go().is_none() {
        return 0;
    }
    let both = rounds.run.words.clone();
    let is_still = rounds.run.takes_waits_back(before);
    let own = &both[done.len()..];
    let (again, state) = engine(input, &both, table);
    let is_same = again.choices() == own && state.threads == rounds.run.desk.threads();
    match is_still {
        true => assert!(is_same && rounds.run.words == done),
        false => assert_eq!(rounds.run.words, both),
    }
    usize::from(is_still)
}

fn input(name: String, records: &Records) -> Input {
    let bytes = records.bytes();
    assert!(pilzdamo::read(&bytes).is_clean(), "{name}: {records:?}");
    Input::of_bytes(name, Start::whole(bytes))
}

/// Random routines, as many rounds as are quick.
#[test]
fn the_rounds_are_the_engines() {
    let (mut dice, mut came) = (Dice(7), BTreeMap::new());
    let mut files = 0;
    while files < 400 {
        let records = deal(&mut dice);
        if !pilzdamo::read(&records.bytes()).is_clean() {
            // A ninth variable on a path.
            continue;
        }
        files += 1;
        compare(
            &input(format!("file {files}"), &records),
            None,
            75,
            &mut came,
        );
    }
    for (what, least) in [
        ("rounds", 5_000),
        ("choices", 20_000),
        ("meetings", 1_000),
        ("full of threads", 500),
        ("full of channels", 100),
        ("empty rounds", 200),
    ] {
        assert!(came.get(what) >= Some(&least), "{what}: {came:?}");
    }
}

/// An example, as a text and placed if it can be.
fn example(name: &str) -> Vec<Input> {
    let folder = concat!(env!("CARGO_MANIFEST_DIR"), "/../../examples");
    let file = Source::named(format!("{folder}/{name}").into());
    let Ok(read) = file.clinic() else {
        panic!("{name} can't be read");
    };
    let mut inputs = Vec::new();
    if let (Some(text), Ok((placed, _))) = (&read.text, pilzdamo::placed(&read)) {
        let text = text::unpack_named(&placed, &text.packed.names).expect("names that fit");
        inputs.extend(Input::of_text(format!("{name}, placed"), text.as_bytes()).ok());
        inputs.push(Input::of_bytes(name.to_string(), Start::whole(placed)));
    }
    inputs.push(read);
    inputs
}

#[test]
fn the_examples() {
    let mut came = BTreeMap::new();
    for name in [
        "booking.txt",
        "desks.txt",
        "transfer.txt",
        "theatre.txt",
        "house/north.txt",
        "house/south.txt",
        "spring/cut.txt",
        "spring/bare.txt",
        "seats/asked.txt",
        "head-nurse/juniors.txt",
        "head-nurse/columns.txt",
        "nothing.txt",
    ] {
        for input in example(name) {
            compare(&input, None, 80, &mut came);
        }
    }
    assert!(came["rounds"] > 500 && came["meetings"] > 50, "{came:?}");
}

/// With seats the rounds are the engine's too.
#[test]
fn with_seats() {
    let mut came = BTreeMap::new();
    for name in ["spring/cut.txt", "spring/bare.txt", "seats/asked.txt"] {
        for input in example(name) {
            for seats in [[0, 1, 0], [1, 0, 0], [1, 1, 1], [1, 2, 3]] {
                let table = Table::of("seats", &seats);
                compare(&input, Some(&table), 40, &mut came);
            }
        }
    }
    assert!(came["visits without a seat"] > 100, "{came:?}");
}

/// Seats for a random routine: at least as many as sessions start with the role, or no limit.
fn seats(dice: &mut Dice, records: &Records) -> Vec<u16> {
    let roles = 0..records.roles.len();
    roles
        .map(|role| {
            let sessions = records.sessions.iter();
            let starts = sessions.filter(|session| session.mask >> role & 1 == 1);
            let starts = starts.count() as u16;
            match dice.below(4) {
                0 => 0,
                _ => dice.from(starts.max(1), starts + 1),
            }
        })
        .collect()
}

/// Random routines with seats, in which sessions wait, go on and wait for ever.
#[test]
fn random_routines_with_seats() {
    let (mut dice, mut came) = (Dice(13), BTreeMap::new());
    let mut files = 0;
    while files < 400 {
        let mut records = deal(&mut dice);
        for session in &mut records.sessions {
            session.mask &= [0, 0, 7][dice.below(3)];
            // Many ask for a role first, in place of a step that binds nothing.
            let node = &mut records.nodes[usize::from(session.root) - 1];
            if matches!(node[0], 4 | 6..=8) && dice.below(4) > 0 {
                *node = [7, dice.from(1, 3), 0];
            }
        }
        if !pilzdamo::read(&records.bytes()).is_clean() {
            continue;
        }
        files += 1;
        let table = Table::of("seats", &seats(&mut dice, &records));
        let input = input(format!("file {files}, {:?}", table.words), &records);
        compare(&input, Some(&table), 75, &mut came);
    }
    for (what, least) in [
        ("rounds", 5_000),
        ("choices", 20_000),
        ("visits without a seat", 1_000),
        ("ends where all wait", 10),
        ("empty rounds", 100),
    ] {
        assert!(came.get(what) >= Some(&least), "{what}: {came:?}");
    }
}

/// Sparing rounds are those of a run, and the plain ones as long as no repeat is left out.
/// No repeat has two threads at once that have met nobody.
#[test]
fn sparing_rounds() {
    let mut dice = Dice(11);
    let (mut left_out, mut alike) = (0, 0);
    for number in 0..200 {
        let records = deal(&mut dice);
        if !pilzdamo::read(&records.bytes()).is_clean() {
            continue;
        }
        let input = input(format!("file {number}"), &records);
        let [mut plain, mut sparing] = [false, true]
            .map(|sparing| Rounds::start(&input, Seating::Unlimited, sparing).expect("a run"));
        for _ in 0..60 {
            let (one, other) = (plain.go(), sparing.go());
            let spared = sparing.spared().expect("it is sparing");
            if spared.left_out == 0 {
                assert_eq!(one, other, "{}", input.name);
                alike += usize::from(one.is_some());
            }
            for (at, [repeat, copy]) in spared.waiting.iter().enumerate() {
                let others = &spared.waiting[at + 1..];
                assert!(others.iter().all(|[one, _]| one != repeat));
                assert!(sparing.run.roll.threads.contains(copy));
            }
            if other.is_none() {
                break;
            }
        }
        left_out += sparing.spared().expect("it is sparing").left_out;
        let words = &sparing.run.words;
        let mut room = [0; RUN_ROOM];
        assert!(pilzdamo::run(&input, words, &mut room).is_clean());
        let state = State::of(&room).expect("a state");
        assert_eq!(sparing.run.desk.threads(), state.threads);
    }
    assert!(left_out > 500 && alike > 200, "{left_out}, {alike}");
}
