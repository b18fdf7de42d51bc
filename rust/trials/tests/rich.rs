//! The sound files of the trials show what they should.

use second::draft::Draft;
use second::{Section, Version};
use trials::juniors;

/// The least number of files that show a thing.
const LEAST: u64 = 100;

/// A file that passes the check, as words.
struct Words {
    version: Version,
    words: Vec<u16>,
    draft: Draft,
}

impl Words {
    fn of(file: &[u8]) -> Words {
        let draft = Draft::of(file);
        // Those of the file, unless it has none.
        let bytes = draft.bytes();
        let pairs = bytes.as_chunks().0;
        Words {
            version: draft.version(),
            words: pairs.iter().map(|&pair| u16::from_le_bytes(pair)).collect(),
            draft,
        }
    }

    fn count(&self, section: Section) -> u16 {
        self.words[section.count_at()]
    }

    fn records(&self, section: Section) -> Vec<&[u16]> {
        let offset = self.version.offset_at(section).expect("it is there");
        let start = usize::from(self.words[offset]);
        self.words[start..]
            .chunks(section.width().into())
            .take(self.count(section).into())
            .collect()
    }

    fn any_node(&self, will_do: impl Fn(u16, u16, u16) -> bool) -> bool {
        let nodes = self.records(Section::Nodes);
        nodes.iter().any(|node| will_do(node[0], node[1], node[2]))
    }

    /// Whether the operand is a channel of kind 17 or above.
    fn high_channel(&self, operand: u16) -> bool {
        let channels = self.records(Section::Channels);
        let channel = usize::from(operand).checked_sub(257);
        channel.is_some_and(|at| at < channels.len() && channels[at][1] > 16)
    }

    fn has_fork_in_fork(&self) -> bool {
        let nodes = self.records(Section::Nodes);
        nodes.windows(2).any(|two| two[0][0] == 1 && two[1][0] == 1)
    }
}

/// Says whether a node shows something.
type OfNode = fn(u16, u16, u16) -> bool;

/// Says whether a file shows something.
type Sign = Box<dyn Fn(&Words) -> bool>;

fn signs(version: Version) -> Vec<(String, Sign)> {
    let mut signs: Vec<(String, Sign)> = Vec::new();
    let mut sign = |name: String, sign: Sign| signs.push((name, sign));
    if version == Version::Two {
        let mask = |words: &Words, role: usize| words.records(Section::Juniors)[role][0];
        let any = move |will_do: fn(u16, usize) -> bool| {
            move |f: &Words| (0..f.draft.roles.len()).any(|role| will_do(mask(f, role), role))
        };
        sign(
            "one junior".into(),
            Box::new(any(|mask, _| mask.count_ones() == 1)),
        );
        sign(
            "several juniors".into(),
            Box::new(any(|mask, _| mask.count_ones() > 1)),
        );
        let all_lower = |mask: u16, role: usize| role == 15 && mask == 0x7fff;
        sign("fifteen juniors".into(), Box::new(any(all_lower)));
        let more = |f: &Words| juniors::granted(&f.draft) != f.draft.roles;
        sign("grants by a junior".into(), Box::new(more));
        let chain = |f: &Words| {
            let one_level = juniors::of_one_level(&f.draft).roles;
            juniors::granted(&f.draft) != one_level
        };
        sign("grants by a chain of two".into(), Box::new(chain));
    }
    for &section in version.sections() {
        let (most, none) = (format!("most {section:?}"), format!("no {section:?}"));
        sign(most, Box::new(move |f| f.count(section) == section.most()));
        sign(none, Box::new(move |f| f.count(section) == 0));
    }
    for due in 0..=8 {
        let name = format!("tag {due}");
        sign(name, Box::new(move |f| f.any_node(|tag, _, _| tag == due)));
    }
    let nodes: [(&str, OfNode); 6] = [
        ("a channel sent", |tag, _, f2| {
            tag == 6 && (257..321).contains(&f2)
        }),
        ("a variable sent", |tag, _, f2| tag == 6 && f2 >= 512),
        ("send on a variable", |tag, f1, _| tag == 6 && f1 >= 512),
        ("receive on a made channel", |tag, f1, _| {
            tag == 5 && f1 >= 512
        }),
        ("new of kind 17 to 32", |tag, f1, _| tag == 3 && f1 > 16),
        ("the eighth variable used", |tag, f1, f2| {
            tag > 3 && (f1 == 519 || f2 == 519)
        }),
    ];
    for (name, shows) in nodes {
        sign(name.into(), Box::new(move |f| f.any_node(shows)));
    }
    for (due, name) in [(5, "receive"), (6, "send")] {
        let shows = move |f: &Words| f.any_node(|tag, f1, _| tag == due && f.high_channel(f1));
        sign(format!("{name} on kind 17 to 32"), Box::new(shows));
    }
    for (word, name) in [(1, "send"), (3, "receive")] {
        let shows = move |f: &Words| f.records(Section::Roles).iter().any(|r| r[word] != 0);
        sign(format!("{name} on kind 17 to 32 granted"), Box::new(shows));
    }
    sign("a fork in a fork".into(), Box::new(Words::has_fork_in_fork));
    signs
}

#[test]
fn files_that_pass_show_everything() {
    Version::BY_ROW.into_iter().for_each(demand_signs);
}

fn demand_signs(version: Version) {
    let signs = signs(version);
    let mut shown = vec![0; signs.len()];
    for index in 0..trials::files() / 4 {
        let file = trials::deal(version, trials::seed(), index);
        let other = Version::claimed(&file) != version;
        if other || trials::second_check(&file) != (0, 0) {
            continue;
        }
        let words = Words::of(&file);
        for (count, (_, sign)) in shown.iter_mut().zip(&signs) {
            *count += u64::from(sign(&words));
        }
    }
    for (count, (name, _)) in shown.iter().zip(&signs) {
        println!("{count:>9} {name}");
    }
    let rare: Vec<_> = (shown.iter().zip(&signs))
        .filter(|(count, _)| **count < LEAST)
        .map(|(_, (name, _))| name)
        .collect();
    assert!(rare.is_empty(), "under {LEAST} files: {rare:?}");
}
