//! Any text whatever is read to its end: as a file that has a text, or with flaws at
//! places that are in it.

use text::{canonical, pack, placed, stripped, told, unpack_named, why, Lent, Packed};

const TEXT: &str = "\
clinic 2 # a comment
kind a carries b
kind b
role r: send a, b; receive a; 1 seat
role s: send b; juniors r; 12 seats; open Mon-Fri 07:00-15:00, Sat 22:00-06:00
user u: r, s
user w
channel c: a, owner u
channel d: b, owner w

session one by u as r
  new x: a
  on s
  fork
    branch
      send c on x
      receive y on c
      compare y with d
    branch
      off r
      repeat
        send u on d

session two by w
";

/// A small generator of numbers.
struct Rng(u64);

impl Rng {
    fn below(&mut self, most: usize) -> usize {
        self.0 = self
            .0
            .wrapping_mul(6_364_136_223_846_793_005)
            .wrapping_add(1);
        (self.0 >> 33) as usize % most.max(1)
    }
}

/// Some words and signs.
const BITS: [&str; 28] = [
    "clinic", "kind", "role", "user", "channel", "session", "send", "on", "off", "fork", "branch",
    "repeat", "new", "open", "seats", "Sun", "24:00", ":", ",", ";", "#", "->", "\t", "  ", "\n",
    "\u{0}", "\u{e4}", "\u{2028}",
];

/// The text with something changed.
fn changed(rng: &mut Rng) -> String {
    let mut chars: Vec<char> = TEXT.chars().collect();
    for _ in 0..=rng.below(3) {
        let at = rng.below(chars.len());
        let until = (at + rng.below(12)).min(chars.len());
        match rng.below(4) {
            0 => drop(chars.drain(at..until)),
            1 => drop(chars.splice(at..at, BITS[rng.below(BITS.len())].chars())),
            2 => {
                let some = chars[at..until].to_vec();
                let to = rng.below(chars.len());
                drop(chars.splice(to..to, some));
            }
            _ => {
                let from = rng.below(chars.len());
                chars[at] = chars[from];
            }
        }
    }
    chars.into_iter().collect()
}

/// What is understood has a canonical text, from which the same file comes, and may be
/// stripped.
fn is_sound(text: &str, packed: &Packed) {
    let again = canonical(packed).unwrap_or_else(|| panic!("no text for\n{text}"));
    let file = packed.bytes();
    assert_eq!(unpack_named(&file, &packed.names), Some(again));
    let lent = Lent::of(packed);
    let kept = lent.text();
    assert_eq!(Lent::read(&kept), Ok(lent), "{kept}");
    let bare = stripped(text, packed);
    let bare_file = pack(&bare).unwrap_or_else(|flaws| panic!("{flaws:?}\n{bare}"));
    assert!(bare_file.records.nodes.iter().all(|node| node[0] < 7));
    // The text's own on and off are put in again by placing the stripped one so.
    let put_in = placed(&bare, &bare_file, &packed.records).expect("a placement");
    assert_eq!(pack(&put_in).expect("a text").bytes(), file, "{put_in}");
    for number in 0..30 {
        for place in 0..=packed.records.nodes.len() as u16 + 1 {
            let _ = why(packed, number, place);
        }
    }
}

#[test]
fn texts_that_are_changed() {
    let rng = &mut Rng(2004);
    let (mut sound, mut wrong) = (0, 0);
    is_sound(TEXT, &pack(TEXT).expect("it is sound"));
    for _ in 0..20_000 {
        let text = changed(rng);
        match pack(&text) {
            Ok(packed) => {
                is_sound(&text, &packed);
                sound += 1;
            }
            Err(flaws) => {
                assert!(!flaws.is_empty());
                for flaw in flaws {
                    let line = text
                        .split('\n')
                        .nth(flaw.at.line - 1)
                        .expect("a line of it");
                    assert!(
                        flaw.at.column <= line.chars().count() + 1,
                        "{flaw:?}\n{text}"
                    );
                    assert_eq!(told("a", &text, flaw.at, "b").lines().count(), 3);
                }
                wrong += 1;
            }
        }
    }
    println!("{sound} sound, {wrong} wrong");
    assert!(sound > 500 && wrong > 5_000);
}
