//! Refusals before the first choice.

use super::{off, on, refused, send, state, thread, RunCase};
use crate::cases::{clinic, END};
use crate::{Ready, RUN_ROOM};
/// Refusals before the first choice.
pub fn cases() -> Vec<RunCase> {
    let desk = clinic(&[END]).bytes();
    let mut odd_file = desk.clone();
    odd_file.push(0);
    let named = |nodes: &[[u16; 3]]| clinic(nodes).bytes();
    let of_check = named(&[on(1), send(259, 1), off(2), END]);
    let ending = |count| [1, 0].repeat(count);
    // An output that is too short hides the state, not the ready pair.
    let short = |room, file: &[u8], ready| RunCase {
        room,
        ready,
        ..refused("output too short", file.to_vec(), vec![], (17, 0))
    };
    vec![
        short(0, &desk, Ready::pair(0, 0)),
        short(RUN_ROOM - 1, &desk, Ready::pair(0, 0)),
        short(RUN_ROOM - 2, &[0], Ready::refused(1, 0)),
        refused("an odd list", desk.clone(), vec![1], (17, 0)),
        refused(
            "an odd list of 131,071",
            desk.clone(),
            [vec![1], ending(65_535)].concat(),
            (17, 0),
        ),
        refused("65,536 choices", desk.clone(), ending(65_536), (17, 0)),
        refused("an odd list before 1", vec![1], vec![0; 3], (17, 0)),
        refused(
            "65,536 choices before 1",
            odd_file.clone(),
            ending(65_536),
            (17, 0),
        ),
        refused("one byte", vec![1], vec![], (1, 0)),
        refused("an odd file", odd_file, ending(1), (1, 0)),
        refused("a refusal of 8", named(&[on(1)]), ending(1), (8, 2)),
        refused(
            "a refusal of 9",
            named(&[on(1), on(4), END]),
            ending(1),
            (9, 2),
        ),
        refused(
            "a refusal of 10",
            named(&[on(1), send(1, 1), END]),
            ending(9),
            (10, 2),
        ),
        RunCase {
            words: state(1, 18, &[], &[thread(1, 2, 1, 1, &[])]),
            ..refused(
                "a file that the check refuses with 13 runs, up to its choice",
                of_check,
                vec![1, 0, 1, 0, 1, 0],
                (18, 2),
            )
        },
        RunCase {
            words: state(1, 18, &[], &[]),
            ..refused("65,535 choices", desk, ending(65_535), (18, 2))
        },
    ]
}
