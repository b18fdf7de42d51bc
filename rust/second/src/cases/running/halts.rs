//! Choices that are refused.

use super::{
    compare, desk, ends, fork, halts, new, off, on, receive, send, thread, RunCase, REPEAT,
};
use crate::cases::END;
use crate::draft::Draft;
/// What is asked of each choice, and in which order.
pub fn cases() -> Vec<RunCase> {
    let lone = |name, node, partner| {
        let file = desk(&[(1, 0, &[node, END]), (2, 0, &[END])]);
        let threads = [thread(1, 1, 0, 0, &[]), thread(2, 3, 0, 0, &[])];
        halts(name, &file, &[[1, partner]], (0, 18), &[], &threads)
    };
    let meeting = |name, masks: [u16; 2], on: [u16; 2], choice: [u16; 2], number| {
        let file = desk(&[
            (1, masks[0], &[send(on[0], 3), END]),
            (2, masks[1], &[receive(on[1]), END]),
        ]);
        let roles = masks.map(|mask: u16| mask.count_ones() as u16);
        let threads = [
            thread(1, 1, masks[0], roles[0], &[]),
            thread(2, 3, masks[1], roles[1], &[]),
        ];
        halts(name, &file, &[choice], (0, number), &[], &threads)
    };
    let alone = |name, tree: &[[u16; 3]], choices: &[[u16; 2]], number, last: Vec<u16>| {
        let done = choices.len() as u16 - 1;
        let file = desk(&[(1, 1, tree)]);
        halts(name, &file, choices, (done, number), &[], &[last])
    };
    let stranger = desk(&[(3, 0, &[on(1), END])]);
    let two_sends = desk(&[(1, 1, &[send(257, 3), END]), (1, 1, &[send(257, 3), END])]);
    let sending = [thread(1, 1, 1, 1, &[]), thread(1, 3, 1, 1, &[])];
    let (both, same) = ([1, 2], [257, 257]);
    vec![
        halts(
            "no threads",
            &Draft::default(),
            &[[1, 0]],
            (0, 18),
            &[],
            &[],
        ),
        alone("thread 0", &[END], &[[0, 0]], 18, thread(1, 1, 1, 1, &[])),
        alone(
            "thread 2 of 1",
            &[END],
            &[[2, 0]],
            18,
            thread(1, 1, 1, 1, &[]),
        ),
        alone(
            "thread 65,535",
            &[END],
            &[[65_535, 1]],
            18,
            thread(1, 1, 1, 1, &[]),
        ),
        halts(
            "the number of a thread that has moved down",
            &desk(&[(1, 0, &[END]), (2, 0, &[END])]),
            &[[1, 0], [2, 0], [1, 0]],
            (1, 18),
            &[],
            &[thread(2, 2, 0, 0, &[])],
        ),
        halts(
            "an end with a partner",
            &desk(&[(1, 0, &[END]), (2, 0, &[END])]),
            &[[1, 2]],
            (0, 18),
            &[],
            &[thread(1, 1, 0, 0, &[]), thread(2, 2, 0, 0, &[])],
        ),
        lone("a repeat with a partner", REPEAT, 2),
        lone("a new with a partner that is no thread", new(1), 9),
        lone("a compare with itself", compare(1, 1), 1),
        lone("an unequal compare with a partner", compare(1, 2), 2),
        lone("on with a partner", on(1), 2),
        lone("off of what is not active, with a partner", off(1), 65_535),
        halts(
            "a fork with a partner",
            &desk(&[(1, 0, &[fork(3), END, END]), (2, 0, &[END])]),
            &[[1, 2]],
            (0, 18),
            &[],
            &[thread(1, 1, 0, 0, &[]), thread(2, 4, 0, 0, &[])],
        ),
        meeting("a send alone", [1, 2], same, [1, 0], 18),
        meeting("a send to a partner above", [1, 2], same, [1, 3], 18),
        meeting("a send to itself", [1, 2], same, [1, 1], 18),
        halts(
            "a send to a send",
            &two_sends,
            &[[1, 2]],
            (0, 18),
            &[],
            &sending,
        ),
        meeting("a receive named first", [1, 2], same, [2, 1], 18),
        meeting("a receive alone", [1, 2], same, [2, 0], 18),
        meeting("18 before the sender's 13", [0, 0], same, [1, 1], 18),
        halts(
            "on of a role not assigned",
            &stranger,
            &[[1, 0]],
            (0, 11),
            &[],
            &[thread(3, 1, 0, 0, &[])],
        ),
        alone(
            "off of a role not active",
            &[off(1), off(1), END],
            &[[1, 0], [1, 0]],
            12,
            thread(1, 2, 0, 0, &[]),
        ),
        meeting("the sender has no role", [0, 2], same, both, 13),
        meeting("the receiver has no role", [1, 0], same, both, 13),
        meeting("the roles the wrong way round", [2, 1], same, both, 13),
        meeting("a role for another kind", [4, 4], same, both, 13),
        meeting("the sender's 13 before 19", [4, 2], [257, 260], both, 13),
        meeting("the receiver's 13 before 19", [1, 4], [257, 260], both, 13),
        meeting("each by its own kind", [4, 2], [259, 257], both, 19),
        meeting(
            "a kind above 16, judged by it",
            [4, 2],
            [261, 261],
            both,
            13,
        ),
        meeting("two channels of one kind", [1, 2], [257, 260], both, 19),
        alone(
            "two users compared",
            &[compare(1, 1), compare(1, 3), END],
            &[[1, 0], [1, 0]],
            19,
            thread(1, 2, 1, 1, &[]),
        ),
        halts(
            "two made channels compared",
            &desk(&[(1, 0, &[new(2), new(2), compare(512, 513), END])]),
            &[[1, 0], [1, 0], [1, 0], [1, 0]],
            (2, 19),
            &[[1, 2], [1, 2]],
            &[thread(1, 3, 0, 0, &[385, 386])],
        ),
    ]
}

/// As many threads and made channels as there can be.
pub fn at_full() -> Vec<RunCase> {
    let repeat = desk(&[(1, 1, &[REPEAT, END])]);
    let forks = desk(&[(1, 1, &[REPEAT, fork(4), END, END])]);
    let makes = desk(&[(1, 1, &[REPEAT, new(2), END])]);
    let stay = thread(1, 1, 1, 1, &[]);
    let child = |count| vec![thread(1, 2, 1, 1, &[]); count];
    let many = |count| [vec![stay.clone()], child(count)].concat();
    // Each made by a thread that ends at once.
    let make_one = [[1, 0], [2, 0], [2, 0]];
    let made = vec![[1, 2]; 64];
    vec![
        ends("64 threads", &repeat, &[[1, 0]; 63], &[], &many(63), (0, 0)),
        halts(
            "a 65th thread by repeat",
            &repeat,
            &[[1, 0]; 65],
            (63, 20),
            &[],
            &many(63),
        ),
        halts(
            "a partner before the 65th thread",
            &repeat,
            &[[[1, 0]; 63].as_slice(), &[[1, 2]]].concat(),
            (63, 18),
            &[],
            &many(63),
        ),
        halts(
            "a 65th thread by fork",
            &forks,
            &[[[1, 0]; 63].as_slice(), &[[64, 0]]].concat(),
            (63, 20),
            &[],
            &many(63),
        ),
        ends(
            "an end makes room",
            &repeat,
            &[[[1, 0]; 63].as_slice(), &[[2, 0], [1, 0]]].concat(),
            &[],
            &many(63),
            (0, 0),
        ),
        ends(
            "65,535 choices, all of them done",
            &repeat,
            &[[[1, 0], [2, 0]].repeat(32_767).as_slice(), &[[1, 0]]].concat(),
            &[],
            &many(1),
            (0, 0),
        ),
        ends(
            "64 made channels",
            &makes,
            &make_one.repeat(64),
            &made,
            &many(0),
            (0, 0),
        ),
        halts(
            "a 65th channel, though the threads of the others have ended",
            &makes,
            &make_one.repeat(65),
            (193, 20),
            &made,
            &many(1),
        ),
        full_output(),
    ]
}

/// All 900 words: 64 channels made, eight by each of eight threads, and 64
/// threads that each hold all eight.
fn full_output() -> RunCase {
    let tree = [&[REPEAT], [new(17); 8].as_slice(), &[REPEAT, END]].concat();
    let file = desk(&[(2, 7, &tree)]);
    let mut choices = Vec::new();
    let mut threads = vec![thread(2, 1, 7, 3, &[])];
    let bound = |child: u16| -> Vec<u16> { (0..8).map(|i| 385 + 8 * child + i).collect() };
    for child in 0..8 {
        choices.push([1, 0]);
        choices.extend([[child + 2, 0]; 8]);
        threads.push(thread(2, 10, 7, 3, &bound(child)));
    }
    for turn in 0..55 {
        let child = turn % 8;
        choices.push([child + 2, 0]);
        threads.push(thread(2, 11, 7, 3, &bound(child)));
    }
    let made = [[2, 17]; 64];
    ends("all 900 words", &file, &choices, &made, &threads, (0, 0))
}
