//! What is wrong with a list, and what is not.

use super::super::{compare, desk, fork, new, receive, send};
use super::{done, record, refused, ChooseCase, Lent};
use crate::cases::END;
use crate::draft::Draft;

/// At node 4 the variables are of kind 1 and plain, at node 8 of kind 1.
fn file() -> Draft {
    desk(&[
        (
            1,
            1,
            &[new(1), receive(512), send(258, 512), compare(513, 513), END],
        ),
        (2, 3, &[receive(258), send(512, 3), compare(1, 1), END]),
        (3, 0, &[new(2), END]),
    ])
}

/// Threads at these two nodes, as a run may leave them. The last made channel
/// is not used.
fn lent() -> Lent {
    let threads = [record(1, 4, 1, &[385, 3]), record(2, 8, 3, &[257])];
    Lent::of(&threads, &[[1, 1], [2, 2]])
}

/// Lists that are no state of a run and may be lent.
pub fn fitting() -> Vec<ChooseCase> {
    // The second thread compares.
    let fits = |name, change: &dyn Fn(&mut Lent)| {
        let mut lent = lent();
        change(&mut lent);
        let mut after = lent.clone();
        after.threads[1].node = 9;
        done(name, &file(), [2, 0], lent, after)
    };
    let third = |lent: &mut Lent, thread| {
        lent.threads.push(thread);
        lent.counts[0] = 3;
    };
    let branches = desk(&[(
        1,
        0,
        &[fork(5), new(1), new(2), END, new(3), fork(8), END, END],
    )]);
    let in_branches = [record(1, 4, 0, &[260, 258]), record(1, 7, 0, &[259])];
    let left = [in_branches[0]];
    vec![
        fits("a state of a run", &|_| {}),
        fits("no role active", &|lent| {
            for thread in &mut lent.threads {
                thread.mask = 0;
            }
        }),
        fits("all roles of the users active", &|lent| {
            for thread in &mut lent.threads {
                thread.mask = 7;
            }
        }),
        fits("a named channel for one that was made", &|lent| {
            lent.threads[0].variables[0] = 260;
        }),
        fits("a made channel for a named one", &|lent| {
            lent.threads[1].variables[0] = 385;
        }),
        fits("a made channel of another owner", &|lent| {
            lent.made[0] = [3, 1];
        }),
        fits("the last user, the last kind", &|lent| {
            lent.made[1] = [3, 17];
        }),
        fits("the last channel of all, made", &|lent| {
            lent.made.resize(64, [3, 1]);
            lent.counts[1] = 64;
            lent.threads[0].variables[0] = 448;
        }),
        fits("a receive with its variable unbound", &|lent| {
            third(lent, record(1, 2, 7, &[385]));
        }),
        fits("two threads at one binder", &|lent| {
            third(lent, record(2, 6, 0, &[]));
            lent.threads[0] = record(2, 6, 7, &[]);
        }),
        fits("a thread at the last node", &|lent| {
            third(lent, record(3, 11, 0, &[386]));
        }),
        fits("64 threads", &|lent| {
            lent.threads.resize(64, record(1, 5, 0, &[257, 1]));
            lent.counts[0] = 64;
        }),
        done(
            "each branch has its own kinds",
            &branches,
            [2, 0],
            Lent::of(&in_branches, &[]),
            Lent::of(&left, &[]),
        ),
    ]
}

/// Each cause of 18 at place 0.
pub fn cases() -> Vec<ChooseCase> {
    let unfit = |name, change: &dyn Fn(&mut Lent)| {
        let mut lent = lent();
        change(&mut lent);
        refused(name, file().bytes(), [2, 0], lent, (18, 0))
    };
    let records = |name, records| unfit(name, &move |lent| lent.records = records);
    let words = |name, words| unfit(name, &move |lent| lent.words = words);
    let counts = |name, at: usize, count| unfit(name, &move |lent| lent.counts[at] = count);
    let made = |name, at: usize, made| unfit(name, &move |lent| lent.made[at] = made);
    let first = |name, thread| unfit(name, &move |lent| lent.threads[0] = thread);
    let holds = |name, bound: [u16; 2]| first(name, record(1, 4, 1, &bound));
    vec![
        records("no records", 0),
        records("two records", 2),
        records("63 records", 63),
        records("65 records", 65),
        words("no words beside", 0),
        words("one word beside", 1),
        words("two words beside", 2),
        words("130 words beside", 130),
        words("161 words beside", 161),
        words("163 words beside", 163),
        words("324 words beside", 324),
        counts("65 threads", 0, 65),
        counts("65,535 threads", 0, 65_535),
        counts("65 made channels", 1, 65),
        counts("65,535 made channels", 1, 65_535),
        counts("a made channel past the number", 1, 0),
        made("a made channel of user 0", 0, [0, 1]),
        made("an unused made channel of user 0", 1, [0, 2]),
        made("a made channel of user 4", 1, [4, 2]),
        made("a made channel of kind 0", 1, [2, 0]),
        made("a made channel of kind 18", 1, [2, 18]),
        made("a made channel of kind 65,535", 1, [2, 65_535]),
        first("node 0", record(1, 0, 1, &[385, 3])),
        first("node 12", record(3, 12, 0, &[386])),
        first("node 65,535", record(1, 65_535, 1, &[])),
        first("the user of another session", record(2, 4, 1, &[385, 3])),
        first("user 0", record(0, 4, 0, &[385, 3])),
        first("user 4", record(4, 4, 0, &[385, 3])),
        first("a role that is not the user's", record(3, 10, 1, &[])),
        first("a role that is not there", record(1, 4, 8, &[385, 3])),
        first("role 16", record(1, 4, 0x8001, &[385, 3])),
        holds("a bound variable of 0", [385, 0]),
        holds("a bound variable of 0, then one that is bound", [0, 3]),
        holds("user 4 for a plain variable", [385, 4]),
        holds("33 for a plain variable", [385, 33]),
        holds("a named channel for a plain variable", [385, 257]),
        holds("a made channel for a plain variable", [385, 385]),
        holds("a variable's operand for its value", [385, 513]),
        holds("a user for a channel", [1, 3]),
        holds("256 for a channel", [256, 3]),
        holds("a channel above the count", [262, 3]),
        holds("384 for a made channel", [384, 3]),
        holds("a made channel above the number", [387, 3]),
        holds("made channel 64 of two", [448, 3]),
        holds("449 for a made channel", [449, 3]),
        holds("a named channel of another kind", [258, 3]),
        holds("a named channel of a kind that carries the same", [259, 3]),
        holds("a made channel of another kind", [386, 3]),
        first("a value past the bound ones", record(1, 4, 1, &[385, 3, 3])),
        first(
            "a value in the eighth variable",
            record(1, 4, 1, &[385, 3, 0, 0, 0, 0, 0, 385]),
        ),
        first("a new with its own variable", record(1, 1, 1, &[385])),
        first(
            "a receive with its own variable",
            record(1, 2, 1, &[385, 3]),
        ),
        unfit("a fault in the last thread of 64", &|lent| {
            lent.threads.resize(64, record(1, 5, 0, &[257, 1]));
            lent.threads[63].node = 1;
            lent.counts[0] = 64;
        }),
        unfit("a fault in the last made channel of 64", &|lent| {
            lent.made.resize(64, [3, 1]);
            lent.made[63] = [1, 0];
            lent.counts[1] = 64;
        }),
        unfit(
            "a fault in a thread that the choice leaves alone",
            &|lent| {
                lent.threads[0].mask = 9;
            },
        ),
    ]
}
