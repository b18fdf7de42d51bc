//! The refusals at length: what their places count, who can mend them, and how. What
//! each number means in a few words is the engine's phrase.

use pilzdamo::{Counts, Verdict};

/// One refusal at length.
pub struct Refusal {
    /// What its place counts.
    pub place: &'static str,
    /// Who can mend it.
    pub who: &'static str,
    /// What is wrong.
    pub wrong: &'static str,
    /// How to mend it.
    pub mend: &'static str,
}

const WRITER: &str = "the file's writer";
const KEEPER: &str = "the schema's keeper";
const AUTHOR: &str = "the routine's author";
const CALLER: &str = "the caller";
const SENDER: &str = "the notice's sender";

const NOTHING: &str = "nothing; it is 0";
const WORD: &str = "words: the first word of the record, from 0 at the start of the file";
const JUNIORS: &str = "words: the role's word of juniors, from 0 at the start of the file";
const SESSION: &str = "sessions, from 1";
const NODE: &str = "nodes, from 1";
const NODE_OR_CHOICE: &str = "nodes, from 1; in a run choices, from 1";
const CHOICE: &str = "choices, from 1";
const ROW: &str = "rows of the table of hours, from 1";
const NOTICE: &str = "notices: 1 or 2, the lower where both are refused";

/// The refusal of this number.
pub fn of(number: u16) -> Option<&'static Refusal> {
    ALL.get(usize::from(number).checked_sub(1)?)
}

/// What the place of a refusal of this number counts.
pub fn counts(number: u16, place: u16, in_run: bool) -> Counts {
    match number {
        6 | 21 => Counts::Word,
        7 | 26 => Counts::Session,
        11..=13 if in_run => Counts::Choice,
        14 if place == 0 => Counts::Nothing,
        8..=15 | 24 => Counts::Node,
        18..=20 => Counts::Choice,
        23 => Counts::Row,
        27 => Counts::Notice,
        _ => Counts::Nothing,
    }
}

/// Whether a run's refusal came at a choice, so that there is a state.
pub fn is_halt(verdict: Verdict) -> bool {
    counts(verdict.number, verdict.place, true) == Counts::Choice
}

/// The refusals from 1 on.
pub const ALL: [Refusal; 28] = [
    Refusal {
        place: NOTHING,
        who: WRITER,
        wrong: "A file is made of words of two bytes, and its head alone has 13 of them, 14 in \
            versions 2 and 3. This one is shorter than a head, or ends in the middle of a word. \
            (Zero bytes are no fault: a clinic that has nothing planned yet sends none.)",
        mend: "Fetch the file again: most often it was cut off on its way. If it is so at its \
            source, write it again.",
    },
    Refusal {
        place: NOTHING,
        who: WRITER,
        wrong:
            "The first word of a file is the version of its format. This engine reads version 1; \
            version 2, in which roles have juniors; and version 3, which is version 2 with its \
            nodes by column. Two files are merged in version 1 alone; only version 2 is turned to \
            columns, and only version 3 to rows.",
        mend:
            "Write the file in one of these. If that is what was meant, make sure that each word \
            is written low byte first, and that this is a clinic's file at all.",
    },
    Refusal {
        place: NOTHING,
        who: WRITER,
        wrong: "The head counts the records: at most 32 users, 16 roles, 32 kinds, 64 channels, \
            32 sessions and 1,024 nodes. One of the counts is higher; or two files to be merged \
            have more together.",
        mend: "Correct the count, or split the routines between two files. `pilzdamo show` marks \
            the count. Two files with too many records together stay two.",
    },
    Refusal {
        place: NOTHING,
        who: WRITER,
        wrong: "The sections (users, roles, in versions 2 and 3 the roles' juniors, kinds, \
            channels, sessions, nodes) follow the head back to back, and the head has the word at which \
            each begins. One of these offsets isn't the one that follows from the counts.",
        mend: "Correct the offset, or the count before it. `pilzdamo show` names the offset that \
            is due.",
    },
    Refusal {
        place: NOTHING,
        who: WRITER,
        wrong: "The file is longer or shorter than its head and the records that it counts.",
        mend: "Correct the count that is wrong, or remove what follows the last node. A \
            file that is too short may have been cut off on its way.",
    },
    Refusal {
        place: WORD,
        who: KEEPER,
        wrong:
            "A user's mask has a role, a role's mask a kind, a kind's word a kind, or a channel \
            an owner or a kind, that is above the count. A channel's owner and kind may not be 0 \
            either.",
        mend: "Correct the record, or add the one that it names. `pilzdamo show` marks the record.",
    },
    Refusal {
        place: SESSION,
        who: AUTHOR,
        wrong: "The session names user 0 or a user above the count, or its starting mask has a \
            role that isn't assigned to its user.",
        mend: "Correct the session's user or mask; or the schema's keeper assigns the role to the \
            user.",
    },
    Refusal {
        place: "nodes, from 1; one more than there are if a tree runs past the last",
        who: AUTHOR,
        wrong: "Nodes stand in preorder: the first child is the next node, a fork's second child \
            follows the first child's whole tree, each session's root follows the tree before \
            it, and no node is left over. Tags are 0 to 8, fields that a tag doesn't use are 0, \
            and a path binds at most 8 variables. One of these doesn't hold at this node.",
        mend: "Correct the node, or the root or second child that should name it. `pilzdamo show` \
            marks it, and names the root or second child that is due.",
    },
    Refusal {
        place: NODE,
        who: AUTHOR,
        wrong: "Operands are users (1 to 32), channels (257 to 320) and variables (512 to 519). \
            One of this node's is none of these, or above the count, or a variable that no node \
            above it binds; or its role or kind is 0 or above the count.",
        mend: "Correct the operand, or add what it names. A node can't use the variable that it \
            binds itself.",
    },
    Refusal {
        place: NODE,
        who: AUTHOR,
        wrong: "A send needs a channel, and a value that this channel's kind carries. A receive \
            needs a channel that the session's user owns, or a variable bound by new. A compare \
            needs two plain values or two channels of one kind.",
        mend: "Correct the operands, or the kind of the channel. A channel that was received can \
            be sent on, but not received on.",
    },
    Refusal {
        place: NODE_OR_CHOICE,
        who: AUTHOR,
        wrong:
            "An on step may only put on a role that the user's record has; the juniors of such a \
            role don't count.",
        mend: "Put on another role; or the schema's keeper assigns this one to the user. The runs \
            of a placed file never come to this.",
    },
    Refusal {
        place: NODE_OR_CHOICE,
        who: AUTHOR,
        wrong: "An off step may only put off a role that is on. A role is on once: on 1, on 1, \
            off 1 leaves it off.",
        mend: "Remove the off step, or put the role on before it. `pilzdamo show` prints the \
            roles held at each node. The runs of a placed file never come to this.",
    },
    Refusal {
        place: NODE_OR_CHOICE,
        who: AUTHOR,
        wrong:
            "A send or receive needs one role that is on, and that may send, or receive, on the \
            kind of the channel, by its own record or by those of its juniors. The roles of the \
            session's own user count, never those of the channel's owner.",
        mend:
            "If the routine has no on and off yet, place it: `pilzdamo place` adds them. Otherwise put on a role that permits the step. The runs of a placed file \
            never come to this.",
    },
    Refusal {
        place: "nodes, from 1: the on or off; or nothing, and is 0, for a starting role",
        who: AUTHOR,
        wrong: "Placing adds every on and off itself. This file or text has some already, \
            or a session that starts with a role (`as` in a text, a starting mask in bytes).",
        mend:
            "`pilzdamo strip` removes on and off. Starting roles stay: remove `as` and the roles \
            after it from the session's line, or set the starting mask of bytes to 0. A file \
            that is placed already needs no placing; `pilzdamo check` judges it.",
    },
    Refusal {
        place: NODE,
        who: AUTHOR,
        wrong: "Not one role of the session's user may send, or receive, on the kind of this \
            channel, by its own record or by those of its juniors, so no placement exists.",
        mend:
            "Let another user's session make the step; or the schema's keeper grants the kind to \
            one of the user's roles, makes a role that has it the junior of one of them (in \
            versions 2 and 3), or assigns the user a role that has it.",
    },
    Refusal {
        place: NOTHING,
        who: AUTHOR,
        wrong:
            "With the on and off nodes that placing adds, the file is longer than a file may \
            be.",
        mend: "Split the sessions between two files, shorten the routines, or have the schema's \
            keeper grant the steps that follow each other to one role.",
    },
    Refusal {
        place: NOTHING,
        who: CALLER,
        wrong: "A choice is two numbers, thread and partner, and the list has half a choice too \
            many; or it is longer than a list may be, which before a round is 64 choices less. \
            Or a table of seats doesn't have one number for each role, or has one above 32. (A program that calls the engine itself gets this number for an output that is too \
            small as well.)",
        mend: "Give each choice its partner, 0 where the thread steps alone, and each role its \
            seats, 0 where it has no limit.",
    },
    Refusal {
        place: CHOICE,
        who: CALLER,
        wrong: "Threads are numbered in the order of the list, and when one ends those after it \
            move down by one. A send needs a partner that stands at a receive; the sender is \
            named first. Every other step has the partner 0.",
        mend: "Look at the state that the run printed: it has every thread and its next step. Correct the choice.",
    },
    Refusal {
        place: CHOICE,
        who: CALLER,
        wrong:
            "A compare goes on only if its two values are equal. A send and a receive meet only \
            on the same channel.",
        mend: "Choose another thread or partner. A compare whose values differ stays where it is \
            for good.",
    },
    Refusal {
        place: CHOICE,
        who: CALLER,
        wrong: "A run has at most 64 threads at a time, and makes at most 64 channels in all.",
        mend: "Let threads come to their end before others fork or repeat. Made channels are not \
            given back.",
    },
    Refusal {
        place: JUNIORS,
        who: KEEPER,
        wrong:
            "In versions 2 and 3 a role has a word of juniors: the roles whose grants it has as well as \
            its own. A junior must have a lower number than its senior. This word has the role \
            itself, a higher one, or one above the count. It is judged after every 6.",
        mend:
            "Take the junior out, or number the roles anew, juniors first. `pilzdamo show` marks \
            the role.",
    },
    Refusal {
        place: NOTHING,
        who: CALLER,
        wrong: "Minutes are counted from Monday 00:00, 0 to 10,079. A table of hours has three \
            words a row, and at most 64 rows. One of these doesn't hold. (A line of text with \
            several days has a row for each, and two where it goes over midnight.)",
        mend: "Write fewer lines or days: a role without rows is always open, and a stretch that \
            lies in another can go.",
    },
    Refusal {
        place: ROW,
        who: CALLER,
        wrong:
            "The row's role is 0 or above the file's count, its first minute isn't below its end \
            minute, or its end minute is above 10,080. It is judged after 8 and before 9.",
        mend:
            "Correct the row's role. If the table was written for another file, take that file's \
            own.",
    },
    Refusal {
        place: NODE,
        who: AUTHOR,
        wrong:
            "The role has rows in the table of hours, and none of them has this minute in it. It \
            can't be put on then, though it is assigned, and also where it is on already. A role \
            with which a session starts, and the juniors of an open role, go on permitting.",
        mend:
            "Place the routine for this minute (`pilzdamo place` with the same --at and hours), put on \
            a role that is open, or change the hours.",
    },
    Refusal {
        place: NOTHING,
        who: KEEPER,
        wrong:
            "Two files are made one only if they have the same roles and the same kinds: as many \
            of each, with the same records in the same order. Two texts go by name, in any \
            order: each kind carries the same in both, and each role permits the same. It is \
            judged after everything that is wrong with either file alone.",
        mend: "Agree on one table of roles and one of kinds, and write both files with them. \
            `pilzdamo merge` names the first record that differs, and of two texts the lines.",
    },
    Refusal {
        place: "sessions, from 1, where the starting masks find no seat; choices, from 1, in a \
            sentence about a choice",
        who: CALLER,
        wrong:
            "A role has a number of seats, and a session has one while any of its threads has the \
            role on. With the starting masks of the sessions taken in order, this session is one \
            too many in a role. In a run 26 stops nothing: an on that gets no seat waits, its \
            session is queued, and the choice counts as done.",
        mend:
            "Give the role more seats, or let fewer sessions start with it. In a run make the \
            choice again once a seat is free and the session is the first in line: `pilzdamo \
            seats` says who has a seat and who waits.",
    },
    Refusal {
        place: NOTICE,
        who: SENDER,
        wrong:
            "A notice is a word with its first day, a word with its file's length in bytes, and \
            the file. This one has under 4 bytes, another number of bytes after these words than \
            the second of them says, or a file that is refused with 1 to 10 or 21. Both notices \
            are judged before the day.",
        mend:
            "Fetch the notice again: most often it was cut off on its way. If its file is refused, \
            mend that, and make the notice anew (`pilzdamo notice`).",
    },
    Refusal {
        place: NOTHING,
        who: CALLER,
        wrong: "Both notices are sound, and the first day of each is after the day asked for.",
        mend: "Ask with the notice that was in force before them, or for a later day.",
    },
];
