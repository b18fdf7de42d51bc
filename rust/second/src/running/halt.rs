//! Why a run is halted at a choice.

use super::state::{COMPARE, END, FORK, NEW, ON, REPEAT};

const OFF: u16 = 8;

/// The tags of the steps that a thread takes alone.
const LONE: [u16; 7] = [END, FORK, REPEAT, NEW, COMPARE, ON, OFF];

/// One way for a choice to be refused.
#[derive(Clone, Copy, Debug, PartialEq, Eq, PartialOrd, Ord)]
pub enum Halt {
    OnNotAssigned,
    OffNotActive,
    SenderNotAllowed,
    /// The receiver alone is not allowed to.
    ReceiverNotAllowed,
    ThreadZero,
    ThreadAbove,
    /// The thread stands at no node of the file, as one of a lent row may.
    Nowhere,
    PartnerOfLone {
        tag: u16,
    },
    SendAlone,
    SendPartnerAbove,
    PartnerNotReceiving {
        itself: bool,
    },
    ReceiveFirst,
    CompareUnequal,
    ChannelsDiffer,
    ThreadsFullAtFork,
    ThreadsFullAtRepeat,
    ChannelsFull,
}

impl Halt {
    /// The refusal's number.
    pub fn number(self) -> u16 {
        use Halt::*;
        match self {
            OnNotAssigned => 11,
            OffNotActive => 12,
            SenderNotAllowed | ReceiverNotAllowed => 13,
            ThreadZero
            | ThreadAbove
            | Nowhere
            | PartnerOfLone { .. }
            | SendAlone
            | SendPartnerAbove
            | PartnerNotReceiving { .. }
            | ReceiveFirst => 18,
            CompareUnequal | ChannelsDiffer => 19,
            ThreadsFullAtFork | ThreadsFullAtRepeat | ChannelsFull => 20,
        }
    }

    /// All that a run can come to, in the order of the numbers.
    pub fn all() -> Vec<Halt> {
        use Halt::*;
        let mut all = vec![
            OnNotAssigned,
            OffNotActive,
            SenderNotAllowed,
            ReceiverNotAllowed,
            ThreadZero,
            ThreadAbove,
        ];
        all.extend(LONE.map(|tag| PartnerOfLone { tag }));
        all.extend([SendAlone, SendPartnerAbove]);
        all.extend([false, true].map(|itself| PartnerNotReceiving { itself }));
        all.extend([
            ReceiveFirst,
            CompareUnequal,
            ChannelsDiffer,
            ThreadsFullAtFork,
            ThreadsFullAtRepeat,
            ChannelsFull,
        ]);
        all
    }
}
