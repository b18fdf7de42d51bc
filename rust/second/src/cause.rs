//! Why a file or a call is refused. The number follows from the cause.

use crate::file::{Section, Version};
use crate::running::{Halt, Unfit};
use crate::Verdict;

/// One way to be refused. `second` says that the node stands in a fork's
/// second branch.
#[derive(Clone, Copy, Debug, PartialEq, Eq, PartialOrd, Ord)]
pub enum Cause {
    /// A minute that no week has.
    MinuteAbove,
    /// A table of hours that ends within a row.
    PartOfRow,
    TooManyRows,
    Short,
    Odd,
    /// A file of version 2 or 3 with room for a version 1 header alone.
    ShortForSecond,
    Version,
    Count(Section),
    Offset(Section),
    Shorter,
    Longer,
    UserRoles,
    RoleSends,
    RoleReceives,
    KindCarries,
    OwnerZero,
    OwnerAbove,
    ChannelKindZero,
    ChannelKindAbove,
    JuniorItself,
    /// A junior of a higher number than its senior's.
    JuniorHigher,
    /// A junior out of count.
    JuniorAbove,
    SessionUserZero,
    SessionUserAbove,
    StartAbove,
    StartNotAssigned,
    Root,
    NoNodesLeft,
    Tag,
    Unused {
        tag: u16,
        field: u16,
    },
    SecondChild,
    PastLast,
    LeftOver,
    NinthVariable,
    RowRoleZero,
    RowRoleAbove,
    RowFirstNotBelow,
    RowEndAbove,
    UserOperandAbove,
    ChannelOperandAbove,
    Unbound,
    MadeChannel,
    NoName,
    NewKindZero,
    NewKindAbove,
    OnRoleZero,
    OnRoleAbove,
    OffRoleZero,
    OffRoleAbove,
    SendOnPlain,
    SendWrongKind,
    ReceiveOnUser,
    ReceiveOnPlainVariable,
    ReceiveOnOthers,
    ReceiveOnReceived,
    ComparePlain,
    CompareKinds,
    OnNotAssigned {
        second: bool,
    },
    /// On of a role that is assigned and not open.
    OnClosed {
        second: bool,
    },
    OffNotActive {
        second: bool,
    },
    SendNotAllowed {
        second: bool,
    },
    ReceiveNotAllowed {
        second: bool,
    },
    StartPresent,
    OnPresent,
    OffPresent,
    NoRoleSends {
        second: bool,
    },
    NoRoleReceives {
        second: bool,
    },
    ResultTooLarge,
    OutputTooShort,
    OddChoices,
    TooManyChoices,
    Lent(Unfit),
    Choice(Halt),
    /// A file of this version where files of another alone are taken.
    OtherVersion(Version),
    /// Two files with another number of roles, or of kinds.
    RoleCounts,
    KindCounts,
    /// As many of them, but not the same.
    RolesDiffer,
    KindsDiffer,
    /// Two files with too many records of a section together.
    Sum(Section),
    /// A table of seats with fewer words than there are roles, or with more.
    SeatsShort,
    SeatsLong,
    /// A role with over 32 seats.
    SeatsAbove,
    /// A starting mask that overfills a role.
    StartOverfills,
    /// A notice that ends within its two words.
    NoticeShort,
    /// A notice whose length word isn't the number of bytes after it.
    NoticeLength,
    /// A notice whose file is refused with this number.
    NoticeFile(u16),
    /// Neither notice has begun.
    NotBegun,
}

/// The fields that a tag leaves unused, tag by tag.
const UNUSED: [(u16, u16); 9] = [
    (0, 1),
    (0, 2),
    (1, 2),
    (2, 1),
    (2, 2),
    (3, 2),
    (5, 2),
    (7, 2),
    (8, 2),
];

/// Whether a refusal of this number is one of those that the paper calls 1 to 8.
/// 21 is among them.
pub fn is_of_reading(number: u16) -> bool {
    matches!(number, 1..=8 | 21)
}

/// Whether a refusal of this number is one of those that the paper calls 1 to
/// 10. 21 is among them.
pub fn is_of_file(number: u16) -> bool {
    is_of_reading(number) || matches!(number, 9 | 10)
}

impl Cause {
    /// The refusal's number.
    pub fn number(self) -> u16 {
        use Cause::*;
        match self {
            Short | Odd | ShortForSecond => 1,
            Version | OtherVersion(_) => 2,
            Count(_) | Sum(_) => 3,
            Offset(_) => 4,
            Shorter | Longer => 5,
            UserRoles | RoleSends | RoleReceives | KindCarries | OwnerZero | OwnerAbove
            | ChannelKindZero | ChannelKindAbove => 6,
            JuniorItself | JuniorHigher | JuniorAbove => 21,
            SessionUserZero | SessionUserAbove | StartAbove | StartNotAssigned => 7,
            Root
            | NoNodesLeft
            | Tag
            | Unused { .. }
            | SecondChild
            | PastLast
            | LeftOver
            | NinthVariable => 8,
            UserOperandAbove | ChannelOperandAbove | Unbound | MadeChannel | NoName
            | NewKindZero | NewKindAbove | OnRoleZero | OnRoleAbove | OffRoleZero
            | OffRoleAbove => 9,
            SendOnPlain
            | SendWrongKind
            | ReceiveOnUser
            | ReceiveOnPlainVariable
            | ReceiveOnOthers
            | ReceiveOnReceived
            | ComparePlain
            | CompareKinds => 10,
            MinuteAbove | PartOfRow | TooManyRows => 22,
            RowRoleZero | RowRoleAbove | RowFirstNotBelow | RowEndAbove => 23,
            OnNotAssigned { .. } => 11,
            OnClosed { .. } => 24,
            OffNotActive { .. } => 12,
            SendNotAllowed { .. } | ReceiveNotAllowed { .. } => 13,
            StartPresent | OnPresent | OffPresent => 14,
            NoRoleSends { .. } | NoRoleReceives { .. } => 15,
            ResultTooLarge => 16,
            OutputTooShort | OddChoices | TooManyChoices => 17,
            SeatsShort | SeatsLong | SeatsAbove => 17,
            StartOverfills => 26,
            Lent(_) => 18,
            Choice(halt) => halt.number(),
            RoleCounts | KindCounts | RolesDiffer | KindsDiffer => 25,
            NoticeShort | NoticeLength | NoticeFile(_) => 27,
            NotBegun => 28,
        }
    }

    /// Whether a file whose first word names this version can have it; a first
    /// word that names none counts as 1.
    pub fn is_of(self, version: Version) -> bool {
        let of_second = [
            Cause::ShortForSecond,
            Cause::Offset(Section::Juniors),
            Cause::JuniorItself,
            Cause::JuniorHigher,
            Cause::JuniorAbove,
        ];
        match version {
            Version::One => !of_second.contains(&self),
            Version::Two | Version::Three => self != Cause::Version,
        }
    }

    /// The causes that placing alone has, in the order of the numbers.
    pub fn of_placing() -> Vec<Cause> {
        use Cause::*;
        let mut all = vec![StartPresent, OnPresent, OffPresent];
        for second in [false, true] {
            all.extend([NoRoleSends { second }, NoRoleReceives { second }]);
        }
        all.extend([ResultTooLarge, OutputTooShort]);
        all.sort();
        all
    }

    /// The causes that a run has besides those of the file: its caller's, and
    /// then those of a choice, in the order of the numbers.
    pub fn of_running() -> Vec<Cause> {
        use Cause::*;
        let mut all = vec![OutputTooShort, OddChoices, TooManyChoices];
        all.extend(Halt::all().into_iter().map(Choice));
        all
    }

    /// The causes that a table of seats brings to a run.
    pub fn of_seats() -> Vec<Cause> {
        use Cause::*;
        vec![SeatsShort, SeatsLong, SeatsAbove, StartOverfills]
    }

    /// The causes that a start in a lent list has besides those of the file.
    pub fn of_starting() -> Vec<Cause> {
        [Unfit::Records, Unfit::Beside].map(Cause::Lent).to_vec()
    }

    /// The causes that a choice in a lent list has besides those of the file:
    /// the list's, and then those of the choice itself.
    pub fn of_choosing() -> Vec<Cause> {
        let lent = Unfit::ALL.map(Cause::Lent).into_iter();
        lent.chain(Halt::all().into_iter().map(Cause::Choice))
            .collect()
    }

    /// The causes that two files have together when they are merged.
    pub fn of_both() -> Vec<Cause> {
        use Cause::*;
        let mut all = vec![RoleCounts, KindCounts, RolesDiffer, KindsDiffer];
        let filled = [
            Section::Users,
            Section::Channels,
            Section::Sessions,
            Section::Nodes,
        ];
        all.extend(filled.map(Sum));
        all
    }

    /// The causes for which merging refuses one of two files.
    pub fn to_be_merged() -> Vec<Cause> {
        let mut all = Cause::all();
        all.retain(|cause| is_of_file(cause.number()));
        all.retain(|cause| cause.is_of(Version::One));
        all.push(Cause::ShortForSecond);
        all.extend([Version::Two, Version::Three].map(Cause::OtherVersion));
        all
    }

    /// The causes for which a notice is unsound, in the order in which they are judged.
    pub fn of_notices() -> Vec<Cause> {
        let mut all = vec![Cause::NoticeShort, Cause::NoticeLength];
        let numbers = (1..=28).filter(|&number| is_of_file(number));
        all.extend(numbers.map(Cause::NoticeFile));
        all
    }

    /// The causes that a table of hours and its minute bring to the check and to
    /// placing.
    pub fn of_hours() -> Vec<Cause> {
        use Cause::*;
        vec![
            MinuteAbove,
            PartOfRow,
            TooManyRows,
            RowRoleZero,
            RowRoleAbove,
            RowFirstNotBelow,
            RowEndAbove,
        ]
    }

    /// The causes that they bring to the check alone.
    pub fn of_closed() -> Vec<Cause> {
        [false, true]
            .map(|second| Cause::OnClosed { second })
            .to_vec()
    }

    /// Every cause of the check without hours, in the order in which refusals come.
    pub fn all() -> Vec<Cause> {
        use Cause::*;
        let mut all = vec![Short, Odd, ShortForSecond, Version];
        all.extend(Section::COUNTED.map(Count));
        all.extend(Section::ALL.map(Offset));
        all.extend([
            Shorter,
            Longer,
            UserRoles,
            RoleSends,
            RoleReceives,
            KindCarries,
            OwnerZero,
            OwnerAbove,
            ChannelKindZero,
            ChannelKindAbove,
            JuniorItself,
            JuniorHigher,
            JuniorAbove,
            SessionUserZero,
            SessionUserAbove,
            StartAbove,
            StartNotAssigned,
            Root,
            NoNodesLeft,
            Tag,
        ]);
        all.extend(UNUSED.map(|(tag, field)| Unused { tag, field }));
        all.extend([
            SecondChild,
            PastLast,
            LeftOver,
            NinthVariable,
            UserOperandAbove,
            ChannelOperandAbove,
            Unbound,
            MadeChannel,
            NoName,
            NewKindZero,
            NewKindAbove,
            OnRoleZero,
            OnRoleAbove,
            OffRoleZero,
            OffRoleAbove,
            SendOnPlain,
            SendWrongKind,
            ReceiveOnUser,
            ReceiveOnPlainVariable,
            ReceiveOnOthers,
            ReceiveOnReceived,
            ComparePlain,
            CompareKinds,
        ]);
        for second in [false, true] {
            all.extend([
                OnNotAssigned { second },
                OffNotActive { second },
                SendNotAllowed { second },
                ReceiveNotAllowed { second },
            ]);
        }
        all.sort();
        all
    }
}

/// A cause and where it stands.
#[derive(Clone, Copy, Debug, PartialEq, Eq)]
pub struct Refusal {
    pub cause: Cause,
    pub place: u16,
}

/// What is lent is refused at place 0.
impl From<Unfit> for Refusal {
    fn from(unfit: Unfit) -> Refusal {
        Refusal {
            cause: Cause::Lent(unfit),
            place: 0,
        }
    }
}

impl Refusal {
    pub fn verdict(self) -> Verdict {
        Verdict {
            number: self.cause.number(),
            place: self.place,
        }
    }
}
