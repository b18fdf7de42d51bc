//! Why what is lent for a choice is refused.

/// One way for a lent list of threads, or for the words beside it, to be
/// refused: 18 at place 0.
#[derive(Clone, Copy, Debug, PartialEq, Eq, PartialOrd, Ord)]
pub enum Unfit {
    /// Another number of records.
    Records,
    /// Another number of words beside them.
    Beside,
    /// More threads than there can be.
    Threads,
    /// More made channels than there can be.
    Made,
    OwnerZero,
    OwnerAbove,
    KindZero,
    KindAbove,
    NodeZero,
    NodeAbove,
    /// A user that is not the session's.
    User,
    /// A role that is not the user's.
    Mask,
    /// A bound variable that is neither a user nor a channel.
    Nothing,
    /// A user where the variable has a kind.
    PlainForChannel,
    /// A channel where the variable is plain.
    ChannelForPlain,
    /// A channel of another kind than the variable's.
    OtherKind,
    /// A variable with a value before it is bound.
    Unbound,
    /// Another total of a kind than the threads give.
    Total,
    /// A total that isn't 0, of a kind above the count.
    TotalAbove,
}

impl Unfit {
    /// All of them, in the order in which they are judged.
    pub const ALL: [Unfit; 19] = {
        use Unfit::*;
        [
            Records,
            Beside,
            Threads,
            Made,
            OwnerZero,
            OwnerAbove,
            KindZero,
            KindAbove,
            NodeZero,
            NodeAbove,
            User,
            Mask,
            Nothing,
            PlainForChannel,
            ChannelForPlain,
            OtherKind,
            Unbound,
            Total,
            TotalAbove,
        ]
    };
}
