//! "Words": nodes, block indices, nonces, the anchor and the plan; and what a call answers and carries.

/// A node's number: 1 for the root, and below u there are 2u and 2u + 1.
#[derive(Clone, Copy, Debug, PartialEq, Eq, PartialOrd, Ord)]
pub struct Node(pub u64);

/// The number of a block, from 0.
#[derive(Clone, Copy, Debug, PartialEq, Eq)]
pub struct BlockIndex(pub u64);

/// What document 01 calls a serial: the number that the root and each inner node have.
#[derive(Clone, Copy, Debug, PartialEq, Eq)]
pub struct Nonce(pub u64);

impl Node {
    /// The root, which has no entry on the card.
    pub const ROOT: Node = Node(1);

    /// The node above.
    pub fn parent(self) -> Node {
        Node(self.0 / 2)
    }

    /// The other child of the parent.
    pub fn sibling(self) -> Node {
        if self.side() == 0 {
            Node(self.0 + 1)
        } else {
            Node(self.0 - 1)
        }
    }

    /// 0 for a left child, 1 for a right one.
    pub fn side(self) -> u8 {
        (self.0 % 2) as u8
    }
}

/// What the chip keeps: the key, the depth n, the root's nonce T, and the reserved nonce H, the last that a call was given.
#[derive(Clone, Copy, Debug, PartialEq, Eq)]
pub struct Anchor {
    pub key: [u8; 16],
    pub depth: u64,
    pub root: u64,
    pub reserved: u64,
}

impl Anchor {
    /// H raised by n, T as it was: what an accepted call begins with.
    pub fn raised(self) -> Self {
        Anchor {
            reserved: self.reserved + self.depth,
            ..self
        }
    }

    /// T becomes H: what an accepted call ends with.
    pub fn settled(self) -> Self {
        Anchor {
            root: self.reserved,
            ..self
        }
    }
}

/// What a plan and its puts keep: the block's number, the root nonce that the last put brings, and which places are filled. Bit
/// k is the k-th of the plan's nodes in rising number; the bits above them mean nothing.
#[derive(Clone, Copy, Debug, PartialEq, Eq)]
pub struct Plan {
    pub index: u64,
    pub root: u64,
    pub filled: u64,
}

/// Why a call is refused.
#[derive(Clone, Copy, Debug, PartialEq, Eq)]
pub enum Refusal {
    Depth,
    RootNonce,
    CardLength,
    BlockIndex,
    BlockLength,
    RangesLength,
    NoncesUsedUp,
    Wrong(Node),
    NotAwaited,
    Journal,
}

/// What a call answers: the anchor that holds from now on, or the refusal.
#[derive(Clone, Copy, Debug, PartialEq, Eq)]
pub enum Answer {
    Accepted(Anchor),
    Refused(Refusal),
}

impl Answer {
    /// The number of the refusal; 0 when accepted.
    pub fn number(&self) -> u64 {
        match self {
            Answer::Accepted(_) => 0,
            Answer::Refused(Refusal::Depth) => 1,
            Answer::Refused(Refusal::RootNonce) => 2,
            Answer::Refused(Refusal::CardLength) => 3,
            Answer::Refused(Refusal::BlockIndex) => 4,
            Answer::Refused(Refusal::BlockLength) => 5,
            Answer::Refused(Refusal::RangesLength) => 6,
            Answer::Refused(Refusal::NoncesUsedUp) => 7,
            Answer::Refused(Refusal::Wrong(_)) => 8,
            Answer::Refused(Refusal::NotAwaited) => 9,
            Answer::Refused(Refusal::Journal) => 10,
        }
    }

    /// The node that refusal 8 names; 0 where none is named.
    pub fn node(&self) -> u64 {
        match self {
            Answer::Refused(Refusal::Wrong(node)) => node.0,
            _ => 0,
        }
    }
}

/// What read, write (journalled or not), plan, check and wipe give: the answer, and how many blocks AES encrypted for it.
#[derive(Clone, Copy, Debug, PartialEq, Eq)]
pub struct Counted {
    pub answer: Answer,
    pub count: u64,
}

/// What an accepted plan hands out: the plan, and in rising number each of its nodes with the message that its tag is made of.
#[derive(Clone, Debug, PartialEq, Eq)]
pub struct Planned {
    pub plan: Plan,
    pub messages: Vec<(Node, Vec<u8>)>,
}

impl From<Result<Anchor, Refusal>> for Answer {
    fn from(result: Result<Anchor, Refusal>) -> Self {
        match result {
            Ok(anchor) => Answer::Accepted(anchor),
            Err(refusal) => Answer::Refused(refusal),
        }
    }
}
