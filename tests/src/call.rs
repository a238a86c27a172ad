//! One call with all that it is given, and its answer.

use reference::tree::layout::TAG_BYTES;
use reference::{host, tree};

mod compare;
mod make;

/// Which of the calls.
#[derive(Clone, Copy, Debug, PartialEq, Eq)]
pub enum Kind {
    Format,
    Read,
    Write,
    Check,
    Wipe,
    Plan,
    Put,
    Journalled,
    Recover,
}

impl Kind {
    pub const ALL: [Kind; 9] = [
        Kind::Format,
        Kind::Read,
        Kind::Write,
        Kind::Check,
        Kind::Wipe,
        Kind::Plan,
        Kind::Put,
        Kind::Journalled,
        Kind::Recover,
    ];

    /// Whether the call is a write, in one, split or journalled.
    pub fn writes(self) -> bool {
        matches!(self, Kind::Write | Kind::Plan | Kind::Journalled)
    }

    /// Whether the call alone, once accepted, moves the root nonce on.
    pub fn moves(self) -> bool {
        matches!(self, Kind::Write | Kind::Wipe | Kind::Journalled)
    }
}

/// A call and the bytes lent to it; any of them may have any length.
#[derive(Clone, Debug, PartialEq, Eq)]
pub struct Call {
    pub kind: Kind,
    pub anchor: Vec<u8>,
    pub card: Vec<u8>,
    pub index: u64,
    /// The buffer of a read, the new block of a write.
    pub block: Vec<u8>,
    pub ranges: Vec<u8>,
    /// What a plan fills, and a put goes on with.
    pub plan: Vec<u8>,
    /// The messages of a plan.
    pub messages: Vec<u8>,
    /// Where a put puts its tag.
    pub node: u64,
    pub tag: Vec<u8>,
    /// Where a journalled write leaves the anchor with H raised.
    pub raised: Vec<u8>,
    /// What a journalled write fills and a recovery applies.
    pub journal: Vec<u8>,
}

/// The answer in its two parts: 0 or the refusal's number, and the node that refusal 8 names.
#[derive(Clone, Copy, Debug, PartialEq, Eq)]
pub struct Answer {
    pub number: u64,
    pub node: u64,
}

impl Answer {
    pub const ACCEPTED: Answer = Answer::plain(0);

    /// An answer that names no node.
    pub const fn plain(number: u64) -> Self {
        Answer { number, node: 0 }
    }

    /// Refusal 8 of that node.
    pub const fn wrong(node: u64) -> Self {
        Answer { number: 8, node }
    }

    /// Takes the host's answer apart.
    pub fn of(word: u64) -> Self {
        Answer {
            number: word % 256,
            node: word / 256,
        }
    }

    /// Whether the call was accepted.
    pub fn accepted(self) -> bool {
        self == Answer::ACCEPTED
    }
}

impl From<tree::Answer> for Answer {
    fn from(answer: tree::Answer) -> Self {
        Answer {
            number: answer.number(),
            node: answer.node(),
        }
    }
}

impl Call {
    /// A format with this anchor and card, and nothing else lent; the rest is for the caller to set.
    pub fn on(anchor: Vec<u8>, card: Vec<u8>) -> Self {
        Call {
            kind: Kind::Format,
            anchor,
            card,
            index: 0,
            block: Vec::new(),
            ranges: Vec::new(),
            plan: Vec::new(),
            messages: Vec::new(),
            node: 0,
            tag: Vec::new(),
            raised: Vec::new(),
            journal: Vec::new(),
        }
    }

    /// Whether the buffers that only C has are of their lengths; another one is refused 5 before the rest.
    pub fn lengths_fit(&self) -> bool {
        let plan = self.plan.len() == host::PLAN_BYTES;
        self.anchor.len() == host::ANCHOR_BYTES
            && match self.kind {
                Kind::Plan => plan && self.messages.len() == host::MESSAGES_BYTES,
                Kind::Put => plan && self.tag.len() == TAG_BYTES,
                Kind::Journalled => self.raised.len() == host::ANCHOR_BYTES,
                _ => true,
            }
    }

    /// Whether the probe tells the call's count: that of a read, write, plan, check or wipe, on buffers of their lengths.
    pub fn carries(&self) -> bool {
        let none = [Kind::Format, Kind::Put, Kind::Journalled, Kind::Recover];
        !none.contains(&self.kind) && self.lengths_fit()
    }
}
