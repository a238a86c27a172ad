//! Calls in which chosen tests fail, each in one of several ways, and the answer that the order of the tests demands.

use crate::call::{Answer, Call, Kind};
use crate::list::List;
use crate::random::Random;
use reference::tree::{layout, paths, BlockIndex, Node};

mod fail;
mod nonces;

/// What a call tests, in the order in which all calls do.
#[derive(Clone, Copy, Debug, PartialEq, Eq, PartialOrd, Ord)]
pub enum Test {
    /// The lengths of what only C has in bytes come before the rest, and each answers 5.
    AnchorLength,
    PlanLength,
    MessagesLength,
    TagLength,
    RaisedLength,
    Depth,
    RootNonce,
    CardLength,
    /// The journal's length, and that the ranges of one to be applied are those of a write: each answers 10.
    JournalLength,
    JournalRanges,
    BlockIndex,
    BlockLength,
    RangesLength,
    NoncesLeft,
    Tags,
    /// A put's plan has a block of the card, the node is one of its nodes, and its place is not filled: each answers 9.
    PlanIndex,
    PlanNode,
    PlanPlace,
}

impl Test {
    /// The number of the refusal.
    fn number(self) -> u64 {
        match self {
            Test::AnchorLength | Test::PlanLength | Test::MessagesLength => 5,
            Test::TagLength | Test::RaisedLength => 5,
            Test::Depth => 1,
            Test::RootNonce => 2,
            Test::CardLength => 3,
            Test::JournalLength | Test::JournalRanges => 10,
            Test::BlockIndex => 4,
            Test::BlockLength => 5,
            Test::RangesLength => 6,
            Test::NoncesLeft => 7,
            Test::Tags => 8,
            Test::PlanIndex | Test::PlanNode | Test::PlanPlace => 9,
        }
    }

    /// Whether it is one of the lengths that come before the rest.
    pub fn comes_first(self) -> bool {
        self < Test::Depth
    }
}

/// In how many ways a test can be made to fail.
pub const WAYS: usize = 6;

/// A test that is to fail, and the way.
pub type Failing = (Test, usize);

/// The tests of a call, in their order.
pub fn tests_of(kind: Kind) -> Vec<Test> {
    use Test::*;
    let lengths: &[Test] = match kind {
        Kind::Plan => &[AnchorLength, PlanLength, MessagesLength],
        Kind::Put => &[AnchorLength, PlanLength, TagLength],
        Kind::Journalled => &[AnchorLength, RaisedLength],
        _ => &[AnchorLength],
    };
    let first: &[Test] = match kind {
        Kind::Format => &[Depth, CardLength],
        Kind::Journalled | Kind::Recover => &[Depth, RootNonce, CardLength, JournalLength],
        _ => &[Depth, RootNonce, CardLength],
    };
    let own: &[Test] = match kind {
        Kind::Format => &[],
        Kind::Read => &[BlockIndex, BlockLength, Tags],
        Kind::Write | Kind::Plan | Kind::Journalled => {
            &[BlockIndex, BlockLength, RangesLength, NoncesLeft, Tags]
        }
        Kind::Check => &[Tags],
        Kind::Wipe => &[NoncesLeft],
        Kind::Put => &[PlanIndex, PlanNode, PlanPlace],
        Kind::Recover => &[JournalRanges],
    };
    [lengths, first, own].concat()
}

/// Whether these tests can fail together: every nonce is a multiple of 1, and none is above the last one, so that at depth 1 a
/// reserved nonce after which no write fits is right.
pub fn possible(depth: u64, failing: &[Failing]) -> bool {
    let fails = |test| failing.iter().any(|one| one.0 == test);
    depth > 1 || !(fails(Test::RootNonce) && fails(Test::NoncesLeft))
}

/// A call in which exactly these tests fail, and its answer: the first of them. The depth is tested before all that it decides,
/// so that no other test is looked at with a depth that fails.
pub fn call(list: &List, kind: Kind, failing: &[Failing], random: &mut Random) -> (Call, Answer) {
    let way = |test| failing.iter().find(|one| one.0 == test).map(|one| one.1);
    let index = random.below(list.blocks() as usize) as u64;
    let mut call = list.call(kind, index, random);
    let (multiple, room) = (way(Test::RootNonce), way(Test::NoncesLeft));
    nonces::set(&mut call, multiple, room, random);
    let mut node = 0;
    if let Some(way) = way(Test::Tags) {
        node = fail::spoil_card(&mut call, way, random);
    }
    if kind == Kind::Recover {
        fail::set_journal(&mut call, way(Test::JournalRanges), random);
    }
    for test in fail::ALTERED {
        if let Some(way) = way(test) {
            fail::fail(&mut call, test, way);
        }
    }
    let answer = match failing.iter().map(|one| one.0).min() {
        None => Answer::ACCEPTED,
        Some(Test::Tags) => Answer::wrong(node),
        Some(first) => Answer::plain(first.number()),
    };
    (call, answer)
}

/// The nodes that the call checks, in its order.
pub fn checked(kind: Kind, depth: u64, index: u64) -> Vec<Node> {
    match kind {
        Kind::Format | Kind::Wipe | Kind::Put | Kind::Recover => Vec::new(),
        Kind::Read => paths::read_checks(depth, BlockIndex(index)),
        Kind::Write | Kind::Plan | Kind::Journalled => {
            paths::write_checks(depth, BlockIndex(index))
        }
        Kind::Check => layout::nodes(depth).collect(),
    }
}
