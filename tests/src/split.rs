//! A write in two parts: a plan that was accepted, and the puts that it waits for.

use crate::call::{Answer, Call, Kind};
use crate::{cards, plans, proved};

/// What the steps so far have left, and what is still to come.
#[derive(Clone)]
pub struct Split {
    /// The plan as it was called.
    pub asked: Call,
    /// A put without node and tag: anchor, plan and card are those that the step before left, the ranges those of the plan.
    pub left: Call,
    /// The nodes that wait, each with the tag of the message that the plan gave for it.
    pub waiting: Vec<(u64, [u8; 16])>,
    /// Whether each put had the card as the step before left it.
    pub untouched: bool,
}

impl Split {
    /// After an accepted plan: as it was called, and as it was left.
    pub fn new(asked: Call, planned: Call) -> Self {
        let anchor = cards::parsed(&asked.anchor);
        let tag = |place| {
            let message = &planned.messages[plans::message(anchor.depth, place)];
            let node = plans::node(anchor.depth, asked.index, place);
            (node, proved::tag(&anchor.key, message))
        };
        let waiting = (0..2 * anchor.depth).map(tag).collect();
        let kind = Kind::Put;
        Split {
            asked,
            left: Call { kind, ..planned },
            waiting,
            untouched: true,
        }
    }

    /// The put of one of the tags that wait, on the card as it was left.
    pub fn put(&self, at: usize) -> Call {
        let (node, tag) = self.waiting[at];
        Call {
            node,
            tag: tag.to_vec(),
            ..self.left.clone()
        }
    }

    /// Goes on after that put, which was accepted. It filled the node's place and no other, and moved the anchor if no tag waits
    /// any more.
    pub fn go_on(&mut self, at: usize, before: &Call, after: Call) {
        let (node, _) = self.waiting.remove(at);
        let Split { asked, left, .. } = &*self;
        let mut anchor = cards::raised(&asked.anchor);
        let (depth, root) = (cards::depth(&anchor), cards::reserved(&anchor));
        let place = plans::nodes(depth, asked.index)
            .iter()
            .position(|&one| one == node);
        let filled = plans::filled(&left.plan) | 1 << place.expect("a node of the plan");
        let due = plans::plan(asked.index, root, filled);
        assert_eq!(after.plan, due, "{}", before.short());
        if self.waiting.is_empty() {
            cards::set_root(&mut anchor, root);
        }
        assert_eq!(after.anchor, anchor, "{}", before.short());
        self.untouched &= before.card == left.card;
        self.left = after;
    }

    /// Puts one of the tags that wait on the card as it was left.
    #[track_caller]
    pub fn put_next(&mut self, at: usize) {
        let before = self.put(at);
        let mut after = before.clone();
        assert_eq!(after.both(), Answer::ACCEPTED, "{}", before.short());
        self.go_on(at, &before, after);
    }

    /// Once no tag waits: card, anchor and ranges are those that the write in one leaves.
    #[track_caller]
    pub fn expect_write(&self) {
        assert!(self.waiting.is_empty() && self.untouched);
        let mut write = self.asked.clone();
        write.kind = Kind::Write;
        assert_eq!(write.both(), Answer::ACCEPTED, "{}", write.short());
        let what = format!("split {}", self.asked.short());
        assert_eq!(self.left.anchor, write.anchor, "{what}");
        assert_eq!(self.left.ranges, write.ranges, "{what}");
        assert!(self.left.card == write.card, "the card of a {what}");
    }
}
