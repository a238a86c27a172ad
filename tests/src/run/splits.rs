//! Split writes in random lists.

use super::Run;
use crate::call::{Answer, Kind};
use crate::split::Split;
use crate::{plans, spoil};

/// What became of the plans that were accepted: a write of the list, with the card untouched at each step or not; left unfinished, a
/// lost attempt; under another anchor, or on a card from which the list does not go on. And how many puts between were refused.
#[derive(Default, Debug)]
pub struct Splits {
    pub untouched: u64,
    pub touched: u64,
    pub unfinished: u64,
    pub dropped: u64,
    pub refused: u64,
}

impl Run {
    /// Puts the tags of a plan in a random order. In half of the cases somebody alters the card between the puts; in one of eight
    /// some are missing at the end, and the list goes on with the card of before and the raised anchor. It goes on from a card that
    /// was touched in one of three cases, and keeps a card of between two puts for later.
    pub(super) fn puts(&mut self, mut split: Split) {
        let tags = split.waiting.len();
        let hostile = self.random.below(2) == 0;
        let missing = match self.random.below(8) {
            0 => 1 + self.random.below(tags),
            _ => 0,
        };
        let seen = 1 + self.random.below(tags);
        let mut between = Vec::new();
        while split.waiting.len() > missing {
            if split.waiting.len() == seen {
                between.clone_from(&split.left.card);
            }
            self.put(&mut split, hostile);
        }
        if missing > 0 {
            self.splits.unfinished += 1;
            if self.list.has(&split.asked) {
                self.list.keep(split.left.card, &mut self.random);
                self.list.lose(split.left.anchor);
            }
            return;
        }
        if split.untouched {
            split.expect_write();
        }
        let untouched = split.untouched && split.asked.card == self.list.card;
        let goes_on = untouched || self.random.below(3) == 0;
        if !self.list.has(&split.asked) || !goes_on {
            self.splits.dropped += 1;
            return;
        }
        match untouched {
            true => self.splits.untouched += 1,
            false => self.splits.touched += 1,
        }
        self.list.keep(between, &mut self.random);
        self.finish(split);
    }

    /// One put of a plan, now and then after one that the plan does not wait for.
    fn put(&mut self, split: &mut Split, hostile: bool) {
        if self.random.below(3) == 0 {
            self.other_put(split);
        }
        let at = self.random.below(split.waiting.len());
        let mut call = split.put(at);
        if hostile && self.random.below(self.list.depth as usize) == 0 {
            spoil::card(&mut call, &self.list, &mut self.random);
        }
        let (after, answer) = self.make(&call);
        assert_eq!(answer, Answer::ACCEPTED, "{}", call.short());
        split.go_on(at, &call, after);
    }

    /// A put of any node of the plan, or with something altered. Refused, it has changed nothing; accepted, it is as if the list
    /// had ended with it.
    fn other_put(&mut self, split: &Split) {
        let (list, random) = (&self.list, &mut self.random);
        let mut call = split.put(random.below(split.waiting.len()));
        let nodes = plans::nodes(list.depth, split.asked.index);
        match random.below(3) {
            0 => call.node = nodes[random.below(nodes.len())],
            _ => spoil::any(&mut call, list, random),
        }
        let (_, answer) = self.make(&call);
        self.splits.refused += u64::from(!answer.accepted());
    }

    /// The list goes on with the split write as with a write: a check and a read of its block come next.
    fn finish(&mut self, split: Split) {
        let index = split.asked.index;
        self.list.accept_split(split, &mut self.random);
        for kind in [Kind::Check, Kind::Read] {
            let call = self.list.call(kind, index, &mut self.random);
            self.make(&call);
        }
    }
}
