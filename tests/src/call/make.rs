//! Makes a call: in the archive, in the reference, and with its count through the probe too.

use super::{Answer, Call, Kind};
use crate::cards;
use crate::counted::{self, Made};
use crate::guarded::Guarded;
use bindings::pat;
use reference::{host, tree};

impl Call {
    /// Makes the call in the archive, on bytes between guards.
    pub fn archive(&mut self) -> Answer {
        let mut anchor = Guarded::holding(&self.anchor);
        let mut card = Guarded::holding(&self.card);
        let mut block = Guarded::holding(&self.block);
        let mut ranges = Guarded::holding(&self.ranges);
        let mut plan = Guarded::holding(&self.plan);
        let mut messages = Guarded::holding(&self.messages);
        let mut tag = Guarded::holding(&self.tag);
        let mut raised = Guarded::holding(&self.raised);
        let mut journal = Guarded::holding(&self.journal);
        let word = {
            let (anchor, card, index) = (anchor.part(), card.part(), self.index);
            let (block, ranges) = (block.part(), ranges.part());
            let (plan, messages) = (plan.part(), messages.part());
            let (raised, journal) = (raised.part(), journal.part());
            match self.kind {
                Kind::Format => pat::format(anchor, card),
                Kind::Read => pat::read(anchor, card, index, block),
                Kind::Write => pat::write(anchor, card, index, block, ranges),
                Kind::Check => pat::check(anchor, card),
                Kind::Wipe => pat::wipe(anchor, card),
                Kind::Plan => pat::plan(anchor, card, index, block, ranges, plan, messages),
                Kind::Put => pat::put_tag(anchor, plan, card, self.node, tag.part()),
                Kind::Journalled => {
                    pat::write_journalled(anchor, raised, card, index, block, ranges, journal)
                }
                Kind::Recover => pat::recover(anchor, card, journal),
            }
        };
        self.anchor = anchor.into_part("anchor");
        self.card = card.into_part("card");
        self.block = block.into_part("block");
        self.ranges = ranges.into_part("ranges");
        self.plan = plan.into_part("plan");
        self.messages = messages.into_part("messages");
        self.tag = tag.into_part("tag");
        self.raised = raised.into_part("raised");
        self.journal = journal.into_part("journal");
        Answer::of(word)
    }

    /// Makes the call in the reference.
    pub fn reference(&mut self) -> Answer {
        let (anchor, card) = (&mut self.anchor, &mut self.card);
        let (block, ranges) = (&mut self.block, &mut self.ranges);
        let (plan, messages) = (&mut self.plan, &mut self.messages);
        let (raised, journal) = (&mut self.raised, &mut self.journal);
        let index = self.index;
        Answer::of(match self.kind {
            Kind::Format => host::pat_format(anchor, card),
            Kind::Read => host::pat_read(anchor, card, index, block),
            Kind::Write => host::pat_write(anchor, card, index, block, ranges),
            Kind::Check => host::pat_check(anchor, card),
            Kind::Wipe => host::pat_wipe(anchor, card),
            Kind::Plan => host::pat_plan(anchor, card, index, block, ranges, plan, messages),
            Kind::Put => host::pat_put_tag(anchor, plan, card, self.node, &self.tag),
            Kind::Journalled => {
                host::pat_write_journalled(anchor, raised, card, index, block, ranges, journal)
            }
            Kind::Recover => host::pat_recover(anchor, card, journal),
        })
    }

    /// Makes the call with its count, in the reference and through the probe.
    pub fn counted(&mut self) -> Made {
        assert!(self.carries(), "no count: {}", self.short());
        let (anchor, index) = (&cards::parsed(&self.anchor), self.index);
        let (card, block, ranges) = (&mut self.card, &mut self.block, &mut self.ranges);
        let (plan, messages) = (&mut self.plan, &mut self.messages);
        let made = match self.kind {
            Kind::Read => counted::read(anchor, card, index, block),
            Kind::Write => counted::write(anchor, card, index, block, ranges),
            Kind::Check => counted::check(anchor, card),
            Kind::Wipe => counted::wipe(anchor, card),
            Kind::Plan => counted::plan(anchor, card, index, block, ranges, plan, messages),
            _ => unreachable!("the probe tells none"),
        };
        if let tree::Answer::Accepted(after) = made.0.answer {
            self.anchor = cards::anchor(&after.key, after.depth, after.root, after.reserved);
        }
        made
    }
}
