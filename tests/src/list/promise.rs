//! What document 01 promises of each call of a list, and document 02 of a wipe, a journalled write and a recovery.

use super::List;
use crate::call::{Answer, Call, Kind};
use crate::{cards, journals};
use reference::array::Told;

impl List {
    /// Holds a call of the list to the array and to the promise of an untouched card.
    pub fn judge(&mut self, before: &Call, after: &Call, answer: Answer) {
        let untouched = before.card == self.card;
        if self.clean && untouched {
            assert_ne!(answer.number, 8, "untouched card: {}", before.short());
        }
        let accepted = answer.accepted();
        match before.kind {
            Kind::Read => {
                let told = Told::Read(before.index);
                if let Some(block) = self.array.step(told, accepted) {
                    assert_eq!(after.block, block, "{}", before.short());
                }
            }
            kind if kind.writes() && accepted => self.expect_written(before, after),
            Kind::Recover if accepted && untouched => self.expect_recovered(before, after),
            Kind::Check if accepted => self.expect_array(&before.card),
            Kind::Wipe => self.expect_wiped(before, after, accepted),
            _ => {}
        }
    }

    /// Every block on the card is the array's.
    pub fn expect_array(&self, card: &[u8]) {
        for (index, block) in (0..).zip(self.array.blocks()) {
            assert_eq!(cards::block(card, self.depth, index), block);
        }
    }

    /// A wipe within its limits is accepted, and leaves the same whatever was on the card.
    fn expect_wiped(&self, before: &Call, after: &Call, accepted: bool) {
        let room = u64::MAX - cards::reserved(&self.anchor) >= self.depth;
        let fits = before.card.len() == self.card.len();
        assert_eq!(accepted, room && fits, "{}", before.short());
        if accepted {
            let mut own = before.clone();
            own.card.copy_from_slice(&self.card);
            assert_eq!(own.archive(), Answer::ACCEPTED);
            after.expect_bytes(&own, "the card as last left, wiped");
        }
    }

    /// What a write changed lies in its ranges, and a journalled one has all of it in its journal.
    fn expect_written(&self, before: &Call, after: &Call) {
        expect_inside_ranges(self.depth, before, after);
        if before.kind == Kind::Journalled {
            let list = &after.ranges[..16 * self.depth as usize];
            let news = journals::cut_out(&after.card, list);
            let root = cards::root(&after.anchor);
            let due = journals::made(&before.anchor, root, list, &news);
            assert!(after.journal == due, "{}", before.short());
            assert_eq!(after.raised, cards::raised(&before.anchor));
        }
    }

    /// On the card as last left, nothing but a journal that the key made elsewhere changes a byte.
    fn expect_recovered(&self, before: &Call, after: &Call) {
        if after.card != before.card {
            let journal = &before.journal;
            let own = self.journals.contains(journal) || *journal == self.journal;
            assert!(
                !own && journals::right(&before.anchor, journal),
                "{}",
                before.short()
            );
        }
    }
}

/// What the write changed lies in the ranges that it handed out.
fn expect_inside_ranges(depth: u64, before: &Call, after: &Call) {
    let mut outside = after.card.clone();
    for range in journals::ranges(&after.ranges[..16 * depth as usize]) {
        outside[range.clone()].copy_from_slice(&before.card[range]);
    }
    assert!(outside == before.card, "a byte outside the ranges changed");
}
