//! Journalled writes in random lists, on their way to the media.

use super::Run;
use crate::call::{Answer, Call, Kind};
use crate::journals;
use crate::random::Random;

/// What became of the journalled writes that were accepted: done; lost in the journal or behind it; or cut in the ranges and
/// recovered. And how many other recoveries changed a byte of their card, and none.
#[derive(Default, Debug)]
pub struct Attempts {
    done: u64,
    lost: u64,
    recovered: u64,
    others: [u64; 2],
}

impl Attempts {
    /// Notes another recovery that was accepted.
    pub fn note(&mut self, changed: bool) {
        self.others[usize::from(!changed)] += 1;
    }

    /// Stops the test unless each of them came up that often.
    pub fn expect_each(&self, least: u64) {
        let ends = [self.done, self.lost, self.recovered];
        let all = ends.iter().chain(&self.others);
        assert!(all.min() >= Some(&least), "{self:?}");
    }
}

/// Each byte old, new or any.
fn torn(old: &[u8], new: &[u8], random: &mut Random) -> Vec<u8> {
    let pairs = old.iter().zip(new);
    let byte = |(&old, &new)| match random.below(3) {
        0 => old,
        1 => new,
        _ => random.word() as u8,
    };
    pairs.map(byte).collect()
}

impl Run {
    /// A journalled write of the list goes out: in half of the cases whole, else until a cut.
    pub(super) fn attempt(&mut self, before: &Call, after: Call) {
        match self.random.below(6) {
            0..=2 => {
                self.attempts.done += 1;
                self.list.accept(before, after, &mut self.random);
            }
            3 => {
                let journal = torn(&self.list.journal, &after.journal, &mut self.random);
                self.lose(after, journal);
            }
            4 => {
                let journal = after.journal.clone();
                self.lose(after, journal);
            }
            _ => self.recover(before, after),
        }
    }

    /// The new root nonce never stood: the raised anchor and the card of before are left, and that of the journal.
    fn lose(&mut self, after: Call, left: Vec<u8>) {
        self.attempts.lost += 1;
        self.list.lose(after.raised);
        self.list.keep_journal(after.journal, &mut self.random);
        self.list.journal = left;
    }

    /// The new root nonce stood and the ranges are torn: a recovery leaves the card of the write.
    fn recover(&mut self, before: &Call, after: Call) {
        let mut card = before.card.clone();
        let list = &after.journal[journals::list(self.list.depth)];
        for range in journals::ranges(list) {
            let bytes = torn(
                &card[range.clone()],
                &after.card[range.clone()],
                &mut self.random,
            );
            card[range].copy_from_slice(&bytes);
        }
        let recovery = Call {
            kind: Kind::Recover,
            card,
            ..after.clone()
        };
        let (mended, answer) = self.make(&recovery);
        assert_eq!(answer, Answer::ACCEPTED, "{}", recovery.short());
        mended.expect_bytes(&after_recovery(&after), &recovery.short());
        self.attempts.recovered += 1;
        self.list.keep(recovery.card, &mut self.random);
        self.list.accept(before, after, &mut self.random);
    }
}

/// What the write left, as a recovery leaves it.
fn after_recovery(after: &Call) -> Call {
    let mut due = after.clone();
    due.kind = Kind::Recover;
    due
}
