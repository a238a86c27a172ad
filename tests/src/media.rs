//! What lies outside the box's memory: anchor, journal and card as they stand; the steps in which a journalled write and a recovery
//! go out to them, and what a cut leaves.

use crate::call::{Answer, Call, Kind};
use crate::{cards, journals};
use std::ops::Range;

/// The three as they stand.
#[derive(Clone, Debug, PartialEq, Eq)]
pub struct Media {
    pub anchor: Vec<u8>,
    pub journal: Vec<u8>,
    pub card: Vec<u8>,
}

/// One step: it stands on its medium before the next one begins.
#[derive(Clone, Debug, PartialEq, Eq)]
pub enum Step {
    /// An anchor is replaced whole.
    Anchor(Vec<u8>),
    Journal(Vec<u8>),
    /// The bytes of these ranges of the card, end to end.
    Ranges(Vec<Range<usize>>, Vec<u8>),
}

impl Step {
    /// How many bytes go out one by one.
    pub fn bytes(&self) -> usize {
        match self {
            Step::Anchor(_) => 0,
            Step::Journal(new) | Step::Ranges(_, new) => new.len(),
        }
    }
}

/// The four steps of a journalled write: the raised anchor, the journal, the anchor with the new T, the ranges of the card.
pub fn steps(after: &Call) -> [Step; 4] {
    let depth = cards::depth(&after.anchor);
    let list = &after.ranges[..16 * depth as usize];
    let news = journals::cut_out(&after.card, list);
    [
        Step::Anchor(after.raised.clone()),
        Step::Journal(after.journal.clone()),
        Step::Anchor(after.anchor.clone()),
        Step::Ranges(journals::ranges(list), news),
    ]
}

impl Media {
    /// As a call is given them.
    pub fn of(call: &Call) -> Self {
        Media {
            anchor: call.anchor.clone(),
            journal: call.journal.clone(),
            card: call.card.clone(),
        }
    }

    /// A step that is done.
    pub fn put(&mut self, step: &Step) {
        match step {
            Step::Anchor(new) => self.anchor.clone_from(new),
            _ => self.tear(step, |_, _, new| new),
        }
    }

    /// A step cut within its bytes: each becomes what is said of its place, its old and its new value.
    pub fn tear(&mut self, step: &Step, mut byte: impl FnMut(usize, u8, u8) -> u8) {
        let (bytes, places, new): (_, Vec<usize>, _) = match step {
            Step::Anchor(_) => return,
            Step::Journal(new) => (&mut self.journal, (0..new.len()).collect(), new),
            Step::Ranges(ranges, new) => {
                let places = ranges.iter().cloned().flatten();
                (&mut self.card, places.collect(), new)
            }
        };
        for (at, place) in places.into_iter().enumerate() {
            bytes[place] = byte(at, bytes[place], new[at]);
        }
    }

    /// A recovery of the card, in archive and reference; gives the card.
    #[track_caller]
    pub fn recovered(&self) -> Vec<u8> {
        let mut call = self.recovery();
        assert_eq!(call.both(), Answer::ACCEPTED, "{}", call.short());
        call.card
    }

    /// The call of a recovery.
    pub fn recovery(&self) -> Call {
        Call {
            kind: Kind::Recover,
            journal: self.journal.clone(),
            ..Call::on(self.anchor.clone(), self.card.clone())
        }
    }

    /// What a recovery puts out, if there is anything: the journal's bytes, if it has the anchor's T and a right tag.
    pub fn recovery_step(&self) -> Option<Step> {
        let same = self.journal[..8] == cards::root(&self.anchor).to_be_bytes();
        let applies = same && journals::right(&self.anchor, &self.journal);
        let list = journals::list(cards::depth(&self.anchor));
        applies.then(|| {
            let news = &self.journal[list.end..self.journal.len() - 16];
            Step::Ranges(journals::ranges(&self.journal[list]), news.to_vec())
        })
    }
}
