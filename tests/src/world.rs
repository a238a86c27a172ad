//! A box whose power fails: attempts and recoveries, each whole or cut anywhere, and whole calls between them; on a card and with a
//! journal that nobody else alters.

use crate::call::{Answer, Call, Kind};
use crate::list::List;
use crate::media::{steps, Media, Step};
use crate::random::Random;
use crate::split::Split;
use crate::tally::Tally;
use crate::{cards, journals};
use reference::array::{Array, Told};

/// What came up: attempts by how many of their steps were done, recoveries whole and cut, those of the whole ones that changed a
/// byte, and reads on a card that was not recovered, accepted and refused.
#[derive(Default, Debug)]
pub struct Seen {
    pub attempts: [u64; 5],
    pub whole: u64,
    pub cut: u64,
    pub mended: u64,
    pub early: [u64; 2],
}

/// The media as they stand, and what a finished recovery has to leave.
pub struct World {
    list: List,
    media: Media,
    array: Array,
    /// The card that a finished recovery leaves.
    due: Vec<u8>,
    /// Whether a finished recovery stands behind the last cut.
    settled: bool,
    random: Random,
    pub tally: Tally,
    pub seen: Seen,
}

/// A box after format, or with few nonces left, its journal zeros or junk.
fn start(depth: u64, random: &mut Random) -> (List, Media) {
    let list = List::new(depth, random);
    let room = random.below(40) as u64;
    let list = match random.below(4) {
        0 => list.moved_before(u64::MAX, room),
        1 => list.moved_before(1 << (16 + random.below(48)), room),
        _ => list,
    };
    let journal = match random.below(2) {
        0 => list.journal.clone(),
        _ => random.bytes(journals::bytes(depth)),
    };
    let media = Media {
        anchor: list.anchor.clone(),
        journal,
        card: list.card.clone(),
    };
    (list, media)
}

impl World {
    /// A first box.
    pub fn new(depth: u64, seed: u64) -> Self {
        let mut random = Random::new(seed);
        let (list, media) = start(depth, &mut random);
        World {
            array: Array::formatted(depth),
            due: media.card.clone(),
            settled: true,
            tally: Tally::default(),
            seen: Seen::default(),
            list,
            media,
            random,
        }
    }

    /// Another box of that depth.
    pub fn another(&mut self) {
        let depth = self.list.depth;
        (self.list, self.media) = start(depth, &mut self.random);
        (self.array, self.due) = (Array::formatted(depth), self.media.card.clone());
        self.settled = true;
    }

    /// A call on the media as they stand.
    fn call(&mut self, kind: Kind) -> Call {
        let index = self.random.below(self.list.blocks() as usize) as u64;
        let mut call = self.list.call(kind, index, &mut self.random);
        call.anchor.clone_from(&self.media.anchor);
        call.card.clone_from(&self.media.card);
        if kind == Kind::Recover {
            call.journal.clone_from(&self.media.journal);
        }
        call
    }

    /// Makes a call: on a settled card it is accepted, unless no nonces are left.
    fn make(&mut self, before: &Call) -> (Call, bool) {
        let mut after = before.clone();
        let answer = after.both();
        self.tally.count(before, answer);
        if self.settled {
            let spent = u64::MAX - cards::reserved(&before.anchor) < self.list.depth;
            let takes = before.kind.writes() || before.kind == Kind::Wipe;
            let number = if takes && spent { 7 } else { 0 };
            assert_eq!(answer, Answer::plain(number), "{}", before.short());
        }
        (after, answer.accepted())
    }

    /// One item: a recovery most often where one is due, else an attempt or a whole call.
    pub fn step(&mut self) {
        match (self.settled, self.random.below(12)) {
            (_, 0) => self.read(),
            (_, 1) => self.check(),
            (false, _) | (true, 2..=3) => self.recover(),
            (true, 4..=8) => self.attempt(),
            (true, 9) => self.whole(Kind::Write),
            (true, 10) => self.whole(Kind::Wipe),
            (true, _) => self.split(),
        }
    }

    /// A read at any time agrees with the array, or is refused on a card that was not recovered.
    fn read(&mut self) {
        let call = self.call(Kind::Read);
        let (read, accepted) = self.make(&call);
        if accepted {
            assert_eq!(read.block, self.array.block(call.index), "{}", call.short());
        }
        if !self.settled {
            self.seen.early[usize::from(!accepted)] += 1;
        }
    }

    /// A check at any time finds the array, or is refused on a card that was not recovered.
    fn check(&mut self) {
        let call = self.call(Kind::Check);
        let (_, accepted) = self.make(&call);
        if accepted {
            self.expect_array(&call.card);
        }
    }

    /// Every block on the card is the array's.
    fn expect_array(&self, card: &[u8]) {
        for (index, block) in (0..).zip(self.array.blocks()) {
            assert_eq!(cards::block(card, self.list.depth, index), block);
        }
    }

    /// A write or wipe that goes out whole, without a journal.
    fn whole(&mut self, kind: Kind) {
        let call = self.call(kind);
        let (after, accepted) = self.make(&call);
        let told = match kind {
            Kind::Wipe => Told::Wipe,
            _ => Told::Write(call.index, &call.block),
        };
        self.array.step(told, accepted);
        self.stand(after.anchor, after.card);
    }

    /// A split write that goes out whole, or whose last put never comes: then the raised anchor alone is kept.
    fn split(&mut self) {
        let asked = self.call(Kind::Plan);
        let (planned, accepted) = self.make(&asked);
        if !accepted {
            return;
        }
        let mut split = Split::new(asked, planned);
        let missing = self.random.below(2);
        while split.waiting.len() > missing {
            let at = self.random.below(split.waiting.len());
            split.put_next(at);
        }
        if missing > 0 {
            return self.stand(split.left.anchor, split.asked.card);
        }
        let told = Told::Write(split.asked.index, &split.asked.block);
        self.array.step(told, true);
        self.stand(split.left.anchor, split.left.card);
    }

    /// This anchor and this card stand, and nothing is to be recovered.
    fn stand(&mut self, anchor: Vec<u8>, card: Vec<u8>) {
        (self.media.anchor, self.media.card) = (anchor, card);
        self.due.clone_from(&self.media.card);
    }

    /// A journalled write, which goes out whole or until a cut.
    fn attempt(&mut self) {
        let call = self.call(Kind::Journalled);
        let (after, accepted) = self.make(&call);
        if !accepted {
            return;
        }
        let steps = steps(&after);
        let done = self.random.below(5);
        self.seen.attempts[done] += 1;
        for step in &steps[..done] {
            self.media.put(step);
        }
        if let Some(step) = steps.get(done) {
            self.tear(step);
            self.settled = false;
        }
        if cards::root(&self.media.anchor) != cards::root(&call.anchor) {
            let told = Told::Write(call.index, &call.block);
            self.array.step(told, true);
            self.due = after.card;
        }
    }

    /// A cut within a step: an anchor is old or new, any other byte old, new or any.
    fn tear(&mut self, step: &Step) {
        let random = &mut self.random;
        match step {
            Step::Anchor(_) if random.below(2) == 0 => {}
            Step::Anchor(_) => self.media.put(step),
            _ => {
                let (upto, mixed) = (random.below(step.bytes() + 1), random.below(3) > 0);
                self.media.tear(step, |at, old, new| match random.below(3) {
                    _ if !mixed && at != upto => [old, new][usize::from(at < upto)],
                    0 => old,
                    1 => new,
                    _ => random.word() as u8,
                });
            }
        }
    }

    /// A recovery, whole or cut; a whole one leaves the card that is due.
    fn recover(&mut self) {
        let call = self.call(Kind::Recover);
        let (after, accepted) = self.make(&call);
        assert!(accepted, "{}", call.short());
        if self.random.below(3) == 0 {
            self.seen.cut += 1;
            self.settled = false;
            if let Some(step) = self.media.recovery_step() {
                self.tear(&step);
            }
            return;
        }
        assert!(after.card == self.due, "{}", call.short());
        self.seen.whole += 1;
        self.seen.mended += u64::from(call.card != after.card);
        self.media.card = after.card;
        self.settled = true;
    }
}
