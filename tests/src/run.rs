//! Random lists of calls, and what came up in them.

use crate::call::{Answer, Call, Kind};
use crate::list::List;
use crate::random::Random;
use crate::split::Split;
use crate::spoil;
use crate::tally::Tally;
use attempts::Attempts;
use splits::Splits;

mod attempts;
mod splits;

/// One list in four runs out of nonces, and in one of four they pass a power of two. Some begin with lost attempts.
fn list(depth: u64, random: &mut Random) -> List {
    let list = List::new(depth, random);
    let room = random.below(12) as u64;
    let list = match random.below(4) {
        0 => list.moved_before(u64::MAX, room),
        1 => list.moved_before(1 << (8 + random.below(56)), room),
        _ => list,
    };
    list.lose_some([0, 0, 1, 3][random.below(4)])
}

/// Mostly reads and writes; the puts are of any plan, the recoveries from any journal.
fn kind(random: &mut Random) -> Kind {
    match random.below(38) {
        0..=6 => Kind::Write,
        7..=12 => Kind::Read,
        13..=15 => Kind::Check,
        16..=18 => Kind::Wipe,
        19..=20 => Kind::Format,
        21..=24 => Kind::Put,
        25..=28 => Kind::Journalled,
        29..=32 => Kind::Recover,
        _ => Kind::Plan,
    }
}

/// A list that goes on, and what came up in all of one depth.
pub struct Run {
    pub list: List,
    random: Random,
    pub tally: Tally,
    pub splits: Splits,
    pub attempts: Attempts,
}

impl Run {
    /// The first list.
    pub fn new(depth: u64, seed: u64) -> Self {
        let mut random = Random::new(seed);
        Run {
            list: list(depth, &mut random),
            random,
            tally: Tally::default(),
            splits: Splits::default(),
            attempts: Attempts::default(),
        }
    }

    /// Goes on with another list of that depth.
    pub fn another_list(&mut self) {
        self.list = list(self.list.depth, &mut self.random);
    }

    /// Makes a call, and judges it if it is one of the list.
    fn make(&mut self, before: &Call) -> (Call, Answer) {
        let mut after = before.clone();
        let answer = after.both();
        self.tally.count(before, answer);
        if self.list.has(before) {
            self.list.judge(before, &after, answer);
        }
        (after, answer)
    }

    /// One call, in two of five cases with nothing altered. A write or wipe accepted on an altered card goes into the list now
    /// and then; otherwise it is as if the list had ended with it. A plan goes on with its puts, a journalled write to the media.
    pub fn step(&mut self) {
        let (list, random) = (&self.list, &mut self.random);
        let index = random.below(list.blocks() as usize) as u64;
        let mut call = list.call(kind(random), index, random);
        for _ in 0..[0, 0, 1, 1, 2][random.below(5)] {
            spoil::any(&mut call, list, random);
        }
        let (after, answer) = self.make(&call);
        if !answer.accepted() {
            return;
        }
        if call.kind == Kind::Recover {
            self.attempts.note(call.card != after.card);
        } else if call.kind == Kind::Plan {
            self.puts(Split::new(call, after));
        } else if self.list.has(&call) && call.kind.moves() {
            let goes_on = call.card == self.list.card || self.random.below(6) == 0;
            match (goes_on, call.kind) {
                (false, _) => {}
                (true, Kind::Journalled) => self.attempt(&call, after),
                (true, _) => self.list.accept(&call, after, &mut self.random),
            }
        }
    }
}
