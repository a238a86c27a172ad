//! That two archives give the same answers and leave the same bytes, refusals among them.

use crate::calls::card::{card_bytes, Calls};
use crate::calls::tables::CALLS;
use crate::calls::Call;
use crate::subject::KEY;

/// The depths of the cards, and how often each is written or wiped.
const DEPTHS: std::ops::RangeInclusive<u32> = 1..=6;
const MOVES: usize = 40;

/// In how many ways a call is altered; the first leaves it as it is.
const WAYS: usize = 11;

/// A call with the bytes lent to it.
#[derive(Clone, PartialEq)]
struct Given {
    call: Call,
    anchor: Vec<u8>,
    card: Vec<u8>,
    index: u64,
    block: Vec<u8>,
    ranges: Vec<u8>,
}

impl Given {
    /// A format of a card of that depth.
    fn new(depth: u32) -> Self {
        let numbers = [u64::from(depth), 0, 0].map(u64::to_be_bytes).concat();
        Given {
            call: Call::Format,
            anchor: [&KEY[..], &numbers].concat(),
            card: vec![0x5b; card_bytes(depth)],
            index: 0,
            block: vec![0x3c; 64],
            ranges: vec![0x71; 16 * depth as usize + 3],
        }
    }

    /// Makes it the next call of a list: a write, or now and then a wipe.
    fn go_on(&mut self, turn: usize, depth: u32) {
        self.call = match turn % 8 {
            7 => Call::Wipe,
            _ => Call::Write,
        };
        self.index = (turn * turn) as u64 % (1 << depth);
        self.block.fill(turn as u8);
    }

    /// Each call on what this one left, altered in each way.
    fn altered(&self, turn: usize) -> Vec<Given> {
        let mut all = Vec::new();
        for call in CALLS {
            for way in 0..WAYS {
                let mut given = self.clone();
                given.call = call;
                given.alter(way, turn);
                all.push(given);
            }
        }
        all
    }

    /// Alters something, by the way and the turn.
    fn alter(&mut self, way: usize, turn: usize) {
        match way {
            0 => {}
            1 => self.anchor[23] = 17,
            2 => {
                self.anchor[31] ^= 1;
                self.anchor[39] ^= 1;
            }
            3 => self.anchor[24..].fill(0xff),
            4 => self.anchor.truncate(39),
            5 => self.card.truncate(turn),
            6 => self.index += 1 << (6 + turn),
            7 => self.block.push(0),
            8 => self.ranges.truncate(15),
            _ => {
                let at = way * way * turn % self.card.len();
                self.card[at] ^= 1 << (turn % 8);
            }
        }
    }

    /// Makes the call; gives the answer.
    fn make(&mut self, calls: &dyn Calls) -> u64 {
        let (anchor, card) = (&mut self.anchor, &mut self.card);
        let (block, ranges) = (&mut self.block, &mut self.ranges);
        match self.call {
            Call::Format => calls.format(anchor, card),
            Call::Read => calls.read(anchor, card, self.index, block),
            Call::Write => calls.write(anchor, card, self.index, block, ranges),
            Call::Check => calls.check(anchor, card),
            Call::Wipe => calls.wipe(anchor, card),
        }
    }

    /// Makes the call by both; gives the answer, if nothing differs.
    fn both(&mut self, one: &dyn Calls, other: &dyn Calls) -> Result<u64, String> {
        let (call, bytes, mut copy) = (self.call, self.card.len(), self.clone());
        let (answer, second) = (self.make(one), copy.make(other));
        if answer != second || *self != copy {
            return Err(format!(
                "a {call} of a card of {bytes} bytes differs: answers {answer:x} and {second:x}"
            ));
        }
        Ok(answer)
    }
}

/// Compares two archives: each call, altered in each way, after each of several writes and wipes. Gives how often each refusal
/// came up, acceptance first.
pub fn compare(one: &dyn Calls, other: &dyn Calls) -> Result<[usize; 9], String> {
    let mut answers = [0; 9];
    for depth in DEPTHS {
        let mut list = Given::new(depth);
        list.both(one, other)?;
        for turn in 0..MOVES {
            list.go_on(turn, depth);
            list.both(one, other)?;
            for mut given in list.altered(turn) {
                let answer = given.both(one, other)?;
                answers[(answer % 256) as usize] += 1;
            }
        }
    }
    Ok(answers)
}

#[cfg(test)]
mod tests {
    use super::super::archive::{before, present, Archive};
    use super::*;
    use crate::calls::card::Reference;
    use std::cell::Cell;

    /// The present archive is the reference, and every answer comes up.
    #[test]
    fn all_answers() {
        let answers = compare(&Cell::new(present()), &Reference).expect("the same");
        assert!(answers.iter().all(|&count| count >= 24), "{answers:?}");
    }

    /// So is the older one, where the build has one, whichever anchor it takes.
    #[test]
    fn the_older_one() {
        let Some(before) = before() else {
            println!("skipped: no older archive");
            return;
        };
        println!("an anchor of {} bytes", before.anchor);
        let answers = compare(&Cell::new(before), &Reference).expect("the same");
        assert!(answers.iter().all(|&count| count >= 24), "{answers:?}");
    }

    /// Another function in the place of one is found.
    #[test]
    fn another_function() {
        let ours = Cell::new(present());
        let (format, wipe) = (present().format, present().wipe);
        for other in [
            Archive {
                wipe: format,
                ..present()
            },
            Archive {
                format: wipe,
                ..present()
            },
        ] {
            assert!(compare(&ours, &Cell::new(other)).is_err());
        }
    }
}
