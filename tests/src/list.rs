//! A list of calls from its format on: the anchor, card and journal as last left, and the plain array.

use crate::call::{Answer, Call, Kind};
use crate::random::Random;
use crate::split::Split;
use crate::{cards, journals, plans};
use reference::array::{Array, Told};
use reference::host;
use reference::tree::layout;

mod promise;

/// How many earlier cards and journals a list keeps.
const KEPT: usize = 8;

/// The anchor, the card as last left, and what a reader may expect of them.
pub struct List {
    pub depth: u64,
    pub anchor: Vec<u8>,
    pub card: Vec<u8>,
    pub array: Array,
    /// Some cards as they were left earlier; the first is format's.
    pub old: Vec<Vec<u8>>,
    /// The journal beside the card: zeros, and then what the last journalled write left of it.
    pub journal: Vec<u8>,
    /// Some journals of journalled writes, done or lost.
    pub journals: Vec<Vec<u8>>,
    /// How many wipes were accepted.
    pub wipes: u64,
    /// The nonces at the start, how many writes and wipes were accepted since, and how many attempts were lost.
    start: u64,
    moves: u64,
    lost: u64,
    /// Whether every accepted write since the format or the last wipe had an untouched card.
    clean: bool,
}

impl List {
    /// Formats a card of bytes from elsewhere.
    pub fn new(depth: u64, random: &mut Random) -> Self {
        let anchor = cards::anchor(&random.block(), depth, random.word(), random.word());
        let mut call = Call::on(anchor, random.bytes(layout::card_bytes(depth)));
        assert_eq!(call.both(), Answer::ACCEPTED);
        List {
            depth,
            anchor: call.anchor,
            array: Array::formatted(depth),
            old: vec![call.card.clone()],
            card: call.card,
            journal: vec![0; journals::bytes(depth)],
            journals: Vec::new(),
            wipes: 0,
            start: 0,
            moves: 0,
            lost: 0,
            clean: true,
        }
    }

    /// A list with some writes behind it.
    pub fn used(depth: u64, random: &mut Random) -> Self {
        let mut list = List::new(depth, random);
        for _ in 0..3 {
            let index = random.below(list.blocks() as usize) as u64;
            list.write(index, random);
        }
        list
    }

    /// The same card made right for nonces from which that many writes or wipes go up to the limit. Every nonce used from here
    /// on is new, as after so many of them.
    pub fn moved_before(mut self, limit: u64, room: u64) -> Self {
        self.start = limit / self.depth * self.depth - room * self.depth;
        (self.moves, self.lost) = (0, 0);
        cards::set_nonces(&mut self.anchor, self.start);
        cards::restamp(&self.anchor, &mut self.card);
        self
    }

    /// How many blocks there are.
    pub fn blocks(&self) -> u64 {
        layout::blocks(self.depth)
    }

    /// A call within its limits, on the card as last left.
    pub fn call(&self, kind: Kind, index: u64, random: &mut Random) -> Call {
        let tail = random.below(20);
        let mut call = Call {
            kind,
            index,
            block: self.block(kind, index, random),
            ranges: random.bytes(16 * self.depth as usize + tail),
            ..Call::on(self.anchor.clone(), self.card.clone())
        };
        match kind {
            Kind::Plan => {
                call.plan = random.bytes(host::PLAN_BYTES);
                call.messages = random.bytes(host::MESSAGES_BYTES);
            }
            Kind::Put => self.any_put(&mut call, random),
            Kind::Journalled => {
                call.raised = random.bytes(host::ANCHOR_BYTES);
                call.journal = random.bytes(journals::bytes(self.depth));
            }
            Kind::Recover => call.journal.clone_from(&self.journal),
            _ => {}
        }
        call
    }

    /// Makes it the put of any tag at one of the nodes of its block, under a plan of which any other places are filled.
    fn any_put(&self, call: &mut Call, random: &mut Random) {
        let place = random.below(2 * self.depth as usize);
        call.node = plans::node(self.depth, call.index, place as u64);
        call.plan = plans::plan(call.index, random.word(), random.word() & !(1 << place));
        call.tag = random.bytes(layout::TAG_BYTES);
    }

    /// Any bytes for a read's buffer; for a write sometimes the block that is there already, or nearly.
    fn block(&self, kind: Kind, index: u64, random: &mut Random) -> Vec<u8> {
        let mut there = self.array.block(index).to_vec();
        let new = kind.writes();
        match random.below(6) {
            0 if new => there,
            1 if new => {
                there[random.below(64)] ^= 1 << random.below(8);
                there
            }
            _ => random.bytes(64),
        }
    }

    /// An honest write, which is accepted; the list goes on with it.
    pub fn write(&mut self, index: u64, random: &mut Random) {
        let call = self.call(Kind::Write, index, random);
        self.go_on(call, random);
    }

    /// An honest plan, which is accepted.
    pub fn plan(&self, index: u64, random: &mut Random) -> Split {
        let asked = self.call(Kind::Plan, index, random);
        let mut planned = asked.clone();
        assert_eq!(planned.both(), Answer::ACCEPTED, "{}", asked.short());
        Split::new(asked, planned)
    }

    /// A wipe of the card as last left, which is accepted; the list goes on with it.
    pub fn wipe(&mut self, random: &mut Random) {
        let call = self.call(Kind::Wipe, 0, random);
        self.go_on(call, random);
    }

    /// Goes on with a call that has to be accepted.
    pub fn go_on(&mut self, before: Call, random: &mut Random) {
        let mut after = before.clone();
        assert_eq!(after.both(), Answer::ACCEPTED);
        self.judge(&before, &after, Answer::ACCEPTED);
        self.accept(&before, after, random);
    }

    /// Whether the call has the list's own anchor, so that it can be one of the list.
    pub fn has(&self, call: &Call) -> bool {
        call.kind != Kind::Format && call.anchor == self.anchor
    }

    /// Goes on after an accepted write or wipe.
    pub fn accept(&mut self, before: &Call, after: Call, random: &mut Random) {
        let untouched = before.card == self.card;
        self.go_on_from(before, untouched, after, random);
    }

    /// Goes on after a split write whose tags were all put: it is one write, and its card was untouched if it was so at each
    /// step.
    pub fn accept_split(&mut self, split: Split, random: &mut Random) {
        assert!(split.waiting.is_empty(), "every tag is put");
        let untouched = split.untouched && split.asked.card == self.card;
        self.go_on_from(&split.asked, untouched, split.left, random);
    }

    /// Goes on from what a write, whole or split, or a wipe has left.
    fn go_on_from(&mut self, before: &Call, untouched: bool, after: Call, random: &mut Random) {
        let wiped = before.kind == Kind::Wipe;
        self.array.step(told(before), true);
        self.clean = wiped || self.clean && untouched;
        self.moves += 1;
        self.wipes += u64::from(wiped);
        let left = std::mem::replace(&mut self.card, after.card.clone());
        self.keep(left, random);
        self.anchor = after.anchor.clone();
        self.expect_nonces(self.expected());
        if wiped {
            self.expect_array(&self.card);
        }
        if before.kind == Kind::Journalled {
            self.keep_journal(after.journal.clone(), random);
            self.journal = after.journal;
        }
    }

    /// H: n times the accepted writes and wipes and the lost attempts, above the start.
    fn expected(&self) -> u64 {
        self.start + (self.moves + self.lost) * self.depth
    }

    /// The anchor has that T, and the H that all attempts so far have taken.
    fn expect_nonces(&self, root: u64) {
        assert_eq!(cards::root(&self.anchor), root);
        assert_eq!(cards::reserved(&self.anchor), self.expected());
    }

    /// Goes on after an attempt of which only the raised anchor is kept.
    pub fn lose(&mut self, raised: Vec<u8>) {
        let root = cards::root(&self.anchor);
        self.anchor = raised;
        self.lost += 1;
        self.expect_nonces(root);
    }

    /// Goes on after some attempts that left nothing else behind, as long as nonces are left.
    pub fn lose_some(mut self, count: usize) -> Self {
        for _ in 0..count {
            if u64::MAX - cards::reserved(&self.anchor) >= self.depth {
                self.lose(cards::raised(&self.anchor));
            }
        }
        self
    }

    /// Keeps a journal for later, in the place of another when there are many.
    pub fn keep_journal(&mut self, journal: Vec<u8>, random: &mut Random) {
        if self.journals.len() < KEPT {
            self.journals.push(journal);
        } else {
            self.journals[random.below(KEPT)] = journal;
        }
    }

    /// Keeps an earlier card, in the place of another when there are many.
    pub fn keep(&mut self, card: Vec<u8>, random: &mut Random) {
        if self.old.len() < KEPT {
            self.old.push(card);
        } else {
            self.old[1 + random.below(KEPT - 1)] = card;
        }
    }
}

/// What the array is told of a write or a wipe.
fn told(call: &Call) -> Told<'_> {
    match call.kind {
        Kind::Wipe => Told::Wipe,
        _ => Told::Write(call.index, &call.block),
    }
}
