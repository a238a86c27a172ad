//! Every cut of a journalled write and of its recovery at depths 1 to 3: before, within and after each of the four steps, each byte
//! being written old, new and junk in turn and in random mixtures. Recovery leaves the old card where T is old, the new one where T
//! is new.

use reference::tree::{layout, paths, BlockIndex};
use std::cmp::Ordering;
use tests::call::{Answer, Kind};
use tests::list::List;
use tests::media::{steps, Media, Step};
use tests::random::Random;
use tests::{cards, journals};

/// What surrounds the byte that is tried: the bytes before it and those behind it.
const AROUND: [[Byte; 2]; 6] = [
    [Byte::New, Byte::Old],
    [Byte::Old, Byte::New],
    [Byte::Old, Byte::Old],
    [Byte::New, Byte::New],
    [Byte::Junk, Byte::Junk],
    [Byte::Any, Byte::Any],
];

/// How many mixtures of all three a step is cut with besides.
const MIXTURES: usize = 50;

/// What a byte that is being written becomes; any is one of the three at random.
#[derive(Clone, Copy, Debug, PartialEq, Eq)]
enum Byte {
    Old,
    New,
    Junk,
    Any,
}

impl Byte {
    /// The byte; junk is neither the old nor the new one.
    fn of(self, old: u8, new: u8, random: &mut Random) -> u8 {
        match self {
            Byte::Old => old,
            Byte::New => new,
            Byte::Junk => {
                let junk = |byte: &u8| *byte != old && *byte != new;
                let mut bytes = std::iter::repeat_with(|| random.word() as u8);
                bytes.find(junk).expect("a third value")
            }
            Byte::Any => [Byte::Old, Byte::New, Byte::Junk][random.below(3)].of(old, new, random),
        }
    }
}

/// How many cuts there were: by anchor whole, within the journal, within the ranges, and within a recovery; and how many of the
/// first recoveries had a journal to apply.
#[derive(Default, Debug)]
struct Seen {
    anchors: u64,
    journals: u64,
    ranges: u64,
    recoveries: u64,
    applied: u64,
}

/// A write that is cut: the media before, its steps, and the card and T that it leaves when done.
struct Attempt {
    media: Media,
    steps: [Step; 4],
    card: Vec<u8>,
    root: u64,
}

/// A run over the cuts of some attempts.
struct Run {
    random: Random,
    seen: Seen,
}

impl Attempt {
    /// The journalled write of a block with the list's journal beside the card.
    fn new(list: &List, index: u64, random: &mut Random) -> Self {
        let before = list.call(Kind::Journalled, index, random);
        let mut after = before.clone();
        assert_eq!(after.both(), Answer::ACCEPTED, "{}", before.short());
        Attempt {
            media: Media {
                journal: list.journal.clone(),
                ..Media::of(&before)
            },
            steps: steps(&after),
            root: cards::root(&after.anchor),
            card: after.card,
        }
    }

    /// The card that recovery has to leave, by the T that stands.
    fn due(&self, anchor: &[u8]) -> &[u8] {
        match cards::root(anchor) == self.root {
            true => &self.card,
            false => &self.media.card,
        }
    }
}

impl Run {
    /// Cuts a step in every way, with each of these around the byte that is tried; gives what each leaves.
    fn each_cut(
        &mut self,
        media: &Media,
        step: &Step,
        around: &[[Byte; 2]],
        mut then: impl FnMut(&mut Self, Media),
    ) {
        for &[before, behind] in around {
            for at in 0..step.bytes() {
                for tried in [Byte::Old, Byte::New, Byte::Junk] {
                    let (mut left, random) = (media.clone(), &mut self.random);
                    left.tear(step, |place, old, new| {
                        let byte = match place.cmp(&at) {
                            Ordering::Less => before,
                            Ordering::Equal => tried,
                            Ordering::Greater => behind,
                        };
                        byte.of(old, new, random)
                    });
                    then(self, left);
                }
            }
        }
        for _ in 0..MIXTURES {
            let left = self.mixture(media, step);
            then(self, left);
        }
    }

    /// A step cut with each byte any of the three.
    fn mixture(&mut self, media: &Media, step: &Step) -> Media {
        let (mut left, random) = (media.clone(), &mut self.random);
        left.tear(step, |_, old, new| Byte::Any.of(old, new, random));
        left
    }

    /// Recovers, once whole, and once cut and done again.
    fn recover(&mut self, attempt: &Attempt, media: Media) {
        let due = attempt.due(&media.anchor);
        assert!(media.recovered() == due, "{}", media.recovery().short());
        if let Some(step) = media.recovery_step() {
            self.seen.applied += 1;
            let again = self.mixture(&media, &step);
            assert!(again.recovered() == due, "{}", again.recovery().short());
        }
    }

    /// Cuts a recovery in every way and does it again.
    fn cut_recovery(&mut self, attempt: &Attempt, media: &Media) {
        let Some(step) = media.recovery_step() else {
            return;
        };
        let due = attempt.due(&media.anchor);
        self.each_cut(media, &step, &AROUND[3..], |run, left| {
            run.seen.recoveries += 1;
            assert!(left.recovered() == due, "{}", left.recovery().short());
        });
    }

    /// Every cut of an attempt.
    fn every_cut(&mut self, attempt: &Attempt) {
        let mut media = attempt.media.clone();
        for step in &attempt.steps {
            self.recover(attempt, media.clone());
            match step {
                Step::Anchor(_) => self.seen.anchors += 1,
                Step::Journal(_) => {
                    self.cut_recovery(attempt, &media);
                    self.each_cut(&media, step, &AROUND, |run, left| {
                        run.seen.journals += 1;
                        run.recover(attempt, left);
                    });
                }
                Step::Ranges(..) => {
                    self.cut_recovery(attempt, &media);
                    self.each_cut(&media, step, &AROUND, |run, left| {
                        run.seen.ranges += 1;
                        run.recover(attempt, left);
                    });
                    let torn = self.mixture(&media, step);
                    self.cut_recovery(attempt, &torn);
                }
            }
            media.put(step);
        }
        assert!(media.card == attempt.card, "all is out");
        self.recover(attempt, media.clone());
        self.cut_recovery(attempt, &media);
    }
}

/// A fresh list with a journal of zeros; one of plain writes with junk for a journal; one whose last write was journalled; one that
/// has lost attempts, the last one's journal beside the card; and one before the last nonces.
fn lists(depth: u64, random: &mut Random) -> Vec<List> {
    let mut junk = List::used(depth, random);
    junk.journal = random.bytes(journals::bytes(depth));
    let journalled = |random: &mut Random| {
        let mut list = List::used(depth, random);
        let call = list.call(Kind::Journalled, 1, random);
        list.go_on(call, random);
        list
    };
    let mut lost = journalled(random).lose_some(2);
    let mut call = lost.call(Kind::Journalled, 0, random);
    assert_eq!(call.both(), Answer::ACCEPTED);
    lost.lose(call.raised);
    lost.journal = call.journal;
    let last = List::used(depth, random).moved_before(u64::MAX, 1);
    vec![
        List::new(depth, random),
        junk,
        journalled(random),
        lost,
        last,
    ]
}

/// Every block of that depth, from each of these lists; at depth 3 from two of them.
fn run(depth: u64) {
    let mut run = Run {
        random: Random::new(0x0063_7574 + depth),
        seen: Seen::default(),
    };
    let (lists, mut attempts) = (lists(depth, &mut Random::new(depth)), 0);
    for (at, list) in (0..).zip(&lists) {
        for index in (0..list.blocks()).filter(|index| depth < 3 || (index + at) % 5 < 2) {
            let attempt = Attempt::new(list, index, &mut run.random);
            run.every_cut(&attempt);
            attempts += 1;
        }
    }
    let seen = &run.seen;
    println!("depth {depth}, {attempts} attempts: {seen:?}");
    assert_eq!(attempts, [10, 20, 16][depth as usize - 1]);
    assert_eq!(seen.anchors, 2 * attempts);
    let cuts = |bytes: usize| (18 * bytes + MIXTURES) as u64 * attempts;
    assert_eq!(seen.journals, cuts(journals::bytes(depth)));
    assert_eq!(seen.ranges, cuts(journals::news(depth)));
    assert!(seen.recoveries >= seen.ranges && seen.applied >= seen.ranges);
}

#[test]
fn depth_1() {
    run(1);
}

#[test]
fn depth_2() {
    run(2);
}

#[test]
fn depth_3() {
    run(3);
}

/// Where T is old, the next attempt is accepted on the recovered card and takes other nonces: of the same block it shares no tag
/// with the lost one. All reads agree with the array before and after.
#[test]
fn goes_on() {
    let mut random = Random::new(0x6e65_7874);
    for depth in 1..=6 {
        let mut list = List::used(depth, &mut random);
        for index in 0..list.blocks() {
            let before = list.call(Kind::Journalled, index, &mut random);
            let mut lost = before.clone();
            assert_eq!(lost.both(), Answer::ACCEPTED);
            list.lose(lost.raised.clone());
            list.journal.clone_from(&lost.journal);
            expect_array(&list, &mut random);
            let mut next = before.clone();
            next.anchor.clone_from(&list.anchor);
            let asked = next.clone();
            assert_eq!(next.both(), Answer::ACCEPTED);
            assert_eq!(cards::root(&next.anchor), cards::root(&lost.anchor) + depth);
            for node in paths::tagged(depth, BlockIndex(index)) {
                let tag = layout::tag(depth, node);
                assert_ne!(next.card[tag.clone()], lost.card[tag]);
            }
            list.go_on(asked, &mut random);
            expect_array(&list, &mut random);
        }
    }
}

/// A check and every read are accepted and give the array.
fn expect_array(list: &List, random: &mut Random) {
    let mut check = list.call(Kind::Check, 0, random);
    assert_eq!(check.both(), Answer::ACCEPTED);
    list.expect_array(&check.card);
    for index in 0..list.blocks() {
        let mut read = list.call(Kind::Read, index, random);
        assert_eq!(read.both(), Answer::ACCEPTED);
        assert_eq!(read.block, list.array.block(index));
    }
}
