//! Journals of every kind: what a recovery applies, what it leaves alone, and what it refuses.

use bindings::pat;
use tests::call::{Answer, Call, Kind};
use tests::list::List;
use tests::media::Media;
use tests::random::Random;
use tests::{cards, journals};

/// A list whose last call is a journalled write of that block; and the call as it was asked for.
fn journalled(depth: u64, index: u64, random: &mut Random) -> (List, Call) {
    let mut list = List::used(depth, random).lose_some(1);
    let asked = list.call(Kind::Journalled, index, random);
    list.go_on(asked.clone(), random);
    (list, asked)
}

/// Some blocks of a card: all of a small one, else the first and the last, and of a middle one some between.
fn blocks(list: &List, random: &mut Random) -> Vec<u64> {
    match list.depth {
        1..=4 => (0..list.blocks()).collect(),
        11.. => vec![0, list.blocks() - 1],
        _ => {
            let some = (0..3).map(|_| random.below(list.blocks() as usize) as u64);
            some.chain([0, list.blocks() - 1]).collect()
        }
    }
}

/// The recovery of the list's card, or of another one, from that journal.
fn recovery(list: &List, card: &[u8], journal: Vec<u8>) -> Call {
    let media = Media {
        anchor: list.anchor.clone(),
        journal,
        card: card.to_vec(),
    };
    media.recovery()
}

/// Expects that answer, and that nothing changes.
#[track_caller]
fn expect_kept(call: &Call, answer: u64) {
    let mut after = call.clone();
    assert_eq!(after.both(), Answer::plain(answer), "{}", call.short());
    after.expect_bytes(call, &call.short());
}

/// Expects that the card gets these bytes in these ranges, and no other byte changes.
#[track_caller]
fn expect_applied(call: &Call, list: &[u8], news: &[u8]) {
    let (mut after, mut due, mut rest) = (call.clone(), call.clone(), news);
    for range in journals::ranges(list) {
        let (new, behind) = rest.split_at(range.len());
        due.card[range].copy_from_slice(new);
        rest = behind;
    }
    assert_eq!(after.both(), Answer::ACCEPTED, "{}", call.short());
    after.expect_bytes(&due, &call.short());
}

/// Any bytes that only the key can have put into a journal of the anchor's T, under every block's list, on cards of any bytes: they
/// go into the ranges and nowhere else.
#[test]
fn applied() {
    let (mut random, mut cases) = (Random::new(0x6170_706c), 0);
    for depth in 1..=16 {
        let (list, _) = journalled(depth, 1, &mut random);
        for index in blocks(&list, &mut random) {
            let ranges = journals::list_of(depth, index);
            let news = random.bytes(journals::news(depth));
            let root = cards::root(&list.anchor);
            let journal = journals::made(&list.anchor, root, &ranges, &news);
            for card in [list.card.clone(), random.bytes(list.card.len())] {
                expect_applied(&recovery(&list, &card, journal.clone()), &ranges, &news);
                cases += 1;
            }
        }
    }
    println!("{cases} journals applied");
}

/// Any one bit of a journal turned: nothing changes, though the card is the old one.
#[test]
fn every_bit() {
    let (mut random, mut cases) = (Random::new(0x6269_7473), 0);
    for depth in 1..=16 {
        let (list, asked) = journalled(depth, 1, &mut random);
        let call = recovery(&list, &asked.card, list.journal.clone());
        let mut whole = call.clone();
        assert_eq!(whole.both(), Answer::ACCEPTED);
        assert!(whole.card == list.card, "the journal itself is applied");
        let bits = 8 * list.journal.len();
        let bits_tried = if depth <= 10 { 80 } else { 12 };
        for bit in (0..bits).filter(|_| depth <= 4 || random.below(bits) < bits_tried) {
            let mut other = call.clone();
            other.journal[bit / 8] ^= 1 << (bit % 8);
            expect_kept(&other, 0);
            cases += 1;
        }
    }
    println!("{cases} journals with a bit turned");
}

/// Journals of ours from before, done or lost, after more writes of all kinds and wipes: nothing changes, on the card as last left
/// and on the one that the journal was made for.
#[test]
fn last_weeks() {
    let (mut random, mut cases) = (Random::new(0x7765_656b), 0);
    for depth in (1..=8).chain([16]) {
        let mut list = List::new(depth, &mut random);
        let mut old: Vec<(Vec<u8>, Vec<u8>)> = Vec::new();
        for turn in 0..if depth < 9 { 24 } else { 6 } {
            for (journal, card) in &old {
                for card in [&list.card, card] {
                    expect_kept(&recovery(&list, card, journal.clone()), 0);
                    cases += 1;
                }
            }
            let index = random.below(list.blocks() as usize) as u64;
            let mut asked = list.call(Kind::Journalled, index, &mut random);
            match turn % 6 {
                0 => list.wipe(&mut random),
                1 => list.write(index, &mut random),
                2 | 3 => list.go_on(asked.clone(), &mut random),
                _ => {}
            }
            let before = asked.card.clone();
            assert_eq!(asked.both(), Answer::ACCEPTED);
            match turn % 6 {
                4 | 5 => list.lose(asked.raised),
                2 | 3 => {
                    expect_applied_own(&list, &before);
                    list.write(index, &mut random);
                }
                _ => continue,
            }
            old.push((asked.journal, before));
        }
    }
    println!("{cases} recoveries from journals of before");
}

/// The list's own journal makes its card of the one before.
fn expect_applied_own(list: &List, before: &[u8]) {
    let mut call = recovery(list, before, list.journal.clone());
    assert_eq!(call.both(), Answer::ACCEPTED);
    assert!(call.card == list.card, "{}", call.short());
}

/// After a format, with T = 0 and any H: a journal of zeros, and of zeros but for its list or its tag, changes nothing.
#[test]
fn zeros_after_a_format() {
    let mut random = Random::new(0x7a65_726f);
    for depth in 1..=16 {
        for lost in 0..3 {
            let list = List::new(depth, &mut random).lose_some(lost);
            assert_eq!(cards::root(&list.anchor), 0);
            let zeros = vec![0; journals::bytes(depth)];
            let mut listed = zeros.clone();
            listed[journals::list(depth)].copy_from_slice(&journals::list_of(depth, 1));
            let mut ones = zeros.clone();
            ones[8..].fill(0xff);
            let junk = [vec![0; 8], random.bytes(zeros.len() - 8)].concat();
            for journal in [zeros, listed, ones, junk] {
                expect_kept(&recovery(&list, &list.card, journal), 0);
            }
        }
    }
}

/// The journal of another card, whose T is the same, and this card's own under the other's key: neither is applied to the other.
#[test]
fn another_cards() {
    let mut random = Random::new(0x6f74_6865);
    for depth in 1..=16 {
        let (list, asked) = journalled(depth, 1, &mut random);
        let (other, other_asked) = journalled(depth, 1, &mut random);
        assert_eq!(cards::root(&list.anchor), cards::root(&other.anchor));
        let own = list.journal[..list.journal.len() - 16].to_vec();
        for journal in [other.journal.clone(), journals::tagged(&other.anchor, own)] {
            for card in [&list.card, &asked.card, &other_asked.card] {
                expect_kept(&recovery(&list, card, journal.clone()), 0);
            }
        }
    }
}

/// A right tag and the anchor's T, and a list that is no write's: refused 10. With another T, or with H where that is not T, it is
/// left alone.
#[test]
fn lists_of_no_write() {
    let (mut random, mut cases) = (Random::new(0x6c69_7374), 0);
    for depth in 1..=16 {
        let (list, asked) = journalled(depth, 0, &mut random);
        let list = list.lose_some(2);
        for index in blocks(&list, &mut random) {
            let ways =
                (0..journals::STRANGE).flat_map(|way| vec![way; if depth < 9 { 4 } else { 1 }]);
            for way in ways {
                let mut of = |root: u64| {
                    let ranges = journals::strange(depth, index, way, &mut random);
                    let news = random.bytes(journals::news(depth));
                    let journal = journals::made(&list.anchor, root, &ranges, &news);
                    recovery(&list, &asked.card, journal)
                };
                let root = cards::root(&list.anchor);
                expect_kept(&of(root), 10);
                let others = [root + 2 * depth, root + depth, root - depth, 0];
                for other in &others[..if depth < 9 { 4 } else { 1 }] {
                    expect_kept(&of(*other), 0);
                }
                cases += 1;
            }
        }
    }
    println!("{cases} lists that are no write's");
}

/// Every byte of a list another one, its journal tagged anew: refused 10.
#[test]
fn every_byte_of_a_list() {
    let mut random = Random::new(0x6279_7465);
    for depth in 1..=4 {
        for index in 0..1 << depth {
            let (list, asked) = journalled(depth, index, &mut random);
            for at in journals::list(depth) {
                for change in [1, 8, 0x10, 0x40, 0x80, 0xff] {
                    let mut message = list.journal[..list.journal.len() - 16].to_vec();
                    message[at] ^= change;
                    let journal = journals::tagged(&list.anchor, message);
                    expect_kept(&recovery(&list, &asked.card, journal), 10);
                }
            }
        }
    }
}

/// Every other length of a journal is refused 10, by a write and by a recovery, up to twice the right one.
#[test]
fn every_other_length() {
    let mut random = Random::new(0x6c65_6e67);
    for depth in [1, 2, 3, 7, 16] {
        let (list, asked) = journalled(depth, 1, &mut random);
        let wanted = journals::bytes(depth);
        let write = list.call(Kind::Journalled, 1, &mut random);
        for length in (0..=2 * wanted).filter(|&length| length != wanted) {
            if depth == 16 && random.below(60) > 0 {
                continue;
            }
            let mut journal = list.journal.clone();
            journal.resize(length, 0);
            expect_kept(&recovery(&list, &asked.card, journal), 10);
            let mut write = write.clone();
            write.journal.resize(length, 0x1d);
            expect_kept(&write, 10);
        }
    }
}

/// The same is left wherever in memory the buffers start.
#[test]
fn any_alignment() {
    let mut random = Random::new(0x616c_6967);
    let (list, asked) = journalled(4, 3, &mut random);
    let mut due = asked.clone();
    assert_eq!(due.both(), Answer::ACCEPTED);
    let mut space = vec![0; 8_192];
    for shift in 0..64 {
        let (first, rest) = space.split_at_mut(128);
        let (second, rest) = rest.split_at_mut(256);
        let (third, fourth) = rest.split_at_mut(1_024);
        let anchor = &mut first[shift..][..40];
        let raised = &mut second[2 * shift + 1..][..40];
        let journal = &mut third[3 * shift..][..journals::bytes(4)];
        let card = &mut fourth[5 * shift + 3..][..asked.card.len()];
        anchor.copy_from_slice(&asked.anchor);
        card.copy_from_slice(&asked.card);
        let (block, mut ranges) = (&asked.block, [0; 64]);
        let answer = pat::write_journalled(anchor, raised, card, 3, block, &mut ranges, journal);
        assert_eq!(answer, 0);
        assert!(
            anchor == due.anchor && raised == due.raised,
            "shift {shift}"
        );
        assert!(journal == due.journal && card == due.card, "shift {shift}");
        card.copy_from_slice(&asked.card);
        assert_eq!(pat::recover(anchor, card, journal), 0);
        assert!(card == list.card, "shift {shift}");
    }
}
