//! The proved code and the reference on random keys, blocks and messages.

use reference::aes::{expand, Aes128};
use reference::cmac::Cmac;
use tests::proved;
use tests::random::Random;
use tests::support::agree;

const CASES: usize = 40_000;
const LENGTHS: usize = 301;
const LONGEST: usize = 5_000;

/// Compares the tag of one message.
fn compare_tag(key: &[u8; 16], message: &[u8]) {
    let reference = Cmac::new(key).tag(message);
    agree("tag", key, message, &proved::tag(key, message), &reference);
}

/// Round keys, a block and the subkeys under that many random keys.
#[test]
fn keys_and_blocks() {
    let mut random = Random::new(0x726f756e64);
    for _ in 0..CASES {
        let (key, block) = (random.block(), random.block());
        agree(
            "round keys",
            &key,
            &[],
            &proved::expand(&key),
            &expand(&key),
        );
        let encrypted = Aes128::new(&key).encrypt(&block);
        agree(
            "block",
            &key,
            &block,
            &proved::encrypt(&key, &block),
            &encrypted,
        );
        let (first, second) = Cmac::new(&key).subkeys();
        let subkeys = [first, second].concat();
        agree("subkeys", &key, &[], &proved::subkeys(&key), &subkeys);
    }
}

/// Tags of messages of every length up to 300, each length under many random keys.
#[test]
fn tags() {
    let mut random = Random::new(0x746167);
    let mut hits = [0; LENGTHS];
    for case in 0..CASES {
        let length = case % LENGTHS;
        let offset = random.below(16);
        let buffer = random.bytes(offset + length);
        compare_tag(&random.block(), &buffer[offset..]);
        hits[length] += 1;
    }
    assert!(hits.iter().all(|&count| count >= 100), "every length often");
}

/// Tags of longer messages, some at lengths where a counter could turn over.
#[test]
fn long_tags() {
    let mut random = Random::new(0x6c6f6e67);
    let mut lengths = vec![LONGEST, 4_095, 4_096, 4_097, 65_535, 65_536, 65_537];
    lengths.extend((0..1_000).map(|_| LENGTHS + random.below(LONGEST - LENGTHS)));
    for length in lengths {
        let message = random.bytes(length);
        compare_tag(&random.block(), &message);
    }
}
