//! Keys, blocks and messages with little in them: all zero, all ones, single bits.

use reference::aes::{expand, Aes128};
use reference::cmac::Cmac;
use tests::proved;
use tests::support::agree;

/// All zero, all ones, each single bit, and each single bit missing.
fn sparse() -> Vec<[u8; 16]> {
    let mut blocks = vec![0_u128, !0];
    blocks.extend((0..128).map(|bit| 1 << bit));
    blocks.extend((0..128).map(|bit| !(1 << bit)));
    blocks.into_iter().map(u128::to_be_bytes).collect()
}

/// Round keys and subkeys of each sparse key.
#[test]
fn keys() {
    let sparse = sparse();
    assert_eq!(sparse.len(), 258);
    for key in &sparse {
        agree("round keys", key, &[], &proved::expand(key), &expand(key));
        let (first, second) = Cmac::new(key).subkeys();
        let subkeys = [first, second].concat();
        agree("subkeys", key, &[], &proved::subkeys(key), &subkeys);
    }
}

/// Each sparse block under each sparse key.
#[test]
fn blocks() {
    let sparse = sparse();
    for key in &sparse {
        let cipher = Aes128::new(key);
        for block in &sparse {
            let encrypted = cipher.encrypt(block);
            agree(
                "block",
                key,
                block,
                &proved::encrypt(key, block),
                &encrypted,
            );
        }
    }
}

/// Messages of one byte repeated, among them what padding writes, under each sparse key.
#[test]
fn messages() {
    for key in &sparse() {
        let cmac = Cmac::new(key);
        for byte in [0x00, 0x01, 0x80, 0xff] {
            for length in 0..=50 {
                let message = vec![byte; length];
                let tag = cmac.tag(&message);
                agree("tag", key, &message, &proved::tag(key, &message), &tag);
            }
        }
    }
}

/// A message and the same message with its padding written out have different tags.
#[test]
fn padding_is_no_message() {
    for key in &sparse() {
        for length in (0..=50).filter(|length| length % 16 != 0) {
            let message = vec![0x5a; length];
            let mut padded = message.clone();
            padded.push(0x80);
            padded.resize(length.next_multiple_of(16), 0);
            assert_ne!(proved::tag(key, &message), proved::tag(key, &padded));
        }
    }
}
