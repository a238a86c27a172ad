//! Lengths that are not the ones wanted, and the bytes around every buffer.

use tests::guarded::Guarded;
use tests::random::Random;

/// Two fills, so that no byte written equals both.
const FILLS: [u8; 2] = [0xa5, 0x5a];

/// The length wanted and lengths that are not it; the wanted one comes first.
fn around(wanted: usize) -> [usize; 6] {
    [wanted, 0, wanted - 1, wanted + 1, 2 * wanted, wanted + 256]
}

/// Runs a call on buffers of a length, once for each fill, and expects a plain refusal.
fn refuses(what: &str, length: usize, call: impl Fn(&mut [u8]) -> u64) {
    for fill in FILLS {
        let mut buffer = Guarded::new(length, fill);
        assert_eq!(call(buffer.part()), 1, "{what}: a wrong length is refused");
        assert!(buffer.untouched(), "{what}: a refused call changes nothing");
    }
}

/// Runs a call on buffers of a length, once for each fill, and expects work inside them only.
fn works(what: &str, length: usize, call: impl Fn(&mut [u8]) -> u64) {
    for fill in FILLS {
        let mut buffer = Guarded::new(length, fill);
        assert_eq!(call(buffer.part()), 0, "{what}: the wanted lengths work");
        assert!(buffer.guards_hold(), "{what}: no byte around is written");
        assert!(!buffer.untouched(), "{what}: the result is written");
    }
}

/// Runs a call whose lengths are the wanted ones, or not.
fn check(what: &str, wanted: bool, length: usize, call: impl Fn(&mut [u8]) -> u64) {
    if wanted {
        works(what, length, call);
    } else {
        refuses(what, length, call);
    }
}

/// The table wants 256.
#[test]
fn sbox() {
    for out in around(256) {
        check(&format!("sbox {out}"), out == 256, out, bindings::sbox);
    }
}

/// A function of a key and an output: every pair of lengths but the wanted one is refused.
fn key_and_output(name: &str, wanted: usize, call: fn(&[u8], &mut [u8]) -> u64) {
    let bytes = Random::new(1).bytes(400);
    for key in around(16) {
        for out in around(wanted) {
            let what = format!("{name} {key} {out}");
            let all_wanted = [key, out] == [16, wanted];
            check(&what, all_wanted, out, |part| call(&bytes[..key], part));
        }
    }
}

/// The round keys want 16 and 176.
#[test]
fn expand() {
    key_and_output("expand", 176, bindings::expand);
}

/// The subkeys want 16 and 32.
#[test]
fn subkeys() {
    key_and_output("subkeys", 32, bindings::subkeys);
}

/// A block wants 16, 16 and 16.
#[test]
fn encrypt() {
    let bytes = Random::new(2).bytes(400);
    for key in around(16) {
        for block in around(16) {
            for out in around(16) {
                let what = format!("encrypt {key} {block} {out}");
                check(&what, [key, block, out] == [16; 3], out, |part| {
                    bindings::encrypt(&bytes[..key], &bytes[..block], part)
                });
            }
        }
    }
}

/// A tag wants 16 and 16, whatever the length of the message.
#[test]
fn tag() {
    let bytes = Random::new(3).bytes(400);
    for key in around(16) {
        for out in around(16) {
            for message in [0, 1, 15, 16, 17, 32, 300] {
                let what = format!("tag {key} {message} {out}");
                check(&what, [key, out] == [16; 2], out, |part| {
                    bindings::tag(&bytes[..key], &bytes[..message], part)
                });
            }
        }
    }
}

/// A chain of blocks wants 16 and 16.
#[test]
fn encrypt_chain() {
    let bytes = Random::new(4).bytes(400);
    for key in around(16) {
        for block in around(16) {
            for count in [0, 1, 3] {
                let what = format!("encrypt_chain {key} {block} {count}");
                let call = |part: &mut [u8]| bindings::encrypt_chain(&bytes[..key], part, count);
                match (key, block, count) {
                    (16, 16, 0) => {}
                    (16, 16, _) => works(&what, block, call),
                    _ => refuses(&what, block, call),
                }
            }
        }
    }
}

/// A chain of tags wants 16 and at least 16.
#[test]
fn tag_chain() {
    let bytes = Random::new(5).bytes(400);
    for key in around(16) {
        for message in (0..=33).chain([272]) {
            for count in [0, 1, 3] {
                let what = format!("tag_chain {key} {message} {count}");
                let call = |part: &mut [u8]| bindings::tag_chain(&bytes[..key], part, count);
                match (key, message, count) {
                    (16, 16.., 0) => {}
                    (16, 16.., _) => works(&what, message, call),
                    _ => refuses(&what, message, call),
                }
            }
        }
    }
}

/// A chain of no links answers 0 and changes nothing.
#[test]
fn empty_chains() {
    for fill in FILLS {
        let mut block = Guarded::new(16, fill);
        assert_eq!(bindings::encrypt_chain(&[1; 16], block.part(), 0), 0);
        assert!(block.untouched());
        let mut message = Guarded::new(40, fill);
        assert_eq!(bindings::tag_chain(&[1; 16], message.part(), 0), 0);
        assert!(message.untouched());
    }
}

/// The result is the same wherever in memory the buffers start.
#[test]
fn any_alignment() {
    let bytes = Random::new(6).bytes(200);
    let (key, message) = (&bytes[..16], &bytes[16..73]);
    let mut expected = [0; 16];
    assert_eq!(bindings::tag(key, message, &mut expected), 0);
    let mut space = [0; 400];
    for shift in 0..16 {
        let (first, rest) = space.split_at_mut(64);
        let (second, third) = rest.split_at_mut(128);
        let moved_key = &mut first[shift..shift + 16];
        moved_key.copy_from_slice(key);
        let moved_message = &mut second[2 * shift + 1..][..message.len()];
        moved_message.copy_from_slice(message);
        let out = &mut third[3 * shift..3 * shift + 16];
        assert_eq!(bindings::tag(moved_key, moved_message, out), 0);
        assert_eq!(out, expected, "shift {shift}");
    }
}
