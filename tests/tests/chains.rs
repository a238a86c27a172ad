//! The chains of the archive, which the benchmark times, against the reference.

use reference::aes::Aes128;
use reference::cmac::Cmac;
use tests::proved;
use tests::random::Random;
use tests::support::agree;

const COUNTS: [u64; 9] = [0, 1, 2, 3, 10, 63, 64, 65, 1_000];

/// A block encrypted again and again; not at all is among the counts.
#[test]
fn blocks() {
    let mut random = Random::new(0x636861696e);
    for count in COUNTS {
        for _ in 0..20 {
            let (key, start) = (random.block(), random.block());
            let cipher = Aes128::new(&key);
            let end = (0..count).fold(start, |block, _| cipher.encrypt(&block));
            let proved = proved::encrypt_chain(&key, &start, count);
            agree(&format!("chain of {count}"), &key, &start, &proved, &end);
        }
    }
}

/// Tags put in place of the start of messages of 16 bytes and more.
#[test]
fn tags() {
    let mut random = Random::new(0x74616773);
    for count in COUNTS {
        for length in 16..=100 {
            let (key, start) = (random.block(), random.bytes(length));
            let cmac = Cmac::new(&key);
            let mut message = start.clone();
            for _ in 0..count {
                let tag = cmac.tag(&message);
                message[..16].copy_from_slice(&tag);
            }
            let proved = proved::tag_chain(&key, &start, count);
            agree(
                &format!("chain of {count}"),
                &key,
                &start,
                &proved,
                &message,
            );
        }
    }
}

/// One long chain of blocks.
#[test]
fn long_chain() {
    let (key, start) = ([7; 16], [9; 16]);
    let cipher = Aes128::new(&key);
    let end = (0..70_000).fold(start, |block, _| cipher.encrypt(&block));
    let proved = proved::encrypt_chain(&key, &start, 70_000);
    agree("chain of 70000", &key, &start, &proved, &end);
}
