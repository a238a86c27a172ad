//! The proved code and the reference against every row of the data files.

use reference::aes::Aes128;
use reference::cmac::Cmac;
use tests::proved;
use tests::support::{rows, same};

const BLOCK_ROWS: usize = 327;
const TAG_ROWS: usize = 113;

/// Every row of the blocks.
#[test]
fn blocks() {
    let rows = rows("aes128.txt");
    assert_eq!(rows.len(), BLOCK_ROWS);
    for row in &rows {
        let block: [u8; 16] = row.input[..].try_into().expect("a block of 16 bytes");
        let expected = ("row", &row.output[..]);
        let reference = Aes128::new(&row.key).encrypt(&block);
        same(
            "block",
            &row.key,
            &block,
            ("reference", &reference),
            expected,
        );
        let proved = proved::encrypt(&row.key, &block);
        same("block", &row.key, &block, ("proved", &proved), expected);
    }
}

/// Every row of the tags.
#[test]
fn tags() {
    let rows = rows("cmac.txt");
    assert_eq!(rows.len(), TAG_ROWS);
    for row in &rows {
        let expected = ("row", &row.output[..]);
        let reference = Cmac::new(&row.key).tag(&row.input);
        same(
            "tag",
            &row.key,
            &row.input,
            ("reference", &reference),
            expected,
        );
        let proved = proved::tag(&row.key, &row.input);
        same("tag", &row.key, &row.input, ("proved", &proved), expected);
    }
}
