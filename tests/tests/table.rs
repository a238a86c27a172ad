//! The substitution table of the archive.

use reference::aes::substitution_table;
use tests::proved;

/// All 256 entries are those of the reference.
#[test]
fn whole_table() {
    let proved = proved::table();
    let reference = substitution_table();
    for byte in 0..256 {
        assert_eq!(
            proved[byte], reference[byte],
            "S({byte:02x}): proved {:02x}, reference {:02x}",
            proved[byte], reference[byte]
        );
    }
}
