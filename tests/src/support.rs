//! What the tests share: bytes in hex, the rows of the data files, comparisons that explain.

use std::path::Path;

/// The bytes in hex; a dash for none.
pub fn hex(bytes: &[u8]) -> String {
    if bytes.is_empty() {
        return "-".into();
    }
    bytes.iter().map(|byte| format!("{byte:02x}")).collect()
}

/// The bytes of a field of a data file.
fn unhex(field: &str) -> Vec<u8> {
    if field == "-" {
        return Vec::new();
    }
    let digits = |at: usize| field.get(at..at + 2).expect("two digits for each byte");
    (0..field.len())
        .step_by(2)
        .map(|at| u8::from_str_radix(digits(at), 16).expect("digits in hex"))
        .collect()
}

/// A row of a data file: the key, what goes in, what comes out.
pub struct Row {
    pub key: [u8; 16],
    pub input: Vec<u8>,
    pub output: [u8; 16],
}

/// Reads the row before the remark of a line, if there is one.
fn row(line: &str) -> Option<Row> {
    let fields: Vec<&str> = line.split('#').next()?.split_whitespace().collect();
    match fields[..] {
        [] => None,
        [key, input, output] => Some(Row {
            key: unhex(key).try_into().expect("a key of 16 bytes"),
            input: unhex(input),
            output: unhex(output).try_into().expect("a result of 16 bytes"),
        }),
        _ => panic!("a row has three fields: {line}"),
    }
}

/// All rows of a file in the data directory.
pub fn rows(name: &str) -> Vec<Row> {
    let path = Path::new(env!("CARGO_MANIFEST_DIR"))
        .join("data")
        .join(name);
    let text = std::fs::read_to_string(&path).expect("a data file");
    text.lines().filter_map(row).collect()
}

/// Stops the test when two results differ, and shows what they were made of.
#[track_caller]
pub fn same(what: &str, key: &[u8], message: &[u8], left: (&str, &[u8]), right: (&str, &[u8])) {
    assert!(
        left.1 == right.1,
        "{what} differs\n key {}\n message ({} bytes) {}\n {} {}\n {} {}",
        hex(key),
        message.len(),
        hex(message),
        left.0,
        hex(left.1),
        right.0,
        hex(right.1)
    );
}

/// Stops the test when the proved code and the reference differ.
#[track_caller]
pub fn agree(what: &str, key: &[u8], message: &[u8], proved: &[u8], reference: &[u8]) {
    same(
        what,
        key,
        message,
        ("proved", proved),
        ("reference", reference),
    );
}
