//! What is compared: the columns of the table and what a competitor can do.

use crate::clock::stopwatch;
use crate::plain::Plain;
use std::fmt;
use std::hint::black_box;
use std::time::Duration;

/// The names of rows.
pub const PROVED: &str = "proved";
pub const REFERENCE: &str = "`reference/`, byte by byte";
pub const TABLE: &str = "plain Rust with the same kind of table";
pub const WITH: &str = "Nettle with AES instructions";
pub const WITHOUT: &str = "Nettle without AES instructions";
pub const OPENSSL: &str = "OpenSSL, EVP_MAC";

/// The key of every competitor.
pub const KEY: [u8; 16] = *b"key of one depot";

/// Room for the longest message that is compared.
const ROOM: usize = 200;

/// One thing that is timed: a block, or a tag of a message of that length.
#[derive(Clone, Copy, PartialEq)]
pub enum Column {
    Block,
    Tag(usize),
}

/// The columns of the table.
pub const COLUMNS: [Column; 3] = [Column::Block, Column::Tag(17), Column::Tag(73)];

impl fmt::Display for Column {
    /// The heading of the column.
    fn fmt(&self, out: &mut fmt::Formatter) -> fmt::Result {
        match self {
            Column::Block => out.pad("block"),
            Column::Tag(length) => out.pad(&format!("tag of {length} bytes")),
        }
    }
}

/// The work of a competitor, under the key it was made with.
pub trait Chains {
    /// Encrypts the block that many times, one after the other.
    fn encrypt_chain(&mut self, block: &mut [u8; 16], count: u64);

    /// That many times, puts the tag of the message in place of its first 16 bytes.
    fn tag_chain(&mut self, message: &mut [u8], count: u64);
}

/// A library's CMAC with its context.
pub trait Mac {
    /// Makes the context ready under a key of 16 bytes.
    unsafe fn set_key(&mut self, key: *const u8);

    /// Writes the tag of a message under the key that was set; the two may lie at one place.
    unsafe fn tag(&mut self, message: *const u8, length: usize, tag: *mut u8);
}

/// Runs the work of one column at the start of a buffer.
fn run(chains: &mut dyn Chains, column: Column, buffer: &mut [u8; ROOM], count: u64) {
    match column {
        Column::Block => {
            let block = buffer.first_chunk_mut().expect("room for a block");
            chains.encrypt_chain(block, count);
        }
        Column::Tag(length) => chains.tag_chain(&mut buffer[..length], count),
    }
}

/// Compares a competitor with the reference, on blocks and on messages of several lengths.
pub fn compare(chains: &mut dyn Chains) -> Result<(), String> {
    let tags = [16, 17, 31, 32, 33, 73, 128, ROOM].map(Column::Tag);
    let mut reference = Plain::new(&KEY);
    for column in [Column::Block].into_iter().chain(tags) {
        for count in [0, 1, 2, 300, 3_000] {
            let start: [u8; ROOM] = std::array::from_fn(|i| (i * i + 3 * i) as u8);
            let (mut found, mut expected) = (start, start);
            run(chains, column, &mut found, count);
            run(&mut reference, column, &mut expected, count);
            if found != expected {
                return Err(format!(
                    "{column}, {count} times: {:02x?}, the reference {:02x?}",
                    &found[..16],
                    &expected[..16]
                ));
            }
        }
    }
    Ok(())
}

/// A row of a table: something that times its own work.
pub trait Subject {
    /// How long the work at that place of the table's list takes, that many times.
    fn measure(&mut self, place: usize, count: u64) -> Duration;
}

/// The rows of a table by name.
pub type Competitors = Vec<(&'static str, Box<dyn Subject>)>;

/// A competitor in this process.
pub struct Local {
    chains: Box<dyn Chains>,
    buffer: [u8; ROOM],
}

impl Local {
    /// Takes a competitor that agrees with the reference.
    pub fn new(mut chains: Box<dyn Chains>) -> Result<Self, String> {
        compare(chains.as_mut())?;
        Ok(Local {
            chains,
            buffer: [0x31; ROOM],
        })
    }
}

/// A competitor's blocks alone, whatever the place.
pub struct Blocks(pub Local);

impl Subject for Blocks {
    fn measure(&mut self, _: usize, count: u64) -> Duration {
        let block = COLUMNS.iter().position(|&column| column == Column::Block);
        self.0.measure(block.expect("a column is the block"), count)
    }
}

impl Subject for Local {
    /// Times the work of a column here.
    fn measure(&mut self, place: usize, count: u64) -> Duration {
        let Local { chains, buffer } = self;
        let column = COLUMNS[place];
        let taken = stopwatch(count, |count| run(chains.as_mut(), column, buffer, count));
        black_box(&buffer);
        taken
    }
}
