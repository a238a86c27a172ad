//! The calls of the round store, at several depths, on several stores.

pub mod before;
mod card;
mod instructions;
pub mod journalled;
mod merkle;
mod places;
mod plot;
mod results;
mod sha256;
pub mod split;
mod store;
mod tables;
mod targets;
mod tree;

use crate::child::Child;
use crate::subject::{Blocks, Competitors, Local, Mac, Subject, KEY};
use crate::subject::{OPENSSL, PROVED, REFERENCE, WITH, WITHOUT};
use crate::timing::{race, Span};
use crate::{nettle, openssl};
use card::{Calls, Proved, Reference};
use instructions::Instructions;
use results::{Results, Times};
use std::fmt;
use std::path::Path;
use std::rc::Rc;
use std::time::Duration;
use store::Stores;

/// What the child is asked for.
pub const NAME: &str = "calls";

/// The row that is no tree of tags.
pub const MERKLE: &str = "SHA-256 Merkle tree";

/// What gives the limit.
pub const INSTRUCTIONS: &str = "AES instructions";

/// The depths of the tables.
pub const DEPTHS: [u32; 3] = [4, 10, 16];

/// Reads and writes are timed at each depth up to this, for the plot.
pub const DEEPEST: u32 = 16;

/// What is timed.
#[derive(Clone, Copy, Debug, PartialEq)]
pub enum Call {
    Read,
    Write,
    Check,
    Format,
    Wipe,
}

impl fmt::Display for Call {
    /// The call's name.
    fn fmt(&self, out: &mut fmt::Formatter) -> fmt::Result {
        out.pad(match self {
            Call::Read => "read",
            Call::Write => "write",
            Call::Check => "check",
            Call::Format => "format",
            Call::Wipe => "wipe",
        })
    }
}

/// A call at a depth.
#[derive(Clone, Copy, Debug, PartialEq)]
pub struct Work {
    pub call: Call,
    pub depth: u32,
}

impl Work {
    /// How often the definition applies AES: once for the subkeys, twice for the 17 bytes of an
    /// inner node and five times for the 73 of a leaf.
    pub fn aes_calls(self) -> u64 {
        let above = u64::from(self.depth) - 1;
        let leaves = 1 << self.depth;
        match self.call {
            Call::Read => 1 + 2 * above + 5,
            Call::Write => 1 + (2 * 2 * above + 5) + (2 * 2 * above + 2 * 5),
            Call::Check | Call::Format | Call::Wipe => 1 + 2 * (leaves - 2) + 5 * leaves,
        }
    }
}

/// Works that are timed together.
struct Group {
    works: Vec<Work>,
    span: Span,
}

impl Group {
    /// The calls at the depths.
    fn new<const N: usize>(
        calls: [Call; N],
        depths: impl Iterator<Item = u32>,
        span: Span,
    ) -> Self {
        let at = |depth| calls.map(|call| Work { call, depth });
        let works = depths.flat_map(at).collect();
        Group { works, span }
    }
}

/// All groups. Calls that take long are apart, so that they do not hold up the others, and have
/// long repetitions beside them: what changes the clock's speed meanwhile then meets all alike.
fn groups() -> [Group; 3] {
    let [low, middle, high] = DEPTHS;
    let whole = [Call::Check, Call::Format, Call::Wipe];
    let long = Span {
        repetition: Duration::from_millis(15),
        all: Duration::from_secs(45),
    };
    [
        Group::new([Call::Read, Call::Write], 1..=DEEPEST, Span::short(45)),
        Group::new(whole, [low, middle].into_iter(), Span::short(30)),
        Group::new(whole, [high].into_iter(), long),
    ]
}

/// The works of all groups; a place is one in this list.
fn works() -> Vec<Work> {
    groups().into_iter().flat_map(|group| group.works).collect()
}

/// The tree in C over a library's CMAC.
fn over(cmac: impl Mac + 'static, reference: &Stores) -> Result<Box<dyn Subject>, String> {
    cards(tree::Tree::new(cmac), reference)
}

/// Cards under calls that leave the same bytes as the reference.
fn cards(calls: impl Calls + 'static, reference: &Stores) -> Result<Box<dyn Subject>, String> {
    let stores = Stores::of_cards(Rc::new(calls))?;
    stores.compare(reference)?;
    Ok(Box::new(stores))
}

/// The tree over Nettle alone, for the child.
pub fn nettle() -> Result<Box<dyn Subject>, String> {
    let reference = Stores::of_cards(Rc::new(Reference))?;
    over(nettle::Cmac::load()?, &reference)
}

/// Collects the stores; a library that is missing is said and left out.
fn competitors() -> Result<Competitors, String> {
    let reference = Stores::of_cards(Rc::new(Reference))?;
    let mut all = Competitors::new();
    all.push((PROVED, cards(Proved, &reference)?));
    match nettle::Cmac::load() {
        Ok(cmac) => {
            all.push((WITHOUT, Box::new(Child::start(NAME)?)));
            all.push((WITH, over(cmac, &reference)?));
        }
        Err(reason) => println!("The tree over Nettle is not measured: {reason}\n"),
    }
    match openssl::Cmac::load() {
        Ok(cmac) => all.push((OPENSSL, over(cmac, &reference)?)),
        Err(reason) => println!("The tree over OpenSSL is not measured: {reason}\n"),
    }
    all.push((MERKLE, Box::new(merkle::stores()?)));
    all.push((REFERENCE, Box::new(reference)));
    Ok(all)
}

/// What one block costs with AES instructions, timed in turn with the calls.
fn yardsticks() -> Result<Competitors, String> {
    let mut all = Competitors::new();
    if let Some(instructions) = Instructions::find() {
        all.push((INSTRUCTIONS, Box::new(instructions)));
    }
    if let Ok(openssl) = openssl::OpenSsl::load(&KEY) {
        all.push((OPENSSL, Box::new(Blocks(Local::new(Box::new(openssl))?))));
    }
    Ok(all)
}

/// Times one group and adds what was found.
fn time(group: &Group, all: &mut Competitors, blocks: &mut Competitors, found: &mut Times) {
    let (rows, first) = (all.len(), found.places());
    let timed = rows * group.works.len();
    let figures = race(timed + blocks.len(), group.span, |work, count| {
        let (subject, place) = match work.checked_sub(timed) {
            Some(block) => (&mut blocks[block].1, 0),
            None => (&mut all[work % rows].1, first + work / rows),
        };
        subject.measure(place, count)
    });
    let each: Vec<f64> = figures.iter().map(|figure| figure.each).collect();
    found.add(rows, &each[..timed], &each[timed..]);
}

/// The names of rows.
fn names(all: &Competitors) -> Vec<&'static str> {
    all.iter().map(|(name, _)| *name).collect()
}

/// Times all.
pub fn measure() -> Result<Results, String> {
    let (mut all, mut blocks) = (competitors()?, yardsticks()?);
    let mut found = Times::default();
    for group in groups() {
        time(&group, &mut all, &mut blocks, &mut found);
    }
    Ok(Results::new(names(&all), names(&blocks), works(), found))
}

/// Prints tables and targets, and draws the plot if a file is named.
pub fn print(results: &Results, path: Option<&Path>) -> Result<(), String> {
    println!("## The calls\n");
    tables::print_all(results);
    targets::print_all(results);
    match path {
        Some(path) => plot::write(results, path),
        None => Ok(()),
    }
}
