//! Cipher and CMAC: blocks and tags, one after the other under one key.

use crate::child::Child;
use crate::report::{self, Row};
use crate::subject::{Chains, Competitors, Local, Subject, COLUMNS, KEY};
use crate::subject::{OPENSSL, PROVED, REFERENCE, TABLE, WITH, WITHOUT};
use crate::timing::{race, Span};
use crate::{nettle, openssl, plain, proved, table};

/// What the child is asked for.
pub const NAME: &str = "chains";

/// How many seconds the figures may take.
const SECONDS: u64 = 15;

/// Adds a competitor of this process; one that differs from the reference ends the run.
fn add(
    all: &mut Competitors,
    name: &'static str,
    chains: impl Chains + 'static,
) -> Result<(), String> {
    let local = Local::new(Box::new(chains)).map_err(|found| format!("{name} differs: {found}"))?;
    all.push((name, Box::new(local)));
    Ok(())
}

/// Nettle alone, for the child.
pub fn nettle() -> Result<Box<dyn Subject>, String> {
    let nettle = nettle::Nettle::load(&KEY)?;
    Ok(Box::new(Local::new(Box::new(nettle))?))
}

/// Collects the competitors; a library that is missing is said and left out.
fn competitors() -> Result<Competitors, String> {
    let mut all = Competitors::new();
    add(&mut all, PROVED, proved::Proved::new(&KEY))?;
    add(&mut all, TABLE, table::Table::new(&KEY))?;
    add(&mut all, REFERENCE, plain::Plain::new(&KEY))?;
    match nettle::Nettle::load(&KEY) {
        Ok(nettle) => {
            all.push((WITHOUT, Box::new(Child::start(NAME)?)));
            add(&mut all, WITH, nettle)?;
        }
        Err(reason) => println!("Nettle is not measured: {reason}\n"),
    }
    match openssl::OpenSsl::load(&KEY) {
        Ok(openssl) => add(&mut all, OPENSSL, openssl)?,
        Err(reason) => println!("OpenSSL is not measured: {reason}\n"),
    }
    Ok(all)
}

/// Says what the figures mean.
fn explain() {
    println!("## Cipher and CMAC\n");
    println!("One block of a chain, and one tag under a context already made. OpenSSL's block is");
    println!("EVP_EncryptUpdate in ECB without padding, one call for each.\n");
    #[cfg(target_arch = "x86_64")]
    if !std::arch::is_x86_feature_detected!("aes") {
        println!("This CPU has no AES-NI: no row uses it, whatever its name says.\n");
    }
}

/// Times all.
pub fn measure() -> Result<Vec<Row>, String> {
    let mut all = competitors()?;
    let columns = COLUMNS.len();
    let figures = race(all.len() * columns, Span::short(SECONDS), |work, count| {
        let (_, subject) = &mut all[work / columns];
        subject.measure(work % columns, count)
    });
    let names = all.iter().map(|(name, _)| *name);
    Ok(names
        .zip(figures.chunks(columns))
        .map(|(name, figures)| Row::new(name, figures))
        .collect())
}

/// Prints table and targets.
pub fn print(rows: &[Row]) {
    explain();
    report::print_all(rows);
}
