//! The tables of the calls.

use super::card::card_bytes;
use super::results::Results;
use super::store::DRAWN;
use super::{merkle, Call, Work, DEEPEST, DEPTHS};
use crate::report::{print_head, print_line};
use crate::subject::{OPENSSL, PROVED, WITH, WITHOUT};

/// The calls in the order of the tables.
pub const CALLS: [Call; 5] = [
    Call::Read,
    Call::Write,
    Call::Check,
    Call::Format,
    Call::Wipe,
];

/// The row of the limit.
pub const LIMIT: &str = "limit";

/// Where the system says how large the second-level cache is.
const CACHE: &str = "/sys/devices/system/cpu/cpu0/cache/index2/size";

/// A whole number with commas.
pub fn exact(number: u64) -> String {
    let digits = number.to_string();
    let mut text = String::new();
    for (place, digit) in digits.chars().enumerate() {
        if place > 0 && (digits.len() - place).is_multiple_of(3) {
            text.push(',');
        }
        text.push(digit);
    }
    text
}

/// Nanoseconds, to four figures where they are many.
pub fn nanoseconds(time: f64) -> String {
    let scale = 10_f64.powi((time.max(1.0).log10() as i32 - 3).max(0));
    exact(((time / scale).round() * scale) as u64)
}

/// Says what is in a near cache when it is timed.
fn explain_cards() {
    let cache = std::fs::read_to_string(CACHE).unwrap_or_default();
    let kibibytes: Option<usize> = cache.trim().trim_end_matches('K').parse().ok();
    let named = match kibibytes {
        Some(size) => format!("the second-level cache ({size} KiB)"),
        None => "the second-level cache (size unknown)".to_string(),
    };
    println!("{DRAWN} block numbers and the blocks are drawn before the clock starts. Before each repetition of");
    println!(
        "reads or writes those blocks are read once; before a check, a format or a wipe the whole"
    );
    println!("card is, which is warm then where it fits into {named}:");
    for depth in DEPTHS {
        let bytes = card_bytes(depth);
        let fits = match kibibytes {
            Some(size) if bytes <= 1024 * size => "fits",
            Some(_) => "does not fit",
            None => "unknown",
        };
        println!("- depth {depth}: {} bytes, {fits}", exact(bytes as u64));
    }
    println!();
}

/// Says what the rows are.
fn explain_rows() {
    println!("Nettle and OpenSSL: the same tree in plain C over their CMAC. Each call sets the key, since");
    println!("it comes with the anchor.");
    println!(
        "SHA-256 Merkle tree (SHA-256: {}): without a key, hashes stored, the",
        merkle::whose()
    );
    println!("root trusted. A read verifies its path; a write verifies it and makes it anew; a wipe is a");
    println!("format.");
    println!(
        "Limit: the definition's AES calls, each at the cost of one of OpenSSL's blocks with AES"
    );
    println!("instructions (where OpenSSL is missing, of the bare instructions).\n");
}

/// A time and its multiple of the proved code's.
fn cell(time: Option<f64>, proved: f64) -> String {
    time.map_or("".to_string(), |time| {
        format!("{} ({:.2})", nanoseconds(time), time / proved)
    })
}

/// Prints a call's times at the three depths, a line for each row.
fn print_call(results: &Results, call: Call) {
    print_head(
        [call.to_string()]
            .into_iter()
            .chain(DEPTHS.map(|depth| format!("depth {depth}"))),
    );
    for name in &results.names {
        let at = |depth| cell(results.time(name, call, depth), results.proved(call, depth));
        print_line([name.to_string()].into_iter().chain(DEPTHS.map(at)));
    }
    if results.limit(call, DEEPEST).is_some() {
        let at = |depth| cell(results.limit(call, depth), results.proved(call, depth));
        print_line([LIMIT.to_string()].into_iter().chain(DEPTHS.map(at)));
    }
    println!();
}

/// Prints the proved code's times for each AES call of the definition, over all depths.
fn print_per_aes_call(results: &Results) {
    println!("The proved code, ns for each AES call of the definition × their number:\n");
    print_head(
        ["depth".to_string()]
            .into_iter()
            .chain(CALLS.map(|call| call.to_string())),
    );
    for depth in 1..=DEEPEST {
        let at = |call| {
            let count = Work { call, depth }.aes_calls();
            let time = results.time(PROVED, call, depth);
            time.map_or("".to_string(), |time| {
                format!("{:.1} × {}", time / count as f64, exact(count))
            })
        };
        print_line([depth.to_string()].into_iter().chain(CALLS.map(at)));
    }
    println!();
}

/// Prints how many times the limit the proved code takes.
fn print_times_limit(results: &Results) {
    if results.limit(Call::Read, DEEPEST).is_none() {
        return;
    }
    println!("The proved code as a multiple of the limit:\n");
    print_head(
        [String::new()]
            .into_iter()
            .chain(DEPTHS.map(|depth| format!("depth {depth}"))),
    );
    for call in CALLS {
        let at = |depth| {
            let limit = results.limit(call, depth);
            limit.map_or("".to_string(), |limit| {
                format!("{:.2}", results.proved(call, depth) / limit)
            })
        };
        print_line([call.to_string()].into_iter().chain(DEPTHS.map(at)));
    }
    println!();
}

/// Prints what a call costs besides its tags: at depth 1 a read makes one of a leaf, a write three.
fn print_fixed(results: &Results) {
    let fixed = |name: &str| {
        let read = results.time(name, Call::Read, 1)?;
        let write = results.time(name, Call::Write, 1)?;
        Some(format!("{name} {:.0}", read - (write - read) / 2.0))
    };
    let rows = [PROVED, WITHOUT, WITH, OPENSSL];
    let shown: Vec<String> = rows.into_iter().filter_map(fixed).collect();
    println!(
        "What a call costs besides its tags, mostly the key (at depth 1 a read makes one tag and a"
    );
    println!("write three), ns: {}.\n", shown.join("; "));
}

/// Prints all tables.
pub fn print_all(results: &Results) {
    explain_cards();
    explain_rows();
    for call in CALLS {
        print_call(results, call);
    }
    print_per_aes_call(results);
    print_times_limit(results);
    print_fixed(results);
}
