//! The targets of the calls.

use super::results::Results;
use super::{Call, DEEPEST, DEPTHS, INSTRUCTIONS};
use crate::subject::{OPENSSL, WITHOUT};

/// The calls that have targets.
const CALLS: [Call; 2] = [Call::Read, Call::Write];

/// The most that a call may take, as a multiple of the limit.
const LIMIT_TARGET: f64 = 4.5;

/// The most that a wipe may take, as a multiple of a format.
const WIPE_TARGET: f64 = 1.05;

/// Whether a target is met, and where it is not.
fn verdict(met: [bool; DEPTHS.len()]) -> String {
    let missed = DEPTHS.iter().zip(met).filter(|(_, met)| !met);
    let missed: Vec<String> = missed.map(|(depth, _)| depth.to_string()).collect();
    match missed.len() {
        0 => "reached".to_string(),
        all if all == DEPTHS.len() => "not reached".to_string(),
        _ => format!("not reached at depth {}", missed.join(" and ")),
    }
}

/// Prints one target: at each depth of the tables the proved code's time as a multiple of
/// another, which has to be less than `most`; and at which depth of the plot it is largest.
fn print_target(
    results: &Results,
    text: &str,
    most: f64,
    call: Call,
    other: impl Fn(u32) -> Option<f64>,
) {
    let ratio = |depth| Some((results.proved(call, depth) / other(depth)?, depth));
    let all: Option<Vec<(f64, u32)>> = (1..=DEEPEST).map(ratio).collect();
    let Some(all) = all else {
        println!("- {call} {text}: not measured");
        return;
    };
    let ratios = DEPTHS.map(|depth| all[depth as usize - 1].0);
    let shown: Vec<String> = ratios.iter().map(|ratio| format!("{ratio:.2}")).collect();
    let worst = all.iter().max_by(|one, other| one.0.total_cmp(&other.0));
    let (worst, depth) = worst.expect("there are depths");
    println!(
        "- {call} {text}: {} ({}; of depths 1 to {DEEPEST} the most {worst:.2}, at {depth})",
        verdict(ratios.map(|ratio| ratio < most)),
        shown.join(", ")
    );
}

/// Prints one target of a call that is set against others of the library: the multiples at the depths of the tables, and where
/// of depths 1 to 16 it is largest.
pub fn print_most(text: &str, most: f64, ratios: &[f64]) {
    let shown = DEPTHS.map(|depth| format!("{:.3}", ratios[depth as usize - 1]));
    let all = ratios.iter().zip(1..);
    let worst = all.max_by(|one, other| one.0.total_cmp(other.0));
    let (worst, depth) = worst.expect("there are depths");
    let verdict = match *worst <= most {
        true => "reached",
        false => "not reached",
    };
    println!(
        "- {text}: {verdict} ({}; of depths 1 to {DEEPEST} the most {worst:.3}, at {depth})\n",
        shown.join(", ")
    );
}

/// Prints that a wipe costs what a format costs, at the depths of the tables.
fn print_wipe_target(results: &Results) {
    let ratios =
        DEPTHS.map(|depth| results.proved(Call::Wipe, depth) / results.proved(Call::Format, depth));
    let shown = ratios.map(|ratio| format!("{ratio:.3}"));
    println!(
        "- wipe within {:.0} % of format: {} ({})",
        100.0 * (WIPE_TARGET - 1.0),
        verdict(ratios.map(|ratio| ratio < WIPE_TARGET)),
        shown.join(", ")
    );
}

/// Prints every target.
pub fn print_all(results: &Results) {
    let [low, middle, high] = DEPTHS;
    println!(
        "Targets (in brackets the proved code's time as a multiple of the other, at depths {low},"
    );
    println!("{middle} and {high}):\n");
    for (name, text) in [
        (
            OPENSSL,
            "ahead of the tree over OpenSSL with AES instructions",
        ),
        (
            WITHOUT,
            "ahead of the tree over Nettle without AES instructions",
        ),
    ] {
        for call in CALLS {
            print_target(results, text, 1.0, call, |depth| {
                results.time(name, call, depth)
            });
        }
    }
    let text = format!("within {LIMIT_TARGET} of the limit");
    for call in CALLS {
        print_target(results, &text, LIMIT_TARGET, call, |depth| {
            results.limit(call, depth)
        });
    }
    print_wipe_target(results);
    if let Some((least, most)) = results.block(OPENSSL) {
        println!("\nThe limit's block is OpenSSL's with AES instructions, one call of EVP_EncryptUpdate in a chain: {least:.2} to {most:.2} ns in turn with the calls.");
    }
    if let Some((least, most)) = results.block(INSTRUCTIONS) {
        println!("The bare instructions take {least:.2} to {most:.2} ns; as multiples of that, at depths {low}, {middle} and {high}:\n");
        for call in CALLS {
            let shown = DEPTHS.map(|depth| {
                let bare = results.at_instructions(call, depth);
                bare.map_or("-".to_string(), |bare| {
                    format!("{:.2}", results.proved(call, depth) / bare)
                })
            });
            println!("- {call}: {}", shown.join(", "));
        }
    }
    println!();
}
