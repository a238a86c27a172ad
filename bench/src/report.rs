//! The table of blocks and tags and its targets.

use crate::subject::{COLUMNS, PROVED, TABLE, WITHOUT};
use crate::timing::Figure;

/// The most that a tag may take, as a share of Nettle's without AES-NI.
const TAG_TARGET: f64 = 0.9;

/// The most that a block may take, as a share of Rust's with the table.
const BLOCK_TARGET: f64 = 1.2;

/// A row of the table: a name and a figure for each column.
pub struct Row {
    pub name: &'static str,
    pub figures: Vec<Figure>,
}

impl Row {
    /// Takes a row's figures.
    pub fn new(name: &'static str, figures: &[Figure]) -> Self {
        let figures = figures.to_vec();
        Row { name, figures }
    }
}

/// The figures of a row that was measured.
fn find<'a>(rows: &'a [Row], name: &str) -> Option<&'a [Figure]> {
    Some(&rows.iter().find(|row| row.name == name)?.figures)
}

/// Whether a target is met.
fn verdict(reached: bool) -> &'static str {
    if reached {
        "reached"
    } else {
        "not reached"
    }
}

/// Prints a line of a table in Markdown.
pub fn print_line(cells: impl IntoIterator<Item = String>) {
    let cells: Vec<String> = cells.into_iter().collect();
    println!("| {} |", cells.join(" | "));
}

/// Prints the head of a table in Markdown.
pub fn print_head(cells: impl IntoIterator<Item = String>) {
    let cells: Vec<String> = cells.into_iter().collect();
    println!("| {} |", cells.join(" | "));
    println!("|{}", "---|".repeat(cells.len()));
}

/// Prints nanoseconds and the multiple of the proved code's, a line for each row.
fn print_table(proved: &[Figure], rows: &[Row]) {
    print_head(
        [String::new()]
            .into_iter()
            .chain(COLUMNS.map(|column| column.to_string())),
    );
    for row in rows {
        let pairs = row.figures.iter().zip(proved);
        let cells =
            pairs.map(|(other, ours)| format!("{:.1} ({:.2})", other.each, other.each / ours.each));
        print_line([row.name.to_string()].into_iter().chain(cells));
    }
    println!();
}

/// Prints what the proved code does before its work, where that is the largest part of it.
fn print_preparation(proved: &[Figure]) {
    let largest = proved.iter().max_by(|a, b| a.share.total_cmp(&b.share));
    let Some(Figure {
        preparation, share, ..
    }) = largest
    else {
        return;
    };
    println!(
        "A repetition of the proved code first makes table and context: at most {:.2} % of it ({:.1} us).\n",
        100.0 * share,
        preparation / 1e3
    );
}

/// Prints one target: the ratios, and whether each is small enough.
fn print_target(text: &str, target: f64, ratios: Option<Vec<f64>>) {
    let Some(ratios) = ratios else {
        println!("- {text}: not measured");
        return;
    };
    let reached = ratios.iter().all(|&ratio| ratio <= target);
    let shown: Vec<String> = ratios.iter().map(|ratio| format!("{ratio:.3}")).collect();
    println!("- {text}: {} ({})", verdict(reached), shown.join(", "));
}

/// Prints the two targets; the block is the first column and the tags are the others.
fn print_targets(proved: &[Figure], nettle: Option<&[Figure]>, table: &[Figure]) {
    let ratio = |(ours, other): (&Figure, &Figure)| ours.each / other.each;
    let tags = nettle.map(|nettle| proved.iter().zip(nettle).skip(1).map(ratio).collect());
    let text = format!("tags at most {TAG_TARGET} of Nettle's without AES instructions");
    print_target(&text, TAG_TARGET, tags);
    let block = proved.iter().zip(table).take(1).map(ratio).collect();
    let text = format!("block within {BLOCK_TARGET} of plain Rust with the table");
    print_target(&text, BLOCK_TARGET, Some(block));
    println!();
}

/// Prints the table, and what is to be said of it.
pub fn print_all(rows: &[Row]) {
    let proved = find(rows, PROVED).expect("the proved code is always there");
    let table = find(rows, TABLE).expect("the table is always there");
    print_table(proved, rows);
    print_preparation(proved);
    print_targets(proved, find(rows, WITHOUT), table);
}
