//! Times the proved code against other versions, prints tables in Markdown, and draws a plot.

mod calls;
mod chains;
mod child;
mod clock;
mod library;
mod nettle;
mod openssl;
mod plain;
mod proved;
mod report;
mod subject;
mod table;
mod timing;

use std::path::Path;
use std::process::ExitCode;

/// The argument before the name of the file that gets the plot.
const PLOT: &str = "--plot";

/// Prints everything; the plot goes to the file, if one is named.
fn run(plot: Option<&str>) -> Result<(), String> {
    std::env::remove_var(child::VARIABLE);
    eprintln!("Measuring takes about four minutes.");
    let (mut rows, mut results) = (chains::measure()?, calls::measure()?);
    let splits = calls::split::measure()?;
    let journalled = calls::journalled::measure()?;
    let pairs = calls::before::measure()?;
    let pace = clock::best_pace();
    let figures = rows.iter_mut().flat_map(|row| &mut row.figures);
    figures.for_each(|figure| figure.scale(pace));
    results.scale(pace);
    println!(
        "Times are in nanoseconds: the minimum over many short repetitions, taken in turn and"
    );
    println!("brought to the highest speed of the CPU's clock that was seen. In brackets: the");
    println!("multiple of the proved code's time.\n");
    chains::print(&rows);
    calls::print(&results, plot.map(Path::new))?;
    calls::split::print(&splits, pace);
    calls::journalled::print(&journalled, pace);
    calls::before::print(&pairs, pace);
    Ok(())
}

/// The child: Nettle without AES-NI, for one of the tables.
fn serve(table: &str) -> Result<(), String> {
    match table {
        chains::NAME => child::serve(chains::nettle()?),
        calls::NAME => child::serve(calls::nettle()?),
        other => Err(format!("no table: {other}")),
    }
}

/// Runs the benchmark, or the child it starts.
fn main() -> ExitCode {
    let arguments: Vec<String> = std::env::args().skip(1).collect();
    let arguments: Vec<&str> = arguments.iter().map(String::as_str).collect();
    let result = match arguments[..] {
        [] => run(None),
        [PLOT, path] => run(Some(path)),
        [child::ARGUMENT, table] => serve(table),
        _ => Err(format!("usage: bench [{PLOT} FILE]")),
    };
    match result {
        Ok(()) => ExitCode::SUCCESS,
        Err(reason) => {
            eprintln!("{reason}");
            ExitCode::FAILURE
        }
    }
}
