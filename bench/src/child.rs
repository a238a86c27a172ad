//! Nettle without AES-NI, in a second process.
//!
//! Nettle chooses its code when it is loaded, so this program starts itself again with a
//! variable that hides the CPU's features. The child runs one repetition for each line it
//! reads, while this process waits, and answers with the nanoseconds.

use crate::subject::Subject;
use std::io::{BufRead, BufReader, Write};
use std::process::{ChildStdin, ChildStdout, Command, Stdio};
use std::time::Duration;

/// The argument that makes a process the child; the name of a table follows.
pub const ARGUMENT: &str = "nettle-without-aes-ni";

/// Nettle's variable that replaces what it finds out about the CPU, and a CPU without features.
pub const VARIABLE: &str = "NETTLE_FAT_OVERRIDE";
const NO_FEATURES: &str = "vendor:amd";

/// The child's first line when it is ready to run.
const READY: &str = "ready";

/// The child, as a row of a table.
pub struct Child {
    requests: ChildStdin,
    answers: BufReader<ChildStdout>,
}

/// Reads one line from the child.
fn line(answers: &mut impl BufRead) -> Result<String, String> {
    let mut line = String::new();
    match answers.read_line(&mut line) {
        Ok(read) if read > 0 => Ok(line.trim_end().to_string()),
        _ => Err("the child with Nettle stopped".to_string()),
    }
}

impl Child {
    /// Starts the child for a table and waits until it agrees with the reference.
    pub fn start(table: &str) -> Result<Self, String> {
        let told = |error: std::io::Error| format!("the child with Nettle: {error}");
        let mut child = Command::new(std::env::current_exe().map_err(told)?)
            .args([ARGUMENT, table])
            .env(VARIABLE, NO_FEATURES)
            .stdin(Stdio::piped())
            .stdout(Stdio::piped())
            .spawn()
            .map_err(told)?;
        let requests = child.stdin.take().expect("a pipe was asked for");
        let answers = child.stdout.take().expect("a pipe was asked for");
        let mut answers = BufReader::new(answers);
        match line(&mut answers)?.as_str() {
            READY => Ok(Child { requests, answers }),
            other => Err(other.to_string()),
        }
    }
}

impl Subject for Child {
    /// Has the child time the work.
    fn measure(&mut self, place: usize, count: u64) -> Duration {
        writeln!(self.requests, "{place} {count}").expect("the child reads");
        let answer = line(&mut self.answers).expect("the child answers");
        Duration::from_nanos(answer.parse().expect("nanoseconds from the child"))
    }
}

/// Runs one request of the parent: a place in the table's list and a count.
fn answer(nettle: &mut dyn Subject, request: &str) -> Option<u128> {
    let (place, count) = request.split_once(' ')?;
    let (place, count) = (place.parse().ok()?, count.parse().ok()?);
    Some(nettle.measure(place, count).as_nanos())
}

/// The child: answers each line until there are no more.
pub fn serve(mut nettle: Box<dyn Subject>) -> Result<(), String> {
    println!("{READY}");
    for request in std::io::stdin().lines() {
        let request = request.map_err(|error| error.to_string())?;
        let nanoseconds = answer(nettle.as_mut(), &request).ok_or("a request of two numbers")?;
        println!("{nanoseconds}");
    }
    Ok(())
}
