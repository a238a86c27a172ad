//! A stack that lies elsewhere in each repetition.

use std::hint::black_box;
use std::time::Duration;

/// Where a call's frame lies in its page changes its time by up to a tenth, and not alike for two that are compared. So each
/// repetition has its stack at another of these places, which go once around a page; a prime, so that each work comes to each.
const PLACES: usize = 17;
const APART: usize = 256;

/// Which place is next.
#[derive(Default)]
pub struct Places {
    repetition: usize,
}

impl Places {
    /// Runs the work at the next place.
    pub fn run(&mut self, mut work: impl FnMut() -> Duration) -> Duration {
        self.repetition += 1;
        further_down(self.repetition % PLACES, &mut work)
    }
}

/// Runs the work with the stack so many places further down.
fn further_down(places: usize, run: &mut dyn FnMut() -> Duration) -> Duration {
    let room = black_box([0_u8; APART]);
    let taken = match places {
        0 => run(),
        _ => further_down(places - 1, run),
    };
    black_box(&room);
    taken
}
