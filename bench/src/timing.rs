//! Times several pieces of work against each other.
//!
//! Each is timed by the least of many short repetitions, and the repetitions of all are
//! taken in turn, so that a busy machine disturbs little and all alike.

use std::time::{Duration, Instant};

/// How many repetitions in a row make nothing better before the figures stand.
const STEADY: usize = 200;

/// The share of the old figure that is better, and not just as good.
const BETTER: f64 = 0.995;

/// How many repetitions settle how long the others are.
const SETTLING: usize = 40;

/// How many times longer than its preparation a repetition is made, so that the preparation
/// stays under 0.5 % even if the machine was busy while that was settled.
const PREPARATIONS: u32 = 400;

/// How long a repetition takes at least, and all of them together at the most.
#[derive(Clone, Copy)]
pub struct Span {
    pub repetition: Duration,
    pub all: Duration,
}

impl Span {
    /// The shortest repetitions that make sense.
    pub fn short(seconds: u64) -> Self {
        Span {
            repetition: Duration::from_micros(100),
            all: Duration::from_secs(seconds),
        }
    }
}

/// What was found for one piece of work.
#[derive(Clone, Copy)]
pub struct Figure {
    /// Nanoseconds for one time; as the clock's steps until they are scaled.
    pub each: f64,
    /// Nanoseconds that a repetition takes before any work is done.
    pub preparation: f64,
    /// The share of the preparation in a repetition.
    pub share: f64,
}

impl Figure {
    /// Makes nanoseconds of steps that last so long.
    pub fn scale(&mut self, pace: f64) {
        self.each *= pace;
        self.preparation *= pace;
    }
}

/// The best known of one piece of work.
struct Best {
    count: u64,
    preparation: Duration,
    repetition: Duration,
}

impl Best {
    /// A first guess: the count is doubled until it takes long enough to be seen.
    fn guess(shortest: Duration, mut measure: impl FnMut(u64) -> Duration) -> Self {
        let mut best = Best {
            count: 1,
            preparation: measure(0),
            repetition: measure(1),
        };
        while best.repetition < shortest {
            best.count *= 2;
            best.repetition = measure(best.count);
        }
        best
    }

    /// Chooses the count from what is known, and forgets the repetitions of the old one.
    fn settle(&mut self, shortest: Duration) {
        let wanted = shortest.max(self.preparation * PREPARATIONS);
        let times = wanted.as_secs_f64() / self.repetition.as_secs_f64();
        self.count = (self.count as f64 * times).ceil() as u64;
        self.repetition = Duration::MAX;
    }

    /// Takes the lesser of what is known and what is measured now; says whether it is better.
    fn improve(&mut self, mut measure: impl FnMut(u64) -> Duration) -> bool {
        self.preparation = self.preparation.min(measure(0));
        let now = measure(self.count);
        let better = now.as_secs_f64() < BETTER * self.repetition.as_secs_f64();
        self.repetition = self.repetition.min(now);
        better
    }

    /// The nanoseconds and the share.
    fn figure(&self) -> Figure {
        let nanoseconds = |duration: Duration| duration.as_secs_f64() * 1e9;
        Figure {
            each: nanoseconds(self.repetition) / self.count as f64,
            preparation: nanoseconds(self.preparation),
            share: nanoseconds(self.preparation) / nanoseconds(self.repetition),
        }
    }
}

/// Repeats all in turn: for a third of the time at least, and then until that many repetitions in
/// a row made nothing better or the time is up.
fn repeat(
    all: &mut [Best],
    steady: usize,
    longest: Duration,
    mut measure: impl FnMut(usize, u64) -> Duration,
) {
    let start = Instant::now();
    let mut idle = 0;
    while start.elapsed() < longest / 3 || (idle < steady && start.elapsed() < longest) {
        idle += 1;
        for (work, best) in all.iter_mut().enumerate() {
            if best.improve(|count| measure(work, count)) {
                idle = 0;
            }
        }
    }
}

/// Times that many pieces of work; `measure` runs one of them a number of times. Settling gets a
/// quarter of the time.
pub fn race(
    works: usize,
    span: Span,
    mut measure: impl FnMut(usize, u64) -> Duration,
) -> Vec<Figure> {
    let mut all: Vec<Best> = (0..works)
        .map(|work| Best::guess(span.repetition, |count| measure(work, count)))
        .collect();
    for (steady, share) in [(SETTLING, span.all / 4), (STEADY, 3 * span.all / 4)] {
        all.iter_mut().for_each(|best| best.settle(span.repetition));
        repeat(&mut all, steady, share, &mut measure);
    }
    all.iter().map(Best::figure).collect()
}
