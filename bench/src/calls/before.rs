//! The present calls over those of an older archive, which the build links beside them where it is given one.

mod archive;
mod same;

use super::places::Places;
use super::store::Stores;
use super::tables::{nanoseconds, CALLS};
use super::{works, Call, Group, Work, DEPTHS};
use crate::report::{print_head, print_line};
use crate::subject::Subject;
use crate::timing::{race, Span};
use std::cell::Cell;
use std::rc::Rc;
use std::time::Duration;

/// What was found for a call at a depth.
pub struct Pair {
    work: Work,
    present: f64,
    before: f64,
}

/// The works of the table, as those of the calls are grouped.
fn groups() -> [Group; 3] {
    let [low, middle, high] = DEPTHS;
    let whole = [Call::Check, Call::Format, Call::Wipe];
    let long = Span {
        repetition: Duration::from_millis(15),
        all: Duration::from_secs(30),
    };
    [
        Group::new(
            [Call::Read, Call::Write],
            DEPTHS.into_iter(),
            Span::short(20),
        ),
        Group::new(whole, [low, middle].into_iter(), Span::short(20)),
        Group::new(whole, [high].into_iter(), long),
    ]
}

/// Where a work is in the list of the stores.
fn place(work: Work) -> usize {
    let place = works().iter().position(|&known| known == work);
    place.expect("the table's depths are timed")
}

/// Times both archives in turn, on the same cards; none where the build was given no older one.
pub fn measure() -> Result<Vec<Pair>, String> {
    let (present, Some(before)) = (archive::present(), archive::before()) else {
        return Ok(Vec::new());
    };
    same::compare(&Cell::new(present), &Cell::new(before))?;
    let turn = Rc::new(Cell::new(before));
    let mut stores = Stores::of_cards(turn.clone())?;
    stores.compare(&Stores::of_cards(Rc::new(Cell::new(present)))?)?;
    let (mut found, mut places) = (Vec::new(), Places::default());
    for Group { works, span } in groups() {
        let figures = race(2 * works.len(), span, |work, count| {
            turn.set([present, before][work % 2]);
            places.run(|| stores.measure(place(works[work / 2]), count))
        });
        for (work, pair) in works.into_iter().zip(figures.chunks(2)) {
            let (present, before) = (pair[0].each, pair[1].each);
            found.push(Pair {
                work,
                present,
                before,
            });
        }
    }
    Ok(found)
}

/// A ratio, and the nanoseconds that it is made of.
fn cell(pairs: &[Pair], work: Work, pace: f64) -> String {
    let pair = pairs.iter().find(|pair| pair.work == work);
    let Pair {
        present, before, ..
    } = pair.expect("every work is timed");
    let [now, then] = [present, before].map(|time| nanoseconds(time * pace));
    format!("{:.3} ({now} over {then})", present / before)
}

/// Prints the table, if there is one; a step of the clock lasts so long.
pub fn print(pairs: &[Pair], pace: f64) {
    if pairs.is_empty() {
        return;
    }
    println!("## The calls over those of before\n");
    println!("The present calls as a multiple of those of the older archive, both on the same cards and in");
    println!("turn. Answers and bytes were compared first, refusals among them.\n");
    print_head(
        [String::new()]
            .into_iter()
            .chain(DEPTHS.map(|depth| format!("depth {depth}"))),
    );
    for call in CALLS {
        let at = |depth| cell(pairs, Work { call, depth }, pace);
        print_line([call.to_string()].into_iter().chain(DEPTHS.map(at)));
    }
    println!();
}
