//! Random lists in which power fails: wherever it does, a finished recovery leaves the card of the array, which a cut attempt moves
//! exactly when its new T stood.

use tests::call::Kind;
use tests::world::World;

/// Items at each depth from 1 to 8, and in each list.
const ITEMS: usize = 12_000;
const LIST: usize = 120;

/// Lists of one depth.
fn run(depth: u64, items: usize, list: usize) -> World {
    let mut world = World::new(depth, 0x706f_7765 + depth);
    for item in 1..=items {
        world.step();
        if item % list == 0 {
            world.another();
        }
    }
    world.tally.print(&format!("depth {depth}"));
    println!("  {:?}", world.seen);
    world
}

/// Lists of one depth, in which every cut comes up often.
fn run_all_cuts(depth: u64) {
    let world = run(depth, ITEMS, LIST);
    let seen = &world.seen;
    assert!(seen.attempts.iter().all(|&count| count >= 300), "{seen:?}");
    assert!(seen.cut >= 1_000 && seen.mended >= 500, "{seen:?}");
    assert!(seen.early.iter().all(|&count| count >= 50), "{seen:?}");
    for kind in [Kind::Write, Kind::Wipe, Kind::Plan, Kind::Journalled] {
        let (accepted, spent) = (world.tally.of(kind, 0), world.tally.of(kind, 7));
        assert!(accepted >= 200 && spent >= 5, "{kind:?}: both come up");
    }
}

#[test]
fn depths_1_to_4() {
    (1..=4).for_each(run_all_cuts);
}

#[test]
fn depths_5_to_8() {
    (5..=8).for_each(run_all_cuts);
}

/// The largest card.
#[test]
fn depth_16() {
    let world = run(16, 60, 60);
    let seen = &world.seen;
    assert!(
        seen.attempts.iter().sum::<u64>() >= 4 && seen.mended >= 1,
        "{seen:?}"
    );
    assert!(seen.cut >= 2, "{seen:?}");
}
