//! Random lists of calls, split and journalled writes and recoveries among them: archive and reference leave the same answer and
//! the same bytes after every call, and both keep to the plain array.

use tests::call::Kind;
use tests::run::Run;

/// Calls at each depth from 1 to 8, the parts of split and journalled writes not counted, and in each list.
const CALLS: u64 = 45_000;
const LIST: u64 = 130;

/// How often each call gives each of its answers at each of these depths, at the least.
const LEAST: u64 = 48;

/// The calls that are not counted.
const PARTS: [Kind; 4] = [Kind::Plan, Kind::Put, Kind::Journalled, Kind::Recover];

/// Lists of one depth, which go on after wipes, split writes and attempts.
fn run(depth: u64, calls: u64, length: u64) -> Run {
    let mut run = Run::new(depth, 0x6c69_7374 + depth);
    let mut wipes = 0;
    while run.tally.calls() - run.tally.calls_of(&PARTS) < calls {
        for _ in 0..length {
            run.step();
        }
        wipes += run.list.wipes;
        run.another_list();
    }
    let title = format!("depth {depth}, {wipes} wipes gone on from");
    run.tally.print(&title);
    println!("  {:?}\n  {:?}", run.splits, run.attempts);
    assert!(wipes >= calls / 40, "{wipes} wipes");
    run
}

/// Lists of one depth, in which every answer and every end of a split write and of an attempt comes up often.
fn run_all_answers(depth: u64) -> Run {
    let run = run(depth, CALLS, LIST);
    let (splits, attempts) = (&run.splits, &run.attempts);
    run.tally.expect_each(LEAST);
    let ends = [splits.touched, splits.unfinished, splits.dropped];
    let often = ends.iter().all(|&count| count >= 3 * LEAST);
    assert!(often && splits.untouched >= 1_000, "{splits:?}");
    assert!(splits.refused >= 500, "{splits:?}");
    attempts.expect_each(3 * LEAST);
    run
}

/// At a small depth refusal 8 names every node, in each call that has it.
fn run_all_nodes(depth: u64) {
    let tally = run_all_answers(depth).tally;
    let named = [
        Kind::Read,
        Kind::Write,
        Kind::Check,
        Kind::Plan,
        Kind::Journalled,
    ];
    for kind in named {
        assert!(tally.named(kind).iter().copied().eq(2..2 << depth));
    }
}

#[test]
fn depth_1() {
    run_all_nodes(1);
}

#[test]
fn depth_2() {
    run_all_nodes(2);
}

#[test]
fn depth_3() {
    run_all_nodes(3);
}

#[test]
fn depth_4() {
    run_all_nodes(4);
}

#[test]
fn depth_5() {
    run_all_answers(5);
}

#[test]
fn depth_6() {
    run_all_answers(6);
}

#[test]
fn depth_7() {
    run_all_answers(7);
}

#[test]
fn depth_8() {
    run_all_answers(8);
}

/// The largest card.
#[test]
fn depth_16() {
    let run = run(16, 120, 40);
    let (tally, splits) = (&run.tally, &run.splits);
    for kind in [Kind::Read, Kind::Write, Kind::Check] {
        let (accepted, wrong) = (tally.of(kind, 0), tally.of(kind, 8));
        assert!(accepted >= 4 && wrong >= 1, "{kind:?}: both come up");
    }
    for kind in [Kind::Wipe, Kind::Journalled, Kind::Recover] {
        assert!(tally.of(kind, 0) >= 4, "{kind:?}: accepted");
    }
    assert!(splits.untouched >= 4 && splits.touched >= 1, "{splits:?}");
}
