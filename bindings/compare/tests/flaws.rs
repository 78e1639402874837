//! The comparison passes what is right and finds every planted flaw.

use compare::flawed::{Flaw, Flawed};
use compare::input::{call, Job};
use compare::run::{compare, explain};
use compare::shrink::smallest;
use deruvain_model::{Model, Plain};

#[test]
fn plain_rust_passes() {
    assert!(compare(&Plain, 20_000, 7, 1).differing.is_empty());
    assert!(compare(&Flawed(Flaw::None), 20_000, 7, 1).differing.is_empty());
}

#[test]
fn every_flaw_is_found() {
    for flaw in Flaw::ALL {
        assert!(!compare(&Flawed(flaw), 100_000, 7, 1).differing.is_empty(), "{flaw:?}");
    }
}

/// What is told of a flaw in a job.
fn told(flaw: Flaw, job: Job) -> String {
    let library = Flawed(flaw);
    let found = compare(&library, 100_000, 7, 100).differing.into_iter().find(|input| input.job == job);
    explain(&library, &found.expect("the flaw is found"))
}

#[test]
fn a_difference_is_told_by_a_small_input() {
    let text = told(Flaw::DestinationBeforeSource, Job::Decide);
    let expected =
        "decide, n = 1\n  status: 2 long, all 1 save 0: 254\n  links: 2 long, all 0\n  vectors: 2 long, all 0\n  \
                    source 0, destination 0\n  the model:   refused by 5\n  the library: refused by 6\n";
    assert_eq!(text, expected);
}

#[test]
fn a_difference_in_a_log_is_told_by_a_small_one() {
    let text = told(Flaw::LogAge253Gives254, Job::Refresh);
    let expected = "refresh, n = 1, sweep 253\n  log: 8 bytes: sweep 0 node 0\n  status: 2 long, all 1\n  \
                    the model:   0 skipped\n  the library: 0 skipped\n  \
                    afterwards status[0] is 253 by the model and 254 by the library\n";
    assert_eq!(text, expected);
}

#[test]
fn a_difference_in_a_part_of_a_log_is_told_by_a_small_one() {
    let expected = "update, n = 1, sweep 0\n  log: 0 bytes: \n  status: 2 long, all 1\n  \
                    the model:   0 skipped\n  the library: 0 skipped\n  \
                    afterwards status[0] is 1 by the model and 0 by the library\n  \
                    afterwards status[1] is 1 by the model and 0 by the library\n";
    assert_eq!(told(Flaw::UpdateStartsAnew, Job::Update), expected);
}

#[test]
fn a_difference_in_a_restated_record_is_told_by_a_small_one() {
    let expected = "restate\n  record: 0 bytes: \n  status: 0 long, all 1\n  \
                    the model:   refused by 2\n  the library: done\n";
    assert_eq!(told(Flaw::RestateSaysDone, Job::Restate), expected);
}

#[test]
fn shrinking_keeps_the_difference() {
    let flaws = [
        Flaw::SameRound,
        Flaw::OpenClearsTheRest,
        Flaw::PicksFromTheSecond,
        Flaw::LogLastWins,
        Flaw::UpdateOlderPartWins,
        Flaw::RestateOneTooEarly,
    ];
    for flaw in flaws {
        let library = Flawed(flaw);
        let found = compare(&library, 100_000, 7, 1).differing.remove(0);
        let small = smallest(found, &|input| call(&library, input) != call(&Model, input));
        assert_ne!(call(&library, &small), call(&Model, &small), "{flaw:?}");
        assert!(small.memory.status.len() <= 8, "{flaw:?}");
    }
}
