//! Calls from several threads at once, and on a thread with the stack that the documentation names.
use crate::random::Random;
use crate::towns::{self, Culture};
use planner::{Kind, Survey, MAX_SITES, MAX_STREETS};
use std::thread;

fn longest_survey() -> Survey {
    let town = towns::town(&mut Random::new(20), Culture::Impartial, MAX_STREETS, MAX_SITES, 8);
    let survey = Survey::from_rows(&town.scores, &town.rows).expect("a right survey");
    survey.with_weights(&town.weights).expect("right weights")
}

#[test]
fn several_threads() {
    let survey = longest_survey();
    let alone = [Kind::Free, Kind::Balanced].map(|kind| survey.plan(kind, 8));
    thread::scope(|scope| {
        let each = || [Kind::Free, Kind::Balanced].map(|kind| survey.plan(kind, 8));
        let threads: Vec<_> = (0..4).map(|_| scope.spawn(each)).collect();
        for thread in threads {
            assert_eq!(thread.join().expect("the thread ends"), alone);
        }
    });
}

#[test]
fn a_thread_of_half_a_megabyte() {
    let survey = longest_survey();
    let floor = survey.floor(40).expect("40 sites for 400 streets");
    let planning = thread::Builder::new().stack_size(1 << 19).spawn(move || survey.plan(Kind::Balanced, 40));
    let plan = planning.expect("a thread").join().expect("the thread ends").expect("40 sites for 400 streets");
    assert!(plan.total >= floor);
    assert_eq!(plan.sites.len(), 40);
}
