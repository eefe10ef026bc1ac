//! Drawn towns: what the types give is what the functions over slices give, number by number and byte by byte.
use crate::drawn_loads::{self, lent};
use crate::random::Random;
use crate::survey::{self, Town};
use crate::towns;
use planner::{slices, HandPlan, Kind, Plan, Refusal, Survey};

/// Total, sites, and the site of each street.
type Parts = (u32, Vec<u8>, Vec<u8>);

fn parts(plan: &Result<Plan, Refusal>) -> Result<Parts, Refusal> {
    plan.clone().map(|plan| (plan.total, plan.sites, plan.division.into_bytes()))
}

/// A drawn town's survey, which is the same from its rows and from its lists. It has its weights once they are given.
fn survey_of(t: &Town) -> Survey {
    let lists: Vec<&[u8]> = (0..t.n).map(|street| survey::ranked(t.row(street))).collect();
    let survey = Survey::new(&t.scores, &lists).expect("a right survey");
    assert_eq!(Survey::from_rows(&t.scores, &t.rows).as_ref(), Ok(&survey));
    assert_eq!(survey.weights(), vec![1; t.n]);
    let survey = survey.with_weights(&t.weights).expect("right weights");
    assert_eq!((survey.streets(), survey.sites(), survey.scores(), survey.rows()), (t.n, t.m, &t.scores[..], &t.rows[..]));
    assert_eq!(survey.weights(), t.weights);
    survey
}

fn rows(t: &Town, survey: &Survey) {
    for (index, row) in t.rows.chunks(t.m).enumerate() {
        assert_eq!(survey.list(index + 1), Some(survey::ranked(row)));
        for site in 1..=t.m as u8 {
            let counted = u32::from(t.weights[index]) * survey::score(&t.scores, row, site);
            assert_eq!(survey.score(index + 1, site), Some(counted));
        }
        assert_eq!([0, t.m as u8 + 1, 255].map(|site| survey.score(index + 1, site)), [None; 3]);
    }
    for street in [0, t.n + 1, usize::MAX] {
        assert_eq!((survey.list(street), survey.score(street, 1)), (None, None));
    }
}

fn plans(random: &mut Random, t: &Town, survey: &Survey, k: usize) {
    for kind in [Kind::Free, Kind::Balanced] {
        let (mut division, mut chosen) = (vec![0; t.n], vec![0; k.min(t.m)]);
        let lent = slices::plan(t.n, t.m, k, kind, &t.scores, &t.weights, &t.rows, &mut division, &mut chosen);
        let plan = survey.plan(kind, k);
        assert_eq!(parts(&plan), lent.map(|total| (total, chosen, division)), "{kind:?}, K {k} of {t:?}");
        hand_plans(random, t, survey, kind, plan);
    }
    assert_eq!(survey.floor(k), slices::floor(t.n, t.m, k, &t.scores, &t.weights, &t.rows));
}

/// One of our plans passes as a hand-made one without loads and where its loads fit, and is tested as the functions test it for another kind, K, total and
/// number of streets, and for loads that fit or not.
fn hand_plans(random: &mut Random, t: &Town, survey: &Survey, kind: Kind, plan: Result<Plan, Refusal>) {
    let Ok(plan) = plan else { return };
    let fitting = drawn_loads::fitting(random, t, plan.division.as_bytes());
    assert_eq!(survey.test(&plan.to_hand_plan(kind)), Ok(plan.total));
    assert_eq!(survey.test_with_loads(&plan.to_hand_plan(kind), lent(&fitting)), Ok(plan.total));
    let mut other = drawn_loads::loads(random, t, plan.division.as_bytes());
    if random.once_in(4) {
        drawn_loads::damage(random, &mut other);
    }
    let (k, bytes) = (plan.sites.len(), plan.division.into_bytes());
    let longer = [&bytes[..], &[1]].concat();
    for (k, division, claimed, loads) in [
        (k, &bytes, plan.total, &other),
        (k, &bytes, plan.total + 1, &fitting),
        (k + 1, &bytes, plan.total, &fitting),
        (1, &bytes, plan.total, &fitting),
        (k, &longer, plan.total, &fitting),
    ] {
        for kind in [Kind::Free, Kind::Balanced] {
            let tested = slices::hand_plan(t.n, t.m, k, kind, &t.scores, &t.weights, &t.rows, division, claimed, lent(loads));
            assert_eq!(survey.test_with_loads(&HandPlan::new(kind, k, division.clone(), claimed), lent(loads)), tested);
        }
    }
}

fn lists(random: &mut Random, t: &Town, survey: &Survey, sites: &[u8]) {
    let mut division = vec![0; t.n];
    assert_eq!(survey.list_total(sites), slices::list_total(t.n, t.m, &t.scores, &t.weights, &t.rows, sites));
    let free = slices::free_division(t.n, t.m, &t.scores, &t.weights, &t.rows, sites, &mut division);
    let plan = survey.divide(Kind::Free, sites);
    assert_eq!(parts(&plan), free.map(|total| (total, sites.to_vec(), division.clone())), "{sites:?} of {t:?}");
    hand_plans(random, t, survey, Kind::Free, plan);
    let balanced = slices::balanced_division(t.n, t.m, &t.scores, &t.weights, &t.rows, sites, &mut division);
    let plan = survey.divide(Kind::Balanced, sites);
    assert_eq!(parts(&plan), balanced.map(|total| (total, sites.to_vec(), division)), "{sites:?} of {t:?}");
    hand_plans(random, t, survey, Kind::Balanced, plan);
}

fn everything(random: &mut Random, t: &Town) {
    let survey = survey_of(t);
    rows(t, &survey);
    for k in [t.k, 0, t.m + 1, usize::MAX] {
        plans(random, t, &survey, k);
    }
    let sites = towns::some_sites(random, t.m, t.k);
    let twice = [&sites[..], &sites[..1]].concat();
    let outside = [&sites[1..], &[t.m as u8 + 1]].concat();
    for list in [&sites, &twice, &outside, &vec![], &vec![1; t.m + 1]] {
        lists(random, t, &survey, list);
    }
}

#[test]
fn small_towns() {
    let mut random = Random::new(25);
    for _ in 0..2_000 {
        let town = towns::any_town(&mut random, 12, 6);
        everything(&mut random, &town);
    }
}

#[test]
fn long_towns() {
    let mut random = Random::new(26);
    for _ in 0..20 {
        let town = towns::any_town(&mut random, 400, 64);
        everything(&mut random, &town);
    }
}
