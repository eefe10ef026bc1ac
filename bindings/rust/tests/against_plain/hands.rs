//! Hand-made plans: right ones, and ones with a street moved, a site that is none, another total claimed, or loads that do not fit.
use crate::compare::{self, NUMBERS};
use crate::damaged;
use crate::drawn_loads;
use crate::plain::loads::Loads;
use crate::plain::survey::{division_total, Town};
use crate::plain::{balanced, free, BALANCED, FREE};
use crate::random::Random;
use crate::towns;
use planner::{slices, Kind};

/// Changes a plan in one way, or not at all, and claims its total or one beside it.
fn changed(random: &mut Random, town: &Town, plan: &[u8]) -> (Vec<u8>, u32) {
    let mut division = plan.to_vec();
    let street = random.below(town.n);
    match random.below(8) {
        0 => division[street] = random.within(0, town.m + 1) as u8,
        1 => division[street] = 255,
        2 => division[street] = division[random.below(town.n)],
        3 => division.swap(street, town.n - 1),
        4 => division.truncate(street),
        5 => division.push(1),
        _ => {}
    }
    let right = division.iter().all(|&site| usize::from(site) <= town.m);
    let total = if right { division_total(&town.values(), &division) } else { 0 };
    let claimed = [total, total, total, total + 1, total.wrapping_sub(1), u32::MAX][random.below(6)];
    (division, claimed)
}

/// The numbers that came back, for each kind and for a number that is none.
type Seen = [[usize; NUMBERS]; 3];

/// The tests of one plan, changed again and again.
fn try_plan(random: &mut Random, town: &Town, plan: &[u8], seen: &mut Seen) {
    for _ in 0..6 {
        let (division, claimed) = changed(random, town, plan);
        let mut loads = drawn_loads::loads(random, town, &division);
        if random.once_in(8) {
            drawn_loads::damage(random, &mut loads);
        }
        for (seen, kind) in seen.iter_mut().zip([FREE, BALANCED, damaged::wrong_kind(random)]) {
            seen[usize::from(compare::hand_plan(town, kind, &division, claimed, &loads))] += 1;
        }
    }
}

#[test]
fn hand_plans() {
    let mut random = Random::new(14);
    let mut seen: Seen = [[0; NUMBERS]; 3];
    for turn in 0..6_000 {
        let mut town = towns::any_town(&mut random, 9, 5);
        let mut plan = free::divide(&town, &free::sites(&town));
        if town.k <= town.n && turn % 2 == 0 {
            plan = compare::best_division(&town.values(), &balanced::sites(&town));
        }
        if random.once_in(6) {
            // another K than the plan was made for
            town.k = random.within(0, town.m + 1);
        }
        if random.once_in(12) {
            town.rows[0] = 9;
        }
        try_plan(&mut random, &town, &plan, &mut seen);
    }
    let [free, balanced, neither] = seen;
    for number in [0, 3, 6, 10, 17, 18, 19, 21, 22, 23] {
        assert!(free[number] > 100 && balanced[number] > 100, "{number} came {} and {} times", free[number], balanced[number]);
    }
    assert!(free[5] == 0 && balanced[5] > 100);
    // what is no kind is refused with 4, or before it with 3
    assert!(neither[3] > 100 && neither[4] > 100 && neither[3] + neither[4] == neither.iter().sum());
}

#[test]
fn our_plans_pass() {
    let mut random = Random::new(15);
    for turn in 0..300 {
        let most = if turn < 280 { (30, 10) } else { (400, 64) };
        let t = towns::any_town(&mut random, most.0, most.1);
        let (mut division, mut chosen) = (vec![0; t.n], vec![0; t.k]);
        let kinds: &[Kind] = if t.k <= t.n { &[Kind::Free, Kind::Balanced] } else { &[Kind::Free] };
        for &kind in kinds {
            let total =
                slices::plan(t.n, t.m, t.k, kind, &t.scores, &t.weights, &t.rows, &mut division, &mut chosen).expect("a right survey");
            let loads = drawn_loads::fitting(&mut random, &t, &division);
            assert_eq!(compare::hand_plan(&t, kind.into(), &division, total, &loads), 0);
        }
    }
}

#[test]
fn long_hand_plans() {
    let mut random = Random::new(16);
    let mut seen: Seen = [[0; NUMBERS]; 3];
    for _ in 0..60 {
        let t = towns::any_town(&mut random, 400, 64);
        let (mut division, mut chosen) = (vec![0; t.n], vec![0; t.k]);
        slices::plan(t.n, t.m, t.k, Kind::Free, &t.scores, &t.weights, &t.rows, &mut division, &mut chosen).expect("a right survey");
        try_plan(&mut random, &t, &division, &mut seen);
    }
    for number in [0, 21, 22, 23] {
        assert!(seen[0][number] > 5, "{number} came {} times", seen[0][number]);
    }
}

/// Both tests of a plan that gives 400 streets the last of 64 sites, where each brings so many kilograms and litres.
fn one_site_for_all(kilograms: u32, litres: u32) -> [u8; 2] {
    let town = Town { n: 400, m: 64, k: 1, scores: vec![0; 64], weights: vec![1; 400], rows: vec![0; 25_600] };
    let [kilogram_limits, litre_limits] = [(); 2].map(|()| vec![1_000_000; 64]);
    let loads = Loads { kilograms: vec![kilograms; 400], litres: vec![litres; 400], kilogram_limits, litre_limits };
    [FREE, BALANCED].map(|kind| compare::hand_plan(&town, kind, &[64; 400], 0, &loads))
}

#[test]
fn greatest_sums() {
    assert_eq!(one_site_for_all(2_500, 2_500), [0, 0]);
    assert_eq!(one_site_for_all(2_501, 2_500), [22, 22]);
    assert_eq!(one_site_for_all(2_500, 2_501), [23, 23]);
    assert_eq!(one_site_for_all(1_000_000, 1_000_000), [22, 22]);
    assert_eq!(one_site_for_all(0, 1_000_000), [23, 23]);
    assert_eq!(one_site_for_all(0, 1_000_001), [21, 21]);
}
