//! Thousands of small towns, each division against all others.
use crate::compare;
use crate::random::Random;
use crate::towns;

#[test]
fn small_towns() {
    let mut random = Random::new(1);
    for turn in 0..6_000 {
        let town = towns::any_town(&mut random, 8, 5);
        let count = random.within(1, town.m);
        let sites = towns::some_sites(&mut random, town.m, count);
        compare::everything(&town, &sites, turn % 2);
    }
}

#[test]
fn middling_towns() {
    let mut random = Random::new(2);
    for turn in 0..600 {
        let town = towns::any_town(&mut random, 60, 14);
        let count = random.within(1, town.m);
        let sites = towns::some_sites(&mut random, town.m, count);
        compare::everything(&town, &sites, turn % 2);
    }
}
