//! Towns of the greatest sizes, in every culture.
use crate::compare;
use crate::random::Random;
use crate::towns::{self, CULTURES};

#[test]
fn longest_towns() {
    let mut random = Random::new(3);
    for culture in CULTURES {
        for k in [1, 4, 7, 8, 20, 25, 33, 40, 50, 63, 64] {
            let town = towns::town(&mut random, culture, 400, 64, k);
            let sites = towns::some_sites(&mut random, 64, k);
            compare::everything(&town, &sites, k % 2);
        }
    }
}

#[test]
fn long_towns() {
    let mut random = Random::new(4);
    for turn in 0..40 {
        let town = towns::any_town(&mut random, 400, 64);
        let sites = towns::some_sites(&mut random, town.m, town.k);
        compare::everything(&town, &sites, turn % 2);
    }
}
