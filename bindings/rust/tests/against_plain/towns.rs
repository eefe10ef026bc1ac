//! Towns of many kinds: score tables, weights, lists and sizes.
use crate::plain::survey::Town;
use crate::random::Random;

/// How the streets' lists come about.
#[derive(Clone, Copy, Debug)]
pub enum Culture {
    /// every order alike
    Impartial,
    /// few changes to one common order
    Mallows,
    /// most lists are copied from an earlier street
    Urn,
    /// three sites of a few much-liked ones
    ThreeNames,
    /// lists of any length, empty ones among them
    Cut,
}

pub const CULTURES: [Culture; 5] = [Culture::Impartial, Culture::Mallows, Culture::Urn, Culture::ThreeNames, Culture::Cut];

/// A score table: the usual one, a flat one, zeros, few steps, or any that never rises.
pub fn scores(random: &mut Random, m: usize) -> Vec<u16> {
    let top = [1, 3, 10, 1000][random.below(4)];
    let mut scores: Vec<u16> = match random.below(5) {
        0 => (1..=m).map(|place| (m - place) as u16).collect(),
        1 => vec![random.within(1, top) as u16; m],
        2 => vec![0; m],
        _ => (0..m).map(|_| random.within(0, top) as u16).collect(),
    };
    scores.sort_by(|a, b| b.cmp(a));
    scores
}

/// Weights: all 1, all alike, small ones, or any.
pub fn weights(random: &mut Random, n: usize) -> Vec<u8> {
    let (least, most) = match random.below(4) {
        0 => (1, 1),
        1 => [(2, 2), (99, 99)][random.below(2)],
        2 => (1, 3),
        _ => (1, 99),
    };
    (0..n).map(|_| random.within(least, most) as u8).collect()
}

fn order(random: &mut Random, m: usize) -> Vec<u8> {
    let mut order: Vec<u8> = (1..=m as u8).collect();
    random.shuffle(&mut order);
    order
}

/// A list that is the common order but for a few sites that change places.
fn near(random: &mut Random, common: &[u8]) -> Vec<u8> {
    let mut list = common.to_vec();
    for _ in 0..random.below(common.len() + 1) {
        let i = random.below(common.len());
        list.swap(i, (i + 1) % common.len());
    }
    list
}

/// The lists of all streets.
fn lists(random: &mut Random, culture: Culture, n: usize, m: usize) -> Vec<Vec<u8>> {
    let common = order(random, m);
    let mut lists: Vec<Vec<u8>> = Vec::new();
    for street in 0..n {
        let list = match culture {
            Culture::Impartial => order(random, m),
            Culture::Mallows => near(random, &common),
            Culture::Urn if street > 0 && !random.once_in(4) => lists[random.below(street)].clone(),
            Culture::Urn => order(random, m),
            Culture::ThreeNames => near(random, &common)[..m.min(3)].to_vec(),
            Culture::Cut => order(random, m)[..random.within(0, m)].to_vec(),
        };
        lists.push(list);
    }
    lists
}

/// A town of given sizes with a right survey.
pub fn town(random: &mut Random, culture: Culture, n: usize, m: usize, k: usize) -> Town {
    let scores = scores(random, m);
    let weights = weights(random, n);
    let mut rows = Vec::new();
    for mut row in lists(random, culture, n, m) {
        row.resize(m, 0);
        rows.extend(row);
    }
    Town { n, m, k, scores, weights, rows }
}

/// A town of sizes up to the given ones: of four, one has a k that divides n, two have any n of at least k, and one has any n.
pub fn any_town(random: &mut Random, most_streets: usize, most_sites: usize) -> Town {
    let m = random.within(1, most_sites);
    let k = random.within(1, m);
    let n = match random.below(4) {
        0 if k <= most_streets => k * random.within(1, most_streets / k),
        1 | 2 if k <= most_streets => random.within(k, most_streets),
        _ => random.within(1, most_streets),
    };
    let culture = CULTURES[random.below(CULTURES.len())];
    town(random, culture, n, m, k)
}

/// Some sites, each once, in any order.
pub fn some_sites(random: &mut Random, m: usize, count: usize) -> Vec<u8> {
    order(random, m)[..count].to_vec()
}
