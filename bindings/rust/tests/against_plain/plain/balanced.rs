//! The balanced plan's rounds, by sorting, and the floor.
use super::shares::shares;
use super::survey::{place, ranked, Town};
use std::cmp::Reverse;

/// The streets that a site would take: of the free ones as many as its share, by value, highest first, then by place, unranked after all
/// places, then by number.
fn taken(town: &Town, values: &[Vec<u32>], free: &[usize], site: u8, share: usize) -> Vec<usize> {
    let mut order = free.to_vec();
    let by_place = |street| place(town.row(street), site).unwrap_or(usize::MAX);
    order.sort_by_key(|&street| (Reverse(values[street][site as usize]), by_place(street), street));
    order.truncate(share);
    order
}

/// The chosen sites: in each round the one whose streets give it most, the lowest number on a tie; it takes those streets.
pub fn sites(town: &Town) -> Vec<u8> {
    let values = town.values();
    let mut free: Vec<usize> = (0..town.n).collect();
    let mut chosen: Vec<u8> = Vec::new();
    for share in shares(town.n, town.k) {
        let mut best: Option<(u32, u8, Vec<usize>)> = None;
        for site in town.sites().filter(|site| !chosen.contains(site)) {
            let streets = taken(town, &values, &free, site, share);
            let worth = streets.iter().map(|&street| values[street][site as usize]).sum();
            if best.as_ref().is_none_or(|(most, _, _)| worth > *most) {
                best = Some((worth, site, streets));
            }
        }
        let (_, site, streets) = best.expect("k is at most m");
        chosen.push(site);
        free.retain(|street| !streets.contains(street));
    }
    chosen
}

/// Round i adds its share times the score at place p = i + (m - i) / (K - i), rounded up, if p is at most the length of the shortest list.
/// The sum counts by the smallest weight.
pub fn floor(town: &Town) -> u32 {
    let shortest = (0..town.n).map(|street| ranked(town.row(street)).len()).min().expect("n is above 0");
    let mut sum = 0;
    for (i, share) in shares(town.n, town.k).into_iter().enumerate() {
        let p = i + (town.m - i).div_ceil(town.k - i);
        if p <= shortest {
            sum += share as u32 * u32::from(town.scores[p - 1]);
        }
    }
    sum * u32::from(*town.weights.iter().min().expect("n is above 0"))
}
