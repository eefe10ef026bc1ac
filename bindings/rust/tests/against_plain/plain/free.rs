//! The free plan: totals by definition, and greedy rounds.
use super::survey::{ranked, Town};

/// The total of a set of sites: the sum over streets of the best score any of them gives.
pub fn total(values: &[Vec<u32>], sites: &[u8]) -> u32 {
    values.iter().map(|value| sites.iter().map(|&site| value[site as usize]).max().unwrap_or(0)).sum()
}

/// The chosen sites: each round adds the unchosen site that raises the total most, the lowest number on a tie.
pub fn sites(town: &Town) -> Vec<u8> {
    let values = town.values();
    let mut chosen: Vec<u8> = Vec::new();
    for _ in 0..town.k {
        let mut best: Option<(u32, u8)> = None;
        for site in town.sites().filter(|site| !chosen.contains(site)) {
            let with = [&chosen[..], &[site]].concat();
            let reached = total(&values, &with);
            if best.is_none_or(|(most, _)| reached > most) {
                best = Some((reached, site));
            }
        }
        chosen.push(best.expect("k is at most m").1);
    }
    chosen
}

/// Each street goes to the chosen site with its best place, and to site 0 if it ranked none.
pub fn divide(town: &Town, sites: &[u8]) -> Vec<u8> {
    let goes = |street| ranked(town.row(street)).iter().copied().find(|site| sites.contains(site)).unwrap_or(0);
    (0..town.n).map(goes).collect()
}
