//! The test of a hand-made plan.
use super::loads::{sum, Loads};
use super::refusals::{length, outside, plan_kind, refuse, survey, Tried};
use super::shares::shares;
use super::survey::{division_total, Town};
use super::FREE;

/// How many of a division's streets go to each site.
fn counts(town: &Town, division: &[u8]) -> Vec<usize> {
    town.sites().map(|site| division.iter().filter(|&&given| given == site).count()).collect()
}

/// 6: the division, and the four buffers of loads and limits.
fn lengths(town: &Town, division: &[u8], loads: &Loads) -> Tried {
    for streets in [division.len(), loads.kilograms.len(), loads.litres.len()] {
        length(streets, town.n)?;
    }
    length(loads.kilogram_limits.len(), town.m)?;
    length(loads.litre_limits.len(), town.m)
}

/// 21: a load or limit above 1,000,000.
fn too_large(loads: &Loads) -> Tried {
    let all = [&loads.kilograms, &loads.litres, &loads.kilogram_limits, &loads.litre_limits];
    refuse(21, all.into_iter().flatten().any(|&number| number > 1_000_000))
}

/// Sites by number, at each site 22 before 23; a sum equal to its limit fits.
fn over(town: &Town, division: &[u8], loads: &Loads) -> Tried {
    for site in town.sites() {
        let limit = usize::from(site) - 1;
        refuse(22, sum(division, &loads.kilograms, site) > loads.kilogram_limits[limit].into())?;
        refuse(23, sum(division, &loads.litres, site) > loads.litre_limits[limit].into())?;
    }
    Ok(())
}

/// 18: a free plan uses at most K sites; the sites that a balanced one uses, largest first, have the shares of the rounds, which fall too.
fn used(town: &Town, kind: usize, division: &[u8]) -> Tried {
    let mut used: Vec<usize> = counts(town, division).into_iter().filter(|&streets| streets > 0).collect();
    used.sort_by(|a, b| b.cmp(a));
    refuse(18, if kind == FREE { used.len() > town.k } else { used != shares(town.n, town.k) })
}

/// All that a hand-made plan of a kind is tried for.
pub fn test(town: &Town, kind: usize, division: &[u8], claimed: u32, loads: &Loads) -> Tried {
    survey(town, town.k, || plan_kind(kind, town.n, town.k).and_then(|()| lengths(town, division, loads)))?;
    too_large(loads)?;
    let lowest = if kind == FREE { 0 } else { 1 };
    outside(lowest, town.m, division)?;
    used(town, kind, division)?;
    over(town, division, loads)?;
    refuse(19, division_total(&town.values(), division) != claimed)
}
