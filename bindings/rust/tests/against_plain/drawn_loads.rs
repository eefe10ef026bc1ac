//! Loads of a plan's streets, with limits that its sites are below, at or above.
use crate::plain::loads::{sum, Loads};
use crate::plain::survey::Town;
use crate::random::Random;

const MOST: u32 = planner::Loads::MOST;

/// Loads as the library is lent them.
pub fn lent(loads: &Loads) -> planner::Loads<'_> {
    let Loads { kilograms, litres, kilogram_limits, litre_limits } = loads;
    planner::Loads { kilograms, litres, kilogram_limits, litre_limits }
}

/// Up to `most` for each street, and for each site the limit that `limit` makes of what its streets bring, which is cut at the most.
fn drawn(random: &mut Random, town: &Town, division: &[u8], most: usize, limit: impl Fn(&mut Random, u32) -> u32) -> [Vec<u32>; 2] {
    // in one of four draws every street brings the most
    let least = if random.once_in(4) { most } else { 0 };
    let brought: Vec<u32> = (0..town.n).map(|_| random.within(least, most) as u32).collect();
    let limits = town.sites().map(|site| limit(random, sum(division, &brought, site).min(MOST.into()) as u32)).collect();
    [brought, limits]
}

/// Loads that fit: as much as its streets bring is each site's limit.
pub fn fitting(random: &mut Random, town: &Town, division: &[u8]) -> Loads {
    let most = MOST as usize / town.n;
    let [[kilograms, kilogram_limits], [litres, litre_limits]] = [(); 2].map(|()| drawn(random, town, division, most, |_, sum| sum));
    Loads { kilograms, litres, kilogram_limits, litre_limits }
}

/// Loads in numbers that are right, which fit or not: a limit is what the site's streets bring, one more, one less, or the most.
pub fn loads(random: &mut Random, town: &Town, division: &[u8]) -> Loads {
    let [[kilograms, kilogram_limits], [litres, litre_limits]] = [(); 2].map(|()| {
        let most = [1, 9, 2_500, MOST as usize][random.below(4)];
        // only in one of three draws, so that many plans of several sites pass
        let some_less = random.once_in(3);
        drawn(random, town, division, most, |random, sum| match random.below(4) {
            0 if some_less => sum.saturating_sub(1),
            1 => (sum + 1).min(MOST),
            2 => MOST,
            _ => sum,
        })
    });
    Loads { kilograms, litres, kilogram_limits, litre_limits }
}

/// Makes a number too large, or a buffer longer or shorter.
pub fn damage(random: &mut Random, loads: &mut Loads) {
    let Loads { kilograms, litres, kilogram_limits, litre_limits } = loads;
    let buffers = [kilograms, litres, kilogram_limits, litre_limits];
    let buffer = buffers.into_iter().nth(random.below(4)).expect("one of four");
    let at = random.below(buffer.len());
    match random.below(6) {
        0 => buffer.push(0),
        1 => buffer.truncate(at),
        2 => buffer[at] = u32::MAX,
        _ => buffer[at] = MOST + 1,
    }
}
