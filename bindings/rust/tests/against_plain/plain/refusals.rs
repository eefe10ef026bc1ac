//! 'Turned down': what each call tries, in document 01's order.
use super::survey::Town;
use super::{BALANCED, FREE, OLD_FORM};

pub type Tried = Result<(), u8>;

pub fn refuse(number: u8, when: bool) -> Tried {
    if when {
        Err(number)
    } else {
        Ok(())
    }
}

pub fn streets(n: usize) -> Tried {
    refuse(1, !(1..=400).contains(&n))
}

pub fn sites(m: usize) -> Tried {
    refuse(2, !(1..=64).contains(&m))
}

pub fn chosen(k: usize, m: usize) -> Tried {
    refuse(3, !(1..=m).contains(&k))
}

pub fn kind(kind: usize) -> Tried {
    refuse(4, kind != FREE && kind != BALANCED)
}

pub fn share(n: usize, k: usize) -> Tried {
    refuse(5, k > n)
}

/// A plan's kind, and for a balanced plan its shares.
pub fn plan_kind(sort: usize, n: usize, k: usize) -> Tried {
    kind(sort)?;
    if sort == BALANCED {
        share(n, k)
    } else {
        Ok(())
    }
}

pub fn length(buffer: usize, exact: usize) -> Tried {
    refuse(6, buffer != exact)
}

pub fn scores(scores: &[u16]) -> Tried {
    for (i, &score) in scores.iter().enumerate() {
        refuse(8, score > 1000 || (i > 0 && score > scores[i - 1]))?;
    }
    Ok(())
}

pub fn weights(weights: &[u8]) -> Tried {
    refuse(24, weights.iter().any(|weight| !(1..=99).contains(weight)))
}

pub fn row(m: usize, row: &[u8]) -> Tried {
    for (i, &site) in row.iter().enumerate().filter(|(_, &site)| site != 0) {
        refuse(9, row[..i].contains(&0))?;
        refuse(10, usize::from(site) > m)?;
        refuse(11, row[..i].contains(&site))?;
    }
    Ok(())
}

/// A list of sites, tried for 17 all through, then for 20.
pub fn list(m: usize, sites: &[u8]) -> Tried {
    outside(1, m, sites)?;
    for (i, site) in sites.iter().enumerate() {
        refuse(20, sites[..i].contains(site))?;
    }
    Ok(())
}

pub fn outside(low: usize, m: usize, sites: &[u8]) -> Tried {
    for &site in sites {
        refuse(17, !(low..=m).contains(&usize::from(site)))?;
    }
    Ok(())
}

/// A survey with `k` sites to choose; `between` is what a call tries besides, between 3 and 8.
pub fn survey(town: &Town, k: usize, between: impl Fn() -> Tried) -> Tried {
    streets(town.n)?;
    sites(town.m)?;
    chosen(k, town.m)?;
    between()?;
    length(town.scores.len(), town.m)?;
    length(town.weights.len(), town.n)?;
    length(town.rows.len(), town.n * town.m)?;
    scores(&town.scores)?;
    weights(&town.weights)?;
    town.rows.chunks(town.m).try_for_each(|bytes| row(town.m, bytes))
}

pub fn check(town: &Town) -> Tried {
    survey(town, town.k, || Ok(()))
}

/// One row of m bytes with one weight, and one site.
pub fn row_score(town: &Town, weight: u8, bytes: &[u8], site: u8) -> Tried {
    sites(town.m)?;
    length(town.scores.len(), town.m)?;
    length(bytes.len(), town.m)?;
    scores(&town.scores)?;
    weights(&[weight])?;
    row(town.m, bytes)?;
    outside(1, town.m, &[site])
}

pub fn list_total(town: &Town, given: &[u8]) -> Tried {
    survey(town, given.len(), || Ok(()))?;
    list(town.m, given)
}

pub fn free_division(town: &Town, given: &[u8], division: usize) -> Tried {
    survey(town, given.len(), || length(division, town.n))?;
    list(town.m, given)
}

pub fn balanced_division(town: &Town, given: &[u8], division: usize) -> Tried {
    survey(town, given.len(), || share(town.n, given.len()).and_then(|()| length(division, town.n)))?;
    list(town.m, given)
}

pub fn plan(town: &Town, sort: usize, division: usize, sites: usize) -> Tried {
    survey(town, town.k, || {
        plan_kind(sort, town.n, town.k)?;
        length(division, town.n)?;
        length(sites, town.k)
    })
}

pub fn floor(town: &Town) -> Tried {
    survey(town, town.k, || share(town.n, town.k))
}

/// A file of the old form has no weights to keep.
pub fn lost(form: usize, weights: &[u8]) -> Tried {
    refuse(25, form == OLD_FORM && weights.iter().any(|&weight| weight != 1))
}

pub fn write(town: &Town, sort: usize, form: usize) -> Tried {
    survey(town, town.k, || kind(sort))?;
    lost(form, &town.weights)
}
