//! The best division over given sites, to each its share: by trying all of them, and, for long towns, by augmenting paths.
use super::shares::shares;
use super::survey::division_total;
use std::collections::VecDeque;

/// The sites by rising number, each with its share, which it has from its entry in the list.
fn ascending(n: usize, sites: &[u8]) -> Vec<(u8, usize)> {
    let mut ascending: Vec<(u8, usize)> = sites.iter().copied().zip(shares(n, sites.len())).collect();
    ascending.sort();
    ascending
}

/// Tries every division in the shares, low site numbers and early streets first. The first one of the greatest total stays, and so it
/// gives street 1 the lowest site number of all best ones, then street 2, and so on.
pub fn by_trying(values: &[Vec<u32>], sites: &[u8]) -> Vec<u8> {
    let mut left = ascending(values.len(), sites);
    let mut best = None;
    try_from(values, &mut left, &mut Vec::new(), &mut best);
    best.expect("there is a division").1
}

fn try_from(values: &[Vec<u32>], left: &mut [(u8, usize)], division: &mut Vec<u8>, best: &mut Option<(u32, Vec<u8>)>) {
    if division.len() == values.len() {
        let total = division_total(values, division);
        if best.as_ref().is_none_or(|(most, _)| total > *most) {
            *best = Some((total, division.clone()));
        }
        return;
    }
    for i in 0..left.len() {
        if left[i].1 > 0 {
            left[i].1 -= 1;
            division.push(left[i].0);
            try_from(values, left, division, best);
            division.pop();
            left[i].1 += 1;
        }
    }
}

/// The same for long towns: a best division by augmenting paths, and then the tie rule by fixing street after street.
pub fn by_paths(values: &[Vec<u32>], sites: &[u8]) -> Vec<u8> {
    let (ascending, shares): (Vec<u8>, Vec<usize>) = ascending(values.len(), sites).into_iter().unzip();
    let value = |street: usize, a: usize| i64::from(values[street][ascending[a] as usize]);
    let table: Vec<Vec<i64>> = (0..values.len()).map(|street| (0..sites.len()).map(|a| value(street, a)).collect()).collect();
    let best = some_best(&table, &shares);
    let first = first_best(&table, best, sites.len());
    first.iter().map(|&a| ascending[a]).collect()
}

/// For each two sites the street of the one that gains most by moving to the other, with its gain.
fn moves(table: &[Vec<i64>], division: &[usize], k: usize) -> Vec<Vec<Option<(i64, usize)>>> {
    let mut best = vec![vec![None; k]; k];
    for (street, &b) in division.iter().enumerate() {
        for a in (0..k).filter(|&a| a != b) {
            let gain = table[street][a] - table[street][b];
            if best[b][a].is_none_or(|(most, _)| gain > most) {
                best[b][a] = Some((gain, street));
            }
        }
    }
    best
}

/// Adds one street after the other, each along the chain of moves of greatest gain that ends at a site with room: after each the
/// division of the streets so far is a best one.
fn some_best(table: &[Vec<i64>], shares: &[usize]) -> Vec<usize> {
    let k = shares.len();
    let mut division: Vec<usize> = Vec::new();
    for street in 0..table.len() {
        let moves = moves(table, &division, k);
        let mut gain = table[street].clone();
        let mut from: Vec<Option<usize>> = vec![None; k];
        // no chain gains without end, since the division so far is best; k passes find every chain
        for _ in 0..k {
            for b in 0..k {
                for a in 0..k {
                    if let Some((more, _)) = moves[b][a] {
                        if gain[b] + more > gain[a] {
                            gain[a] = gain[b] + more;
                            from[a] = Some(b);
                        }
                    }
                }
            }
        }
        let room = |a: &usize| division.iter().filter(|&&site| site == *a).count() < shares[*a];
        let mut a = (0..k).filter(room).max_by_key(|&a| gain[a]).expect("a site has room");
        while let Some(b) = from[a] {
            division[moves[b][a].expect("the chain went here").1] = a;
            a = b;
        }
        division.push(a);
    }
    division
}

/// Prices of the sites under which each street of a best division goes to a site of greatest value plus price.
fn prices(table: &[Vec<i64>], division: &[usize], k: usize) -> Vec<i64> {
    let moves = moves(table, division, k);
    let mut price = vec![0; k];
    for pass in 0..=k {
        let mut changed = false;
        for b in 0..k {
            for a in 0..k {
                if let Some((gain, _)) = moves[b][a] {
                    if price[b] - gain < price[a] {
                        price[a] = price[b] - gain;
                        changed = true;
                    }
                }
            }
        }
        assert!(!changed || pass < k, "the division is not best");
    }
    price
}

/// A division in the shares is best exactly where each street goes to a site of greatest value plus price, since the prices add the
/// same to all. Of those the first: each street in turn gets the lowest such site from which the others can still be served.
fn first_best(table: &[Vec<i64>], mut division: Vec<usize>, k: usize) -> Vec<usize> {
    let price = prices(table, &division, k);
    let good: Vec<Vec<bool>> = table
        .iter()
        .map(|row| {
            let most = (0..k).map(|a| row[a] + price[a]).max();
            (0..k).map(|a| Some(row[a] + price[a]) == most).collect()
        })
        .collect();
    for street in 0..table.len() {
        for a in (0..division[street]).filter(|&a| good[street][a]) {
            if make_room(&good, &mut division, street, a) {
                division[street] = a;
                break;
            }
        }
    }
    division
}

/// Moves later streets, each to a site that is good for it, from site `a` on, until one arrives at the site that `street` leaves.
fn make_room(good: &[Vec<bool>], division: &mut [usize], street: usize, a: usize) -> bool {
    let end = division[street];
    let mut reached: Vec<Option<(usize, usize)>> = vec![None; good[0].len()];
    let mut queue = VecDeque::from([a]);
    while let Some(b) = queue.pop_front() {
        for later in (street + 1..division.len()).filter(|&later| division[later] == b) {
            for c in (0..reached.len()).filter(|&c| good[later][c]) {
                if c != a && reached[c].is_none() {
                    reached[c] = Some((b, later));
                    queue.push_back(c);
                }
            }
        }
    }
    if reached[end].is_none() {
        return false;
    }
    let mut c = end;
    while c != a {
        let (b, later) = reached[c].expect("the way back");
        division[later] = c;
        c = b;
    }
    true
}
