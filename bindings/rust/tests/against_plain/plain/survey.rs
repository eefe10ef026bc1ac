//! The survey: scores, weights, rows, places.

/// A survey as a caller hands it over: nothing of it need be right.
#[derive(Clone, Debug, PartialEq, Eq)]
pub struct Town {
    pub n: usize,
    pub m: usize,
    pub k: usize,
    pub scores: Vec<u16>,
    pub weights: Vec<u8>,
    pub rows: Vec<u8>,
}

/// All that stands before the first zero.
pub fn ranked(row: &[u8]) -> &[u8] {
    match row.iter().position(|&byte| byte == 0) {
        Some(end) => &row[..end],
        None => row,
    }
}

/// The place of a site in a row, 1 the best.
pub fn place(row: &[u8], site: u8) -> Option<usize> {
    ranked(row).iter().position(|&byte| byte == site).map(|index| index + 1)
}

/// The score that a row gives a site: 0 where it is not ranked.
pub fn score(scores: &[u16], row: &[u8], site: u8) -> u32 {
    place(row, site).map_or(0, |place| u32::from(scores[place - 1]))
}

impl Town {
    pub fn row(&self, street: usize) -> &[u8] {
        &self.rows[street * self.m..(street + 1) * self.m]
    }

    /// The town with streets that all count alike. A number of streets that is too large is refused for itself.
    pub fn unweighted(&self) -> Town {
        Town { weights: vec![1; self.n.min(400)], ..self.clone() }
    }

    /// The numbers of all sites.
    pub fn sites(&self) -> impl Iterator<Item = u8> {
        1..=self.m as u8
    }

    /// The score that each street gives each site, times its weight, with 0 for site 0.
    pub fn values(&self) -> Vec<Vec<u32>> {
        let value = |street, site| u32::from(self.weights[street]) * score(&self.scores, self.row(street), site);
        (0..self.n).map(|street| (0..=self.m as u8).map(|site| value(street, site)).collect()).collect()
    }
}

/// The total of a division: the sum over streets of the value of its site for each.
pub fn division_total(values: &[Vec<u32>], division: &[u8]) -> u32 {
    values.iter().zip(division).map(|(value, &site)| value[site as usize]).sum()
}
