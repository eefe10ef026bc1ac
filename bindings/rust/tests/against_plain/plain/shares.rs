//! How many streets each round of a balanced plan deals, and each entry of a list of sites gets.

/// The shares of K rounds: one street to each in turn until all n are given, so that what is left over goes to the first rounds.
pub fn shares(n: usize, k: usize) -> Vec<usize> {
    let mut shares = vec![0; k];
    for street in 0..n {
        shares[street % k] += 1;
    }
    shares
}
