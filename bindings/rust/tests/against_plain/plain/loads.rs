//! What the streets bring in a week, and how much of it the sites can take.

/// Loads and limits as a caller hands them over: nothing of them need be right.
#[derive(Clone, Debug, PartialEq, Eq)]
pub struct Loads {
    pub kilograms: Vec<u32>,
    pub litres: Vec<u32>,
    pub kilogram_limits: Vec<u32>,
    pub litre_limits: Vec<u32>,
}

/// The sum of a site: over the streets whose site it is, what each brings.
pub fn sum(division: &[u8], brought: &[u32], site: u8) -> u64 {
    division.iter().zip(brought).filter(|(&given, _)| given == site).map(|(_, &load)| u64::from(load)).sum()
}
