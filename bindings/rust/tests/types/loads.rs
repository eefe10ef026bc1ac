//! Loads that stand for none, and loads of a survey that are refused.
use crate::worked::p1;
use planner::{slices, HandPlan, Kind, Loads, Refusal, MAX_SITES, MAX_STREETS};

#[test]
fn none() {
    for (streets, sites) in [(1, 1), (4, 3), (MAX_STREETS, MAX_SITES), (1, MAX_SITES), (MAX_STREETS, 1)] {
        let (nothing, most) = (vec![0; streets], vec![1_000_000; sites]);
        let loads = Loads { kilograms: &nothing, litres: &nothing, kilogram_limits: &most, litre_limits: &most };
        assert_eq!(Loads::none(streets, sites), loads);
    }
    // larger towns are refused for their sizes
    assert_eq!(Loads::none(MAX_STREETS + 1, usize::MAX), Loads::none(MAX_STREETS, MAX_SITES));
    let rows = [0; 401];
    assert_eq!(slices::hand_plan(401, 1, 1, Kind::Free, &[0], &[1], &rows, &rows, 0, Loads::none(401, 1)), Err(Refusal::Streets));
    assert_eq!(slices::hand_plan(1, 65, 1, Kind::Free, &[0; 65], &[1], &rows[..65], &[0], 0, Loads::none(1, 65)), Err(Refusal::Sites));
}

/// The test of P1's plan, whose streets 1 and 2 go to site 1 and the others to site 2.
fn test(loads: Loads) -> Result<u32, Refusal> {
    let [free, balanced] = [Kind::Free, Kind::Balanced].map(|kind| p1().test_with_loads(&HandPlan::new(kind, 2, [1, 1, 2, 2], 7), loads));
    assert_eq!(free, balanced);
    free
}

#[test]
fn each_buffer_is_its_own() {
    let at_limits = Loads { kilograms: &[1, 2, 3, 4], litres: &[10, 20, 30, 40], kilogram_limits: &[3, 7, 0], litre_limits: &[30, 70, 0] };
    assert_eq!(test(at_limits), Ok(7));
    assert_eq!(test(Loads { kilograms: &[1, 2, 3, 5], ..at_limits }), Err(Refusal::Kilograms));
    assert_eq!(test(Loads { litres: &[10, 21, 30, 40], ..at_limits }), Err(Refusal::Litres));
    assert_eq!(test(Loads { kilogram_limits: &[2, 7, 0], ..at_limits }), Err(Refusal::Kilograms));
    assert_eq!(test(Loads { litre_limits: &[30, 69, 0], ..at_limits }), Err(Refusal::Litres));
}

#[test]
fn other_lengths() {
    let none = Loads::none(4, 3);
    assert_eq!(test(none), Ok(7));
    for length in [0, 3, 5] {
        let numbers = vec![0; length];
        assert_eq!(test(Loads { kilograms: &numbers, ..none }), Err(Refusal::BufferLength));
        assert_eq!(test(Loads { litres: &numbers, ..none }), Err(Refusal::BufferLength));
    }
    for length in [0, 2, 4] {
        let numbers = vec![0; length];
        assert_eq!(test(Loads { kilogram_limits: &numbers, ..none }), Err(Refusal::BufferLength));
        assert_eq!(test(Loads { litre_limits: &numbers, ..none }), Err(Refusal::BufferLength));
    }
}

#[test]
fn the_greatest_number() {
    let none = Loads::none(4, 3);
    let (most, more) = (Loads::MOST, Loads::MOST + 1);
    // one street's load is all that its site can take
    assert_eq!(test(Loads { kilograms: &[0, most, 0, most], litres: &[most, 0, 0, 0], ..none }), Ok(7));
    assert_eq!(test(Loads { kilograms: &[0, 0, 0, more], ..none }), Err(Refusal::Load));
    assert_eq!(test(Loads { litres: &[more, 0, 0, 0], ..none }), Err(Refusal::Load));
    assert_eq!(test(Loads { kilogram_limits: &[0, 0, more], ..none }), Err(Refusal::Load));
    assert_eq!(test(Loads { litre_limits: &[0, u32::MAX, 0], ..none }), Err(Refusal::Load));
}
