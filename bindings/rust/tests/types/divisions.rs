//! The site of each street, and the streets of each site; the kinds' numbers.
use planner::{Division, Kind, Refusal};

#[test]
fn sites_and_streets() {
    let division = Division::from(vec![2, 1, 2, 0, 255]);
    assert_eq!(
        [0, 1, 2, 3, 4, 5, 6, usize::MAX].map(|street| division.site(street)),
        [None, Some(2), Some(1), Some(2), None, Some(255), None, None]
    );
    assert_eq!(division.streets(2).collect::<Vec<_>>(), [1, 3]);
    assert_eq!(division.streets(255).collect::<Vec<_>>(), [5]);
    assert_eq!(division.streets(0).collect::<Vec<_>>(), [4]);
    assert_eq!(division.streets(7).count(), 0);
}

#[test]
fn one_street_after_the_other() {
    let division = Division::from([3, 0]);
    let mut sites = division.iter();
    assert_eq!(sites.len(), 2);
    assert_eq!(sites.next(), Some((1, Some(3))));
    assert_eq!(sites.len(), 1);
    assert_eq!(sites.next(), Some((2, None)));
    assert_eq!((sites.next(), sites.next()), (None, None));
    assert!((&division).into_iter().eq(division.iter()));
    assert_eq!(Division::default().iter().next(), None);
}

#[test]
fn bytes() {
    let division = Division::from(vec![2, 0]);
    assert_eq!(division, Division::from(&[2, 0][..]));
    assert_eq!(division, Division::from([2, 0]));
    assert_eq!(division.as_bytes(), [2, 0]);
    assert_eq!(division.into_bytes(), [2, 0]);
}

#[test]
fn kinds() {
    for (number, kind) in [Kind::Free, Kind::Balanced].into_iter().enumerate() {
        assert_eq!(usize::from(kind), number);
        assert_eq!(Kind::try_from(number), Ok(kind));
    }
    assert_eq!(Kind::try_from(2), Err(Refusal::Kind));
    assert_eq!(Kind::try_from(usize::MAX), Err(Refusal::Kind));
}
