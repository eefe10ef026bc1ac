//! The library's functions over slices that the caller lends, without types of their own and without allocation.
//!
//! Any numbers and any slices may be passed: each function checks all that it is given and gives its result, or the [`Refusal`] that comes
//! first. A refused call leaves the lent slices as they were. Sizes are `n` streets, `m` sites and `k` sites to choose. `scores` are the
//! `m` scores of the places, best first. `weights` are the `n` household weights of the streets, 1 to 99, which all are 1 where every
//! street counts alike: what a street gives a site is its score times its weight, and scores, totals and the floor are of these. `rows` are
//! `n` rows of `m` bytes: the sites that a street has ranked, best first, then zeros.
//!
//! A function here has the parameters of the library's own, a kind as [`Kind`], the form of a file as [`Form`](crate::Form) and the loads of
//! a hand plan together as [`Loads`], and gets more of them with it, while a program that uses the crate's types stays as it is.
//!
//! ```
//! use planner::{slices, Kind, Refusal};
//!
//! let (scores, weights, rows) = ([2, 1], [1, 1], [1, 2, 1, 0]);
//! let (mut division, mut chosen) = ([0; 2], [0; 2]);
//! assert_eq!(slices::plan(2, 2, 2, Kind::Balanced, &scores, &weights, &rows, &mut division, &mut chosen), Ok(3));
//! assert_eq!((division, chosen), ([2, 1], [1, 2]));
//! assert_eq!(slices::floor(2, 2, 3, &scores, &weights, &rows), Err(Refusal::Chosen));
//! ```
#![allow(clippy::too_many_arguments, reason = "a function here has the parameters of the library's own")]
mod files;

use crate::{raw, version, Kind, Loads, Refusal, VERSION};
pub use files::{convert_file, read_file, write_file, Sizes};

/// Takes a packed answer apart: the refusal in the upper half, the total in the lower.
fn unpacked(answer: u64) -> Result<u32, Refusal> {
    match (answer >> 32) as u32 {
        0 => Ok(answer as u32),
        number => Err(Refusal::try_from(number).unwrap_or_else(|unknown| {
            panic!("{unknown} in version {VERSION}, and the archive that is linked is of version {}", version())
        })),
    }
}

/// Checks a survey.
///
/// # Errors
/// In order of trial: 1 `Streets`, 2 `Sites`, 3 `Chosen`, 6 `BufferLength`, 8 `Score`, 24 `Weight`, and byte by byte of the rows
/// 9 `SiteAfterZero`, 10 `SiteNumber`, 11 `SiteTwice`.
pub fn check_survey(n: usize, m: usize, k: usize, scores: &[u16], weights: &[u8], rows: &[u8]) -> Result<(), Refusal> {
    // SAFETY: the three pointers are a slice's own, beside its length, and are only read.
    let answer = unsafe {
        raw::planner_check_survey(n, m, k, scores.as_ptr(), scores.len(), weights.as_ptr(), weights.len(), rows.as_ptr(), rows.len())
    };
    unpacked(answer).map(|_| ())
}

/// The ranked part of a row of any length: its bytes before the first zero.
#[must_use]
pub fn ranked_part(row: &[u8]) -> &[u8] {
    // SAFETY: the pointer is the slice's own, beside its length, and is only read.
    let length = unsafe { raw::planner_ranked_part(row.as_ptr(), row.len()) };
    &row[..length]
}

/// The score that one row of `m` bytes gives one site, times the weight of its street; 0 where it has not ranked the site.
///
/// # Errors
/// In order of trial: 2 `Sites`, 6 `BufferLength`, 8 `Score`, 24 `Weight`, byte by byte of the row 9 `SiteAfterZero`, 10 `SiteNumber`,
/// 11 `SiteTwice`; then 17 `SiteOutside` for the site.
pub fn row_score(m: usize, scores: &[u16], weight: u8, row: &[u8], site: u8) -> Result<u32, Refusal> {
    // SAFETY: both pointers are a slice's own, beside its length, and are only read.
    unpacked(unsafe { raw::planner_row_score(m, scores.as_ptr(), scores.len(), weight, row.as_ptr(), row.len(), site) })
}

/// The total of a list of 1 to `m` sites: the sum over the streets of the best score, times its weight, that any of the sites has from it.
///
/// # Errors
/// In order of trial: 1 `Streets`, 2 `Sites`, 3 `Chosen` for the list's length, 6 `BufferLength`, 8 `Score`, 24 `Weight`, byte by byte of the
/// rows 9 `SiteAfterZero`, 10 `SiteNumber`, 11 `SiteTwice`; then over the list 17 `SiteOutside` and 20 `ListedTwice`.
pub fn list_total(n: usize, m: usize, scores: &[u16], weights: &[u8], rows: &[u8], sites: &[u8]) -> Result<u32, Refusal> {
    // SAFETY: the four pointers are a slice's own, beside its length, and are only read.
    unpacked(unsafe {
        raw::planner_list_total(
            n,
            m,
            scores.as_ptr(),
            scores.len(),
            weights.as_ptr(),
            weights.len(),
            rows.as_ptr(),
            rows.len(),
            sites.as_ptr(),
            sites.len(),
        )
    })
}

/// The division of a kind over a list of sites.
pub(crate) fn division(
    kind: Kind,
    [n, m]: [usize; 2],
    scores: &[u16],
    weights: &[u8],
    rows: &[u8],
    sites: &[u8],
    division: &mut [u8],
) -> Result<u32, Refusal> {
    let call = match kind {
        Kind::Free => raw::planner_free_division,
        Kind::Balanced => raw::planner_balanced_division,
    };
    // SAFETY: each pointer is a slice's own, beside its length; only the division is written, and it is borrowed for this call alone.
    unpacked(unsafe {
        call(
            n,
            m,
            scores.as_ptr(),
            scores.len(),
            weights.as_ptr(),
            weights.len(),
            rows.as_ptr(),
            rows.len(),
            sites.as_ptr(),
            sites.len(),
            division.as_mut_ptr(),
            division.len(),
        )
    })
}

/// The free division over a list of 1 to `m` sites, into the `n` bytes of `division`: each street goes to the listed site that stands best
/// in its list, and to site 0 if it has ranked none of them. Gives the list's total.
///
/// # Errors
/// As [`list_total`], where 6 `BufferLength` is tried for the division too.
pub fn free_division(
    n: usize,
    m: usize,
    scores: &[u16],
    weights: &[u8],
    rows: &[u8],
    sites: &[u8],
    division: &mut [u8],
) -> Result<u32, Refusal> {
    self::division(Kind::Free, [n, m], scores, weights, rows, sites, division)
}

/// The best balanced division over a list of 1 to `m` sites, at most `n`, into the `n` bytes of `division`: each of k sites gets `n / k`
/// streets, the first `n % k` entries of the list one more, and no division in these shares totals more. Of several best ones it is the
/// one that gives street 1 the lowest site, then street 2, and so on. Gives the division's total.
///
/// # Errors
/// As [`list_total`], where 5 `Share` is tried after 3, and 6 `BufferLength` for the division too.
pub fn balanced_division(
    n: usize,
    m: usize,
    scores: &[u16],
    weights: &[u8],
    rows: &[u8],
    sites: &[u8],
    division: &mut [u8],
) -> Result<u32, Refusal> {
    self::division(Kind::Balanced, [n, m], scores, weights, rows, sites, division)
}

/// The plan of a kind: the site of each street into the `n` bytes of `division`, the sites in order of choice into the `k` bytes of
/// `chosen`. Gives the total.
///
/// In a free plan each of `k` rounds adds the site that raises the total most, the lowest number on a tie; then the streets go to them as
/// in [`free_division`]. In a balanced one each round deals its site `n / k` streets, the first `n % k` rounds one more: those that give it
/// the highest score times weight, then the best place, then by number. Then the streets are divided over the sites as in
/// [`balanced_division`].
///
/// # Errors
/// As [`check_survey`], where for a balanced plan 5 `Share` is tried after 3, and 6 `BufferLength` for the division and the chosen sites
/// too.
pub fn plan(
    n: usize,
    m: usize,
    k: usize,
    kind: Kind,
    scores: &[u16],
    weights: &[u8],
    rows: &[u8],
    division: &mut [u8],
    chosen: &mut [u8],
) -> Result<u32, Refusal> {
    // SAFETY: each pointer is a slice's own, beside its length; the division and the chosen sites are written, and each is borrowed for
    // this call alone.
    unpacked(unsafe {
        raw::planner_plan(
            n,
            m,
            k,
            kind.into(),
            scores.as_ptr(),
            scores.len(),
            weights.as_ptr(),
            weights.len(),
            rows.as_ptr(),
            rows.len(),
            division.as_mut_ptr(),
            division.len(),
            chosen.as_mut_ptr(),
            chosen.len(),
        )
    })
}

/// The floor: a total that the balanced plan reaches in any case. It grows with the smallest weight.
///
/// # Errors
/// As [`check_survey`], where 5 `Share` is tried after 3.
pub fn floor(n: usize, m: usize, k: usize, scores: &[u16], weights: &[u8], rows: &[u8]) -> Result<u32, Refusal> {
    // SAFETY: the three pointers are a slice's own, beside its length, and are only read.
    unpacked(unsafe {
        raw::planner_floor(n, m, k, scores.as_ptr(), scores.len(), weights.as_ptr(), weights.len(), rows.as_ptr(), rows.len())
    })
}

/// Tests a hand-made plan of a kind: the site of each street, in a free plan 0 for none, the total that is claimed for it, and its
/// [`Loads`], kilograms and litres of `n` streets and the limits of `m` sites. Gives the plan's total, which the claimed one then is.
///
/// A free plan uses at most `k` sites. In a balanced one `n % k` sites, whichever they are, have `n / k + 1` streets each, and `k - n % k`
/// have `n / k`.
///
/// # Errors
/// As [`check_survey`], where for a balanced plan 5 `Share` is tried after 3, and 6 `BufferLength` for the division and the loads too; then
/// 21 `Load` over the loads and limits; over the division 17 `SiteOutside` and 18 `SitesUsed`; site by site 22 `Kilograms` before
/// 23 `Litres`; last 19 `ClaimedTotal`.
pub fn hand_plan(
    n: usize,
    m: usize,
    k: usize,
    kind: Kind,
    scores: &[u16],
    weights: &[u8],
    rows: &[u8],
    division: &[u8],
    claimed: u32,
    loads: Loads<'_>,
) -> Result<u32, Refusal> {
    let Loads { kilograms, litres, kilogram_limits, litre_limits } = loads;
    // SAFETY: each pointer is a slice's own, beside its length, and is only read.
    unpacked(unsafe {
        raw::planner_hand_plan(
            n,
            m,
            k,
            kind.into(),
            scores.as_ptr(),
            scores.len(),
            weights.as_ptr(),
            weights.len(),
            rows.as_ptr(),
            rows.len(),
            division.as_ptr(),
            division.len(),
            claimed,
            kilograms.as_ptr(),
            kilograms.len(),
            litres.as_ptr(),
            litres.len(),
            kilogram_limits.as_ptr(),
            kilogram_limits.len(),
            litre_limits.as_ptr(),
            litre_limits.len(),
        )
    })
}
