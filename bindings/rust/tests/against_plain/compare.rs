//! One call of the library and the same by `plain`: the answer, and every byte lent, must agree. Each gives back the number that was
//! refused, 0 for an accepted call.
use crate::plain::loads::Loads;
use crate::plain::survey::{self, division_total, Town};
use crate::plain::{balanced, division, free, hand, refusals, BALANCED, FREE, NEW_FORM, OLD_FORM};
use crate::{any_kind, compare_files};
use planner::{slices, Refusal};
use std::fmt::Debug;

/// How many numbers a call can give back, 0 among them.
pub const NUMBERS: usize = Refusal::ALL.len() + 1;

/// What lent buffers hold before a call, so that a byte that is touched shows.
pub const OLD: u8 = 0xA5;

/// The lengths of a plan's buffers.
#[derive(Clone, Copy)]
pub struct Buffers {
    pub division: usize,
    pub chosen: usize,
}

/// An outcome of the library against one by `plain`.
pub fn same<T: PartialEq + Debug>(ours: Result<T, Refusal>, plain: Result<T, u8>, call: &str, town: &Town) -> u8 {
    let number = *plain.as_ref().err().unwrap_or(&0);
    assert_eq!(ours.map_err(|refusal| refusal.number() as u8), plain, "{call} of {town:?}");
    number
}

/// A buffer after a call: the new bytes where it was accepted, else the old ones.
pub fn held(buffer: &[u8], new: Option<&[u8]>, call: &str, town: &Town) {
    match new {
        Some(bytes) => assert_eq!(buffer, bytes, "the buffer of {call} of {town:?}"),
        None => assert!(buffer.iter().all(|&byte| byte == OLD), "a refused {call} of {town:?} wrote"),
    }
}

/// The best division: by paths, and on small towns by trying all as well, which must agree.
pub fn best_division(values: &[Vec<u32>], sites: &[u8]) -> Vec<u8> {
    if values.len() > 9 {
        return division::by_paths(values, sites);
    }
    let best = division::by_trying(values, sites);
    assert_eq!(division::by_paths(values, sites), best);
    best
}

pub fn check_survey(t: &Town) -> u8 {
    same(slices::check_survey(t.n, t.m, t.k, &t.scores, &t.weights, &t.rows), refusals::check(t), "check_survey", t)
}

pub fn ranked_part(row: &[u8]) {
    let part = slices::ranked_part(row);
    assert_eq!(part, survey::ranked(row));
    assert_eq!(part.as_ptr(), row.as_ptr());
}

pub fn row_score(t: &Town, weight: u8, row: &[u8], site: u8) -> u8 {
    let plain = refusals::row_score(t, weight, row, site).map(|()| u32::from(weight) * survey::score(&t.scores, row, site));
    same(slices::row_score(t.m, &t.scores, weight, row, site), plain, "row_score", t)
}

pub fn list_total(t: &Town, sites: &[u8]) -> u8 {
    let plain = refusals::list_total(t, sites).map(|()| free::total(&t.values(), sites));
    same(slices::list_total(t.n, t.m, &t.scores, &t.weights, &t.rows, sites), plain, "list_total", t)
}

pub fn free_division(t: &Town, sites: &[u8], length: usize) -> u8 {
    let mut buffer = vec![OLD; length];
    let ours = slices::free_division(t.n, t.m, &t.scores, &t.weights, &t.rows, sites, &mut buffer);
    let tried = refusals::free_division(t, sites, length);
    let new = tried.is_ok().then(|| free::divide(t, sites));
    held(&buffer, new.as_deref(), "free_division", t);
    same(ours, tried.map(|()| free::total(&t.values(), sites)), "free_division", t)
}

pub fn balanced_division(t: &Town, sites: &[u8], length: usize) -> u8 {
    let mut buffer = vec![OLD; length];
    let ours = slices::balanced_division(t.n, t.m, &t.scores, &t.weights, &t.rows, sites, &mut buffer);
    let tried = refusals::balanced_division(t, sites, length);
    let new = tried.is_ok().then(|| best_division(&t.values(), sites));
    held(&buffer, new.as_deref(), "balanced_division", t);
    same(ours, tried.map(|()| division_total(&t.values(), &buffer)), "balanced_division", t)
}

/// Sites, site of each street, and total.
type Planned = (Vec<u8>, Vec<u8>, u32);

/// The plan of a kind by `plain`.
fn plain_plan(t: &Town, kind: usize) -> Planned {
    let values = t.values();
    if kind == FREE {
        let sites = free::sites(t);
        let (division, total) = (free::divide(t, &sites), free::total(&values, &sites));
        return (sites, division, total);
    }
    let sites = balanced::sites(t);
    let division = best_division(&values, &sites);
    let total = division_total(&values, &division);
    (sites, division, total)
}

pub fn plan(t: &Town, kind: usize, lengths: Buffers) -> u8 {
    let (mut division, mut chosen) = (vec![OLD; lengths.division], vec![OLD; lengths.chosen]);
    let ours = any_kind::plan(t, kind, &mut division, &mut chosen);
    let plain = refusals::plan(t, kind, lengths.division, lengths.chosen).map(|()| plain_plan(t, kind));
    let (call, new) = (format!("plan of kind {kind}"), plain.as_ref().ok());
    held(&chosen, new.map(|(sites, _, _)| &sites[..]), &call, t);
    held(&division, new.map(|(_, division, _)| &division[..]), &call, t);
    same(ours, plain.map(|(_, _, total)| total), &call, t)
}

pub fn floor(t: &Town) -> u8 {
    let plain = refusals::floor(t).map(|()| balanced::floor(t));
    same(slices::floor(t.n, t.m, t.k, &t.scores, &t.weights, &t.rows), plain, "floor", t)
}

pub fn hand_plan(t: &Town, kind: usize, division: &[u8], claimed: u32, loads: &Loads) -> u8 {
    let ours = any_kind::hand_plan(t, kind, division, claimed, loads);
    let plain = hand::test(t, kind, division, claimed, loads).map(|()| division_total(&t.values(), division));
    same(ours, plain, &format!("hand_plan {division:?} of kind {kind} with {loads:?}"), t)
}

/// A right survey, asked for everything: both plans, the division of a list, the floor, and its files there and back.
pub fn everything(t: &Town, sites: &[u8], kind: usize) {
    assert_eq!(check_survey(t), 0);
    t.rows.chunks(t.m).for_each(ranked_part);
    for site in [0, 1, t.m as u8, t.m as u8 + 1] {
        row_score(t, t.weights[t.n - 1], t.row(t.n - 1), site);
    }
    list_total(t, sites);
    free_division(t, sites, t.n);
    balanced_division(t, sites, t.n);
    let exact = Buffers { division: t.n, chosen: t.k };
    plan(t, FREE, exact);
    plan(t, BALANCED, exact);
    floor(t);
    for (town, form) in [(&t.unweighted(), OLD_FORM), (t, NEW_FORM)] {
        compare_files::there_and_back(town, kind, form);
    }
}
