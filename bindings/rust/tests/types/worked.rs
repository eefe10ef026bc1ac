//! Worked surveys whose plans are known.
use planner::{HandPlan, Kind, Plan, Refusal, Survey};

/// Total, sites in order of choice, and the site of each street.
type Parts = (u32, Vec<u8>, Vec<u8>);

fn parts(plan: Result<Plan, Refusal>) -> Result<Parts, Refusal> {
    plan.map(|plan| (plan.total, plan.sites, plan.division.into_bytes()))
}

pub fn p1() -> Survey {
    Survey::new(&[2, 1, 0], &[&[1, 2, 3][..], &[1, 3, 2], &[2, 1], &[3, 2, 1]]).expect("a right survey")
}

fn p3() -> Survey {
    Survey::new(&[1, 1, 0], &[vec![1], vec![1, 3], vec![1, 3], vec![2, 3], vec![2, 3], vec![2]]).expect("a right survey")
}

#[test]
fn plans() {
    assert_eq!(parts(p1().plan(Kind::Free, 2)), Ok((7, vec![1, 2], vec![1, 1, 2, 2])));
    assert_eq!(parts(p1().plan(Kind::Balanced, 2)), Ok((7, vec![1, 2], vec![1, 1, 2, 2])));
    assert_eq!(parts(p1().plan(Kind::Free, 3)).map(|parts| (parts.0, parts.1)), Ok((8, vec![1, 2, 3])));
    assert_eq!(parts(p1().plan(Kind::Balanced, 3)), Ok((8, vec![1, 2, 3], vec![1, 1, 2, 3])));
    assert_eq!(parts(p3().plan(Kind::Free, 2)), Ok((5, vec![3, 1], vec![1, 1, 1, 3, 3, 0])));
    assert_eq!(parts(p3().plan(Kind::Balanced, 2)), Ok((6, vec![1, 2], vec![1, 1, 1, 2, 2, 2])));
    let p8 = Survey::new(&[7], &[[]]).expect("a right survey");
    assert_eq!(parts(p8.plan(Kind::Free, 1)), Ok((0, vec![1], vec![0])));
    assert_eq!(parts(p8.plan(Kind::Balanced, 1)), Ok((0, vec![1], vec![1])));
}

#[test]
fn plans_with_weights() {
    let survey = p1().with_weights(&[1, 1, 1, 9]).expect("right weights");
    assert_eq!(parts(survey.plan(Kind::Free, 2)), Ok((23, vec![3, 1], vec![1, 1, 1, 3])));
    assert_eq!(parts(survey.plan(Kind::Balanced, 2)), Ok((22, vec![3, 1], vec![1, 1, 3, 3])));
    assert_eq!(parts(survey.divide(Kind::Free, &[1, 2])), Ok((15, vec![1, 2], vec![1, 1, 2, 2])));
    assert_eq!((survey.score(4, 3), survey.score(4, 2), survey.score(3, 3)), (Some(18), Some(9), Some(0)));
    assert_eq!(survey.test(&HandPlan::new(Kind::Balanced, 2, [1, 1, 3, 3], 22)), Ok(22));
    assert_eq!(survey.test(&HandPlan::new(Kind::Balanced, 2, [1, 1, 3, 3], 6)), Err(Refusal::ClaimedTotal));
    // weights that are given again stand in place of those before
    assert_eq!(survey.with_weights(&[1; 4]), Ok(p1()));
    assert_eq!(p1().with_weights(&[2, 3, 2, 99]).and_then(|survey| survey.floor(2)), Ok(4));
}

#[test]
fn plans_over_given_sites() {
    assert_eq!(parts(p3().divide(Kind::Free, &[2, 1])), Ok((6, vec![2, 1], vec![1, 1, 1, 2, 2, 2])));
    assert_eq!(parts(p3().divide(Kind::Balanced, &[3, 1])), Ok((5, vec![3, 1], vec![1, 1, 1, 3, 3, 3])));
    // the first that is given has one street more
    assert_eq!(parts(p1().divide(Kind::Balanced, &[2, 1, 3])), Ok((7, vec![2, 1, 3], vec![2, 1, 2, 3])));
    assert_eq!(parts(p1().divide(Kind::Balanced, &[3, 1, 2])), Ok((7, vec![3, 1, 2], vec![1, 3, 2, 3])));
    assert_eq!(p3().list_total(&[3]), Ok(4));
    assert_eq!(p1().floor(2), Ok(2));
    assert_eq!(p1().floor(3), Ok(5));
}

#[test]
fn more_sites_than_streets() {
    let survey = Survey::new(&[2, 1, 0], &[[1, 2, 3], [1, 3, 2]]).expect("a right survey");
    assert_eq!(survey.plan(Kind::Balanced, 3), Err(Refusal::Share));
    assert_eq!(survey.divide(Kind::Balanced, &[1, 2, 3]), Err(Refusal::Share));
    assert_eq!(survey.floor(3), Err(Refusal::Share));
    assert_eq!(survey.test(&HandPlan::new(Kind::Balanced, 3, [1, 3], 3)), Err(Refusal::Share));
    assert_eq!(survey.test(&HandPlan::new(Kind::Free, 3, [1, 3], 3)), Ok(3));
    assert_eq!(parts(survey.plan(Kind::Free, 3)), Ok((4, vec![1, 2, 3], vec![1, 1])));
    assert_eq!(parts(survey.divide(Kind::Free, &[3, 2, 1])), Ok((4, vec![3, 2, 1], vec![1, 1])));
}

#[test]
fn hand_plans() {
    let test = |kind, k, division: [u8; 4], claimed| p1().test(&HandPlan::new(kind, k, division, claimed));
    assert_eq!(test(Kind::Free, 2, [1, 1, 2, 0], 6), Ok(6));
    assert_eq!(test(Kind::Balanced, 2, [1, 1, 2, 2], 7), Ok(7));
    assert_eq!(test(Kind::Free, 4, [1, 1, 2, 2], 7), Err(Refusal::Chosen));
    assert_eq!(test(Kind::Balanced, 3, [1, 1, 2, 3], 8), Ok(8));
    assert_eq!(test(Kind::Balanced, 3, [1, 3, 2, 3], 7), Ok(7));
    assert_eq!(test(Kind::Balanced, 3, [1, 1, 2, 2], 7), Err(Refusal::SitesUsed));
    assert_eq!(test(Kind::Free, 2, [1, 1, 2, 4], 6), Err(Refusal::SiteOutside));
    assert_eq!(test(Kind::Free, 2, [1, 2, 3, 0], 6), Err(Refusal::SitesUsed));
    assert_eq!(test(Kind::Balanced, 2, [1, 1, 1, 2], 6), Err(Refusal::SitesUsed));
    assert_eq!(test(Kind::Balanced, 2, [1, 1, 2, 2], 6), Err(Refusal::ClaimedTotal));
    assert_eq!(p1().test(&HandPlan::new(Kind::Free, 2, vec![1, 1, 2], 6)), Err(Refusal::BufferLength));
    let plan = HandPlan::new(Kind::Balanced, 2, &[1, 1, 2, 2][..], 7);
    assert_eq!((plan.kind(), plan.k(), plan.division().as_bytes(), plan.claimed()), (Kind::Balanced, 2, &[1, 1, 2, 2][..], 7));
    assert_eq!(p1().plan(Kind::Balanced, 2).map(|ours| ours.to_hand_plan(Kind::Balanced)), Ok(plan));
}

#[test]
fn the_readme_prints_this() {
    let plan = p1().plan(Kind::Balanced, 2).expect("a right survey");
    let mut printed = format!("total {}, sites {:?}\n", plan.total, plan.sites);
    for (street, site) in &plan.division {
        printed += &format!("street {street}: site {}\n", site.expect("every street is served"));
    }
    assert!(include_str!("../../README.md").contains(&format!("```text\n{printed}```")), "the README does not have\n{printed}");
}
