//! The documents' worked surveys, and each refusal once.
use crate::plain::survey::Town;
use planner::{slices, Form, Kind, Loads, Refusal, ROWS_LENGTH, SCORES_LENGTH, WEIGHTS_LENGTH};

/// A town from its lists.
fn town(m: usize, k: usize, scores: &[u16], lists: &[&[u8]]) -> Town {
    let mut rows = Vec::new();
    for list in lists {
        rows.extend_from_slice(list);
        rows.resize(rows.len() + m - list.len(), 0);
    }
    Town { n: lists.len(), m, k, scores: scores.to_vec(), weights: vec![1; lists.len()], rows }
}

/// Total, sites in order of choice, and the site of each street.
type Plan = Result<(u32, Vec<u8>, Vec<u8>), Refusal>;

fn plan(kind: Kind, t: &Town) -> Plan {
    let (mut division, mut chosen) = (vec![0; t.n], vec![0; t.k]);
    let total = slices::plan(t.n, t.m, t.k, kind, &t.scores, &t.weights, &t.rows, &mut division, &mut chosen)?;
    Ok((total, chosen, division))
}

fn floor(t: &Town) -> Result<u32, Refusal> {
    slices::floor(t.n, t.m, t.k, &t.scores, &t.weights, &t.rows)
}

fn p1(k: usize) -> Town {
    town(3, k, &[2, 1, 0], &[&[1, 2, 3], &[1, 3, 2], &[2, 1], &[3, 2, 1]])
}

fn p3() -> Town {
    town(3, 2, &[1, 1, 0], &[&[1], &[1, 3], &[1, 3], &[2, 3], &[2, 3], &[2]])
}

fn p5() -> Town {
    town(2, 2, &[2, 1], &[&[1, 2], &[1]])
}

const P5_FILE: [u8; 28] = [
    0x54, 0x4E, 0x02, 0x00, 0x02, 0x02, 0x01, 0x53, 0x43, 0x02, 0x00, 0x01, 0x00, 0x53, 0x54, 0x01, 0x00, 0x02, 0x01, 0x02, 0x53, 0x54,
    0x02, 0x00, 0x01, 0x01, 0x45, 0x4E,
];

#[test]
fn worked_surveys() {
    assert_eq!(plan(Kind::Free, &p1(2)), Ok((7, vec![1, 2], vec![1, 1, 2, 2])));
    assert_eq!(plan(Kind::Balanced, &p1(2)), Ok((7, vec![1, 2], vec![1, 1, 2, 2])));
    assert_eq!(floor(&p1(2)), Ok(2));
    assert_eq!(plan(Kind::Free, &p3()), Ok((5, vec![3, 1], vec![1, 1, 1, 3, 3, 0])));
    assert_eq!(plan(Kind::Balanced, &p3()), Ok((6, vec![1, 2], vec![1, 1, 1, 2, 2, 2])));
    assert_eq!(plan(Kind::Balanced, &p5()), Ok((3, vec![1, 2], vec![2, 1])));
    let all: Vec<u8> = (1..=10).collect();
    assert_eq!(floor(&town(10, 3, &[9, 8, 7, 6, 5, 4, 3, 2, 1, 0], &[&all[..]; 9])), Ok(30));
    assert_eq!(plan(Kind::Free, &p1(3)).map(|plan| (plan.0, plan.1)), Ok((8, vec![1, 2, 3])));
    assert_eq!(plan(Kind::Balanced, &p1(3)), Ok((8, vec![1, 2, 3], vec![1, 1, 2, 3])));
    let p8 = town(1, 1, &[7], &[&[]]);
    assert_eq!(plan(Kind::Free, &p8), Ok((0, vec![1], vec![0])));
    assert_eq!(plan(Kind::Balanced, &p8), Ok((0, vec![1], vec![1])));
}

/// Ten streets, as in examples/ten-streets.survey.
fn ten_streets(k: usize) -> Town {
    let lists: [&[u8]; 10] =
        [&[4, 2, 5, 3, 1], &[4, 2, 5, 3, 1], &[2, 1, 3], &[2, 1], &[2, 3, 1], &[4, 2, 5], &[5], &[2, 5, 1, 3, 4], &[1, 2, 3, 4, 5], &[4]];
    town(5, k, &[4, 3, 2, 1, 0], &lists)
}

/// Total and site of each street of the best balanced division over a list.
fn divided(t: &Town, sites: &[u8]) -> Result<(u32, Vec<u8>), Refusal> {
    let mut division = vec![0; t.n];
    let total = slices::balanced_division(t.n, t.m, &t.scores, &t.weights, &t.rows, sites, &mut division)?;
    Ok((total, division))
}

#[test]
fn uneven_shares() {
    assert_eq!(floor(&p1(3)), Ok(5));
    assert_eq!(plan(Kind::Balanced, &ten_streets(3)), Ok((34, vec![2, 4, 1], vec![2, 4, 1, 2, 2, 4, 1, 2, 1, 4])));
    // the first of the list has four streets, the others three
    assert_eq!(divided(&ten_streets(3), &[1, 2, 4]), Ok((33, vec![2, 4, 1, 1, 2, 4, 1, 2, 1, 4])));
    assert_eq!(divided(&ten_streets(3), &[2, 4, 1]), Ok((34, vec![2, 4, 1, 2, 2, 4, 1, 2, 1, 4])));
    assert_eq!(divided(&ten_streets(3), &[4, 1, 2]), Ok((35, vec![4, 4, 1, 2, 2, 4, 1, 2, 1, 4])));
}

#[test]
fn as_many_sites_as_streets_or_more() {
    let t = town(3, 3, &[2, 1, 0], &[&[1, 2, 3], &[1, 3, 2], &[2, 1]]);
    assert_eq!(plan(Kind::Balanced, &t), Ok((5, vec![1, 2, 3], vec![1, 3, 2])));
    assert_eq!(floor(&t), Ok(3));
    let t = town(3, 3, &[2, 1, 0], &[&[1, 2, 3], &[1, 3, 2]]);
    assert_eq!(plan(Kind::Balanced, &t), Err(Refusal::Share));
    assert_eq!(floor(&t), Err(Refusal::Share));
    assert_eq!(divided(&t, &[3, 2, 1]), Err(Refusal::Share));
    assert_eq!(divided(&t, &[3, 2]), Ok((2, vec![2, 3])));
    let loads = Loads::none(2, 3);
    assert_eq!(slices::hand_plan(2, 3, 3, Kind::Balanced, &t.scores, &t.weights, &t.rows, &[1, 3], 3, loads), Err(Refusal::Share));
    // no other call has this refusal
    assert_eq!(plan(Kind::Free, &t), Ok((4, vec![1, 2, 3], vec![1, 1])));
    assert_eq!(slices::hand_plan(2, 3, 3, Kind::Free, &t.scores, &t.weights, &t.rows, &[1, 3], 3, loads), Ok(3));
    assert_eq!(slices::list_total(2, 3, &t.scores, &t.weights, &t.rows, &[3, 2, 1]), Ok(4));
    assert_eq!(slices::write_file(2, 3, 3, Kind::Balanced, Form::Old, &t.scores, &t.weights, &t.rows, &mut [0; 40]), Ok(33));
}

#[test]
fn uneven_hand_plans() {
    let test = |t: &Town, division: &[u8], claimed| {
        slices::hand_plan(t.n, t.m, t.k, Kind::Balanced, &t.scores, &t.weights, &t.rows, division, claimed, Loads::none(t.n, t.m))
    };
    // any of the three may have two streets
    assert_eq!(test(&p1(3), &[1, 1, 2, 3], 8), Ok(8));
    assert_eq!(test(&p1(3), &[1, 2, 2, 3], 6), Ok(6));
    assert_eq!(test(&p1(3), &[1, 3, 2, 3], 7), Ok(7));
    assert_eq!(test(&p1(3), &[1, 1, 2, 3], 7), Err(Refusal::ClaimedTotal));
    // two sites with two streets each, and three streets at one
    assert_eq!(test(&p1(3), &[1, 1, 2, 2], 7), Err(Refusal::SitesUsed));
    assert_eq!(test(&p1(3), &[1, 1, 1, 2], 6), Err(Refusal::SitesUsed));
    // of ten streets over three sites no site has five
    assert_eq!(test(&ten_streets(3), &[2, 4, 1, 2, 2, 4, 1, 2, 1, 4], 34), Ok(34));
    assert_eq!(test(&ten_streets(3), &[2, 4, 1, 2, 2, 4, 2, 2, 1, 4], 34), Err(Refusal::SitesUsed));
}

/// P1 with these weights.
fn weighted(k: usize, weights: [u8; 4]) -> Town {
    Town { weights: weights.to_vec(), ..p1(k) }
}

#[test]
fn weights_change_sites_and_order() {
    // street 4 counts for nine: its first site is chosen first
    assert_eq!(plan(Kind::Free, &weighted(2, [1, 1, 1, 9])), Ok((23, vec![3, 1], vec![1, 1, 1, 3])));
    assert_eq!(plan(Kind::Balanced, &weighted(2, [1, 1, 1, 9])), Ok((22, vec![3, 1], vec![1, 1, 3, 3])));
    // all alike, whatever they are: the same plan, and so many times its total and floor
    for weight in [1, 2, 50, 99] {
        let t = weighted(2, [weight; 4]);
        assert_eq!(plan(Kind::Free, &t), Ok((7 * u32::from(weight), vec![1, 2], vec![1, 1, 2, 2])));
        assert_eq!(plan(Kind::Balanced, &t), Ok((7 * u32::from(weight), vec![1, 2], vec![1, 1, 2, 2])));
        assert_eq!(floor(&t), Ok(2 * u32::from(weight)));
    }
    // the smallest weight counts for the floor
    assert_eq!(floor(&weighted(2, [99, 3, 2, 99])), Ok(4));
    // in the rounds the counted score comes before the place: with the place first, sites 1 and 2 would be chosen
    let t = Town { weights: vec![1, 3, 1, 2], ..town(3, 2, &[2, 1, 0], &[&[3, 2, 1], &[1, 3, 2], &[3, 1, 2], &[2, 1]]) };
    assert_eq!(plan(Kind::Balanced, &t), Ok((12, vec![1, 3], vec![3, 1, 3, 1])));
    // and the place before the number: without the place, sites 2 and 3
    let t = Town { weights: vec![1, 2, 1, 2], ..town(3, 2, &[2, 1, 0], &[&[3, 2, 1], &[1, 2, 3], &[2, 1, 3], &[2, 3]]) };
    assert_eq!(plan(Kind::Balanced, &t), Ok((10, vec![2, 1], vec![1, 1, 2, 2])));
}

#[test]
fn the_greatest_total() {
    let t = Town { n: 400, m: 64, k: 1, scores: vec![1_000; 64], weights: vec![99; 400], rows: (1..=64).cycle().take(25_600).collect() };
    for kind in [Kind::Free, Kind::Balanced] {
        assert_eq!(plan(kind, &t), Ok((39_600_000, vec![1], vec![1; 400])));
    }
    assert_eq!(floor(&t), Ok(39_600_000));
    assert_eq!(slices::list_total(400, 64, &t.scores, &t.weights, &t.rows, &[64]), Ok(39_600_000));
    assert_eq!(
        slices::hand_plan(400, 64, 1, Kind::Free, &t.scores, &t.weights, &t.rows, &[9; 400], 39_600_000, Loads::none(400, 64)),
        Ok(39_600_000)
    );
}

#[test]
fn weights_that_are_refused() {
    let t = p1(2);
    let check = |scores: &[u16], weights: &[u8], rows: &[u8]| slices::check_survey(4, 3, 2, scores, weights, rows).unwrap_err();
    assert_eq!(check(&t.scores, &[1; 3], &t.rows), Refusal::BufferLength);
    assert_eq!(check(&t.scores, &[1; 5], &t.rows), Refusal::BufferLength);
    assert_eq!(check(&t.scores, &[1, 1, 1, 0], &t.rows), Refusal::Weight);
    // after 8 and before the rows
    assert_eq!(check(&[2, 1, 2], &[1, 1, 1, 0], &t.rows), Refusal::Score);
    assert_eq!(check(&t.scores, &[1, 1, 1, 0], &[4; 12]), Refusal::Weight);
    let row = |weight| slices::row_score(3, &t.scores, weight, &[3, 2, 1], 3);
    assert_eq!([0, 1, 99, 100].map(row), [Err(Refusal::Weight), Ok(2), Ok(198), Err(Refusal::Weight)]);
    assert_eq!(slices::row_score(3, &t.scores, 0, &[4, 2, 1], 9), Err(Refusal::Weight));
}

/// The two sums of site 1 are 11 and 5, those of site 2 are 15 and 7, each just its limit.
const LOADS: Loads = Loads { kilograms: &[5, 6, 7, 8], litres: &[1, 4, 3, 4], kilogram_limits: &[11, 15, 0], litre_limits: &[5, 7, 0] };

#[test]
fn loads_of_hand_plans() {
    let t = p1(2);
    let both = |loads| {
        let test = |kind| slices::hand_plan(4, 3, 2, kind, &t.scores, &t.weights, &t.rows, &[1, 1, 2, 2], 7, loads);
        assert_eq!(test(Kind::Free), test(Kind::Balanced));
        test(Kind::Free)
    };
    assert_eq!(both(LOADS), Ok(7));
    assert_eq!(both(Loads { kilogram_limits: &[11, 14, 0], ..LOADS }), Err(Refusal::Kilograms));
    assert_eq!(both(Loads { litre_limits: &[4, 7, 0], ..LOADS }), Err(Refusal::Litres));
    // the sites by number, at each of them kilograms first
    assert_eq!(both(Loads { kilogram_limits: &[11, 14, 0], litre_limits: &[4, 7, 0], ..LOADS }), Err(Refusal::Litres));
    assert_eq!(both(Loads { kilogram_limits: &[11, 14, 0], litre_limits: &[5, 6, 0], ..LOADS }), Err(Refusal::Kilograms));
    // a number that is too large comes first, whether it counts for a site or not
    assert_eq!(both(Loads { litre_limits: &[4, 7, 1_000_001], ..LOADS }), Err(Refusal::Load));
    assert_eq!(both(Loads { litre_limits: &[5, 7, 1_000_000], ..LOADS }), Ok(7));
    // street 4 is unserved: it loads no site, and its numbers are tried all the same
    let test = |loads| slices::hand_plan(4, 3, 2, Kind::Free, &t.scores, &t.weights, &t.rows, &[1, 1, 2, 0], 6, loads);
    assert_eq!(test(Loads { kilograms: &[5, 6, 15, 1_000_000], ..LOADS }), Ok(6));
    assert_eq!(test(Loads { kilograms: &[5, 6, 16, 1_000_000], ..LOADS }), Err(Refusal::Kilograms));
    assert_eq!(test(Loads { kilograms: &[5, 6, 15, 1_000_001], ..LOADS }), Err(Refusal::Load));
}

#[test]
fn worked_file() {
    let t = p5();
    let (mut scores, mut weights, mut rows) = ([0; SCORES_LENGTH], [0; WEIGHTS_LENGTH], [0; ROWS_LENGTH]);
    // P5 in the new form, with weights of 1 and 3
    let weighted = [b"TW", &P5_FILE[2..13], b"HW\x01\x03", &P5_FILE[13..]].concat();
    for (form, of_streets, bytes) in [(Form::Old, [1, 1], &P5_FILE[..]), (Form::New, [1, 3], &weighted)] {
        let mut file = vec![0; bytes.len()];
        let length = slices::write_file(t.n, t.m, t.k, Kind::Balanced, form, &t.scores, &of_streets, &t.rows, &mut file);
        assert_eq!((length, &file[..]), (Ok(bytes.len()), bytes));
        let sizes = slices::read_file(&file, &mut scores, &mut weights, &mut rows);
        let sizes = sizes.map(|sizes| (sizes.n, sizes.m, sizes.k, sizes.kind, sizes.form));
        assert_eq!(sizes, Ok((2, 2, 2, Kind::Balanced, form)));
        assert_eq!((&scores[..2], &weights[..2], &rows[..4]), (&t.scores[..], &of_streets[..], &t.rows[..]));
    }
    assert_eq!(slices::read_file(&[], &mut scores, &mut weights, &mut rows), Err(Refusal::FileEnds));
    assert_eq!(slices::convert_file(&weighted, Form::Old, &mut [0; 32]), Err(Refusal::LostWeight));
    let mut buffer = [9; 33];
    assert_eq!(slices::convert_file(&P5_FILE, Form::New, &mut buffer), Ok(32));
    assert_eq!((&buffer[..15], &buffer[15..17], &buffer[17..]), (&weighted[..15], &[1, 1][..], &[&P5_FILE[13..], &[9]].concat()[..]));
}

/// The reader's answer to P5's file with one byte changed, and one more or less behind it.
fn changed(index: usize, byte: u8, length: usize) -> Refusal {
    let mut file = P5_FILE.to_vec();
    file[index] = byte;
    file.resize(length, 0);
    slices::read_file(&file, &mut [0; SCORES_LENGTH], &mut [0; WEIGHTS_LENGTH], &mut [0; ROWS_LENGTH]).unwrap_err()
}

#[test]
fn each_refusal() {
    let (t, mut bytes) = (p1(2), [0; 40]);
    let check = |n, m, k, scores: &[u16], rows: &[u8]| slices::check_survey(n, m, k, scores, &t.weights, rows).unwrap_err();
    let with = |index: usize, byte| {
        let mut rows = t.rows.clone();
        rows[index] = byte;
        check(4, 3, 2, &t.scores, &rows)
    };
    let list = |sites: &[u8]| slices::list_total(4, 3, &t.scores, &t.weights, &t.rows, sites).unwrap_err();
    let hand = |division: [u8; 4], claimed, loads| {
        slices::hand_plan(4, 3, 2, Kind::Free, &t.scores, &t.weights, &t.rows, &division, claimed, loads).unwrap_err()
    };
    let write = |weights: &[u8], file: &mut [u8]| {
        slices::write_file(4, 3, 2, Kind::Balanced, Form::Old, &t.scores, weights, &t.rows, file).unwrap_err()
    };
    let given = [
        check(0, 3, 2, &t.scores, &t.rows),
        check(4, 65, 2, &t.scores, &t.rows),
        check(4, 3, 4, &t.scores, &t.rows),
        changed(6, 2, 28),
        floor(&town(3, 3, &[2, 1, 0], &[&[1, 2, 3], &[1, 3, 2]])).unwrap_err(),
        check(4, 3, 2, &t.scores, &t.rows[1..]),
        write(&t.weights, &mut bytes),
        check(4, 3, 2, &[2, 1, 2], &t.rows),
        with(0, 0),
        with(0, 4),
        with(0, 2),
        changed(0, b'T', 27),
        changed(13, b'E', 28),
        changed(15, 2, 28),
        changed(17, 3, 28),
        changed(0, b'T', 29),
        list(&[1, 0]),
        hand([1, 2, 3, 0], 0, Loads::none(4, 3)),
        hand([1, 1, 2, 2], 6, LOADS),
        list(&[1, 1]),
        hand([1, 1, 2, 2], 7, Loads { litres: &[1, 4, 3, 1_000_001], ..LOADS }),
        hand([1, 1, 2, 2], 7, Loads { kilograms: &[5, 6, 7, 9], ..LOADS }),
        hand([1, 1, 2, 2], 7, Loads { litres: &[1, 5, 3, 4], ..LOADS }),
        slices::check_survey(4, 3, 2, &t.scores, &[1, 1, 1, 100], &t.rows).unwrap_err(),
        write(&[1, 1, 1, 2], &mut bytes),
    ];
    assert_eq!(given, Refusal::ALL);
}
