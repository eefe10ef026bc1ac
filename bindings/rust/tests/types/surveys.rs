//! Surveys that are refused: each constructor gives the number of the library's check.
use crate::random::Random;
use crate::survey::Town;
use crate::{towns, NUMBERS};
use planner::{slices, Refusal, Survey};

/// Makes a town's scores or rows wrong in one way; seldom they stay right.
fn damage(random: &mut Random, town: &mut Town) {
    let (place, byte) = (random.below(town.scores.len()), random.below(town.rows.len()));
    match random.below(8) {
        0 => town.scores[place] = [1_001, u16::MAX][random.below(2)],
        1 => town.scores[place] = town.scores[0].wrapping_add(1),
        2 => town.rows.truncate(byte),
        3 => town.rows.push(0),
        _ => town.rows[byte] = [0, 1, town.m as u8, 65, random.below(256) as u8][random.below(5)],
    }
}

#[test]
fn damaged_rows() {
    let mut random = Random::new(23);
    let mut seen = [0; NUMBERS];
    for _ in 0..8_000 {
        let mut town = towns::any_town(&mut random, 9, 5);
        damage(&mut random, &mut town);
        let made = Survey::from_rows(&town.scores, &town.rows);
        seen[made.as_ref().err().map_or(0, |refusal| refusal.number() as usize)] += 1;
        // where the last row is not whole, it is counted or not: its length is refused
        let n = town.rows.len().div_ceil(town.m);
        let checked = slices::check_survey(n, town.m, 1, &town.scores, &vec![1; n], &town.rows);
        assert_eq!(made.map(|survey| (survey.scores().to_vec(), survey.rows().to_vec())), checked.map(|()| (town.scores, town.rows)));
    }
    for number in [0, 1, 6, 8, 9, 10, 11] {
        assert!(seen[number] > 50, "{number} came {} times", seen[number]);
    }
}

#[test]
fn damaged_lists() {
    let mut random = Random::new(24);
    let mut seen = [0; NUMBERS];
    for _ in 0..8_000 {
        let mut town = towns::any_town(&mut random, 9, 5);
        damage(&mut random, &mut town);
        town.rows.resize(town.n * town.m, 0);
        let mut lists: Vec<Vec<u8>> = town.rows.chunks(town.m).map(<[u8]>::to_vec).collect();
        for list in &mut lists {
            while list.last() == Some(&0) && !random.once_in(4) {
                list.pop();
            }
        }
        let made = Survey::new(&town.scores, &lists);
        seen[made.as_ref().err().map_or(0, |refusal| refusal.number() as usize)] += 1;
        let checked = slices::check_survey(town.n, town.m, 1, &town.scores, &town.weights, &town.rows);
        assert_eq!(made.map(|survey| survey.rows().to_vec()), checked.map(|()| town.rows));
    }
    for number in [0, 8, 9, 10, 11] {
        assert!(seen[number] > 50, "{number} came {} times", seen[number]);
    }
}

#[test]
fn damaged_weights() {
    let mut random = Random::new(27);
    let mut seen = [0; NUMBERS];
    for _ in 0..4_000 {
        let mut town = towns::any_town(&mut random, 9, 5);
        let street = random.below(town.n);
        match random.below(5) {
            0 => town.weights.truncate(street),
            1 => town.weights.push(1),
            2 => town.weights[street] = [0, 100, 255][random.below(3)],
            3 => town.weights[street] = random.below(256) as u8,
            _ => {}
        }
        let plain = Survey::from_rows(&town.scores, &town.rows).expect("a right survey");
        let made = plain.with_weights(&town.weights);
        seen[made.as_ref().err().map_or(0, |refusal| refusal.number() as usize)] += 1;
        let checked = slices::check_survey(town.n, town.m, 1, &town.scores, &town.weights, &town.rows);
        assert_eq!(made.map(|survey| survey.weights().to_vec()), checked.map(|()| town.weights));
    }
    for number in [0, 6, 24] {
        assert!(seen[number] > 50, "{number} came {} times", seen[number]);
    }
}

#[test]
fn wrong_sizes() {
    let (no_lists, long): ([&[u8]; 0], _) = ([], vec![0; 65]);
    assert_eq!(Survey::new(&[1], &no_lists), Err(Refusal::Streets));
    assert_eq!(Survey::new(&[], &no_lists), Err(Refusal::Streets));
    assert_eq!(Survey::new(&[1], &[[1]; 401]), Err(Refusal::Streets));
    assert_eq!(Survey::new(&[1], &[[1]; 400]).map(|survey| survey.streets()), Ok(400));
    assert_eq!(Survey::new(&[], &[[]]), Err(Refusal::Sites));
    assert_eq!(Survey::new(&[0; 65], &[[1]]), Err(Refusal::Sites));
    assert_eq!(Survey::new(&[0; 64], &[[1]]).map(|survey| survey.sites()), Ok(64));
    // a list that is too long comes before all else
    assert_eq!(Survey::new(&[0; 64], &[&[1][..], &long]), Err(Refusal::ListLength));
    assert_eq!(Survey::new(&[2_000], &[[0; 2]; 401]), Err(Refusal::ListLength));
    assert_eq!(Survey::new(&[], &[[1]]), Err(Refusal::ListLength));
    // rows that would not fit into memory are not made
    assert_eq!(Survey::new(&vec![0; 1 << 22], &[[]; 1 << 22]), Err(Refusal::Streets));
}

#[test]
fn rows_of_wrong_sizes() {
    assert_eq!(Survey::from_rows(&[1], &[]), Err(Refusal::Streets));
    assert_eq!(Survey::from_rows(&[1], &[1; 401]), Err(Refusal::Streets));
    assert_eq!(Survey::from_rows(&[], &[]), Err(Refusal::Sites));
    assert_eq!(Survey::from_rows(&[], &[1, 2]), Err(Refusal::Sites));
    assert_eq!(Survey::from_rows(&[0; 65], &[0; 65]), Err(Refusal::Sites));
    // the last row is not whole
    assert_eq!(Survey::from_rows(&[2, 1], &[1]), Err(Refusal::BufferLength));
    assert_eq!(Survey::from_rows(&[2, 1], &[1, 2, 1]), Err(Refusal::BufferLength));
    assert_eq!(Survey::from_rows(&[2, 1], &[0; 801]), Err(Refusal::BufferLength));
    assert_eq!(Survey::from_rows(&[2, 1], &[0; 800]).map(|survey| survey.streets()), Ok(400));
}
