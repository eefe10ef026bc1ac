//! Surveys, lists of sites and buffers with something wrong: the first number in document 01's order comes back, and no byte changes.
use crate::compare::{self, Buffers, NUMBERS};
use crate::plain::survey::Town;
use crate::plain::{BALANCED, FREE, NEW_FORM, OLD_FORM};
use crate::random::Random;
use crate::{compare_files, towns};
use planner::FILE_LENGTH;

/// A wrong value for a size.
fn wrong_size(random: &mut Random, size: usize, most: usize) -> usize {
    [0, most.wrapping_add(1), usize::MAX, size.wrapping_add(1), size.wrapping_sub(1)][random.below(5)]
}

/// A number that is no kind, and as a form the new one; some of them are 0 or 1 in their low 8, 16 or 32 bits.
pub fn wrong_kind(random: &mut Random) -> usize {
    let any = random.within(2, usize::MAX);
    [2, 3, 255, 256, 257, 1 << 16, (1 << 16) + 1, 1 << 32, (1 << 32) + 1, 1 << 63, usize::MAX, any][random.below(12)]
}

/// Makes a survey wrong in one way; seldom it stays right.
fn damage(random: &mut Random, town: &mut Town) {
    let (place, byte, street) = (random.below(town.scores.len()), random.below(town.rows.len()), random.below(town.weights.len()));
    match random.below(15) {
        0 => town.n = wrong_size(random, town.n, 400),
        1 => town.m = wrong_size(random, town.m, 64),
        2 => town.k = wrong_size(random, town.k, town.m),
        3 => town.scores.push(0),
        4 => town.scores.truncate(place),
        5 => town.rows.push(0),
        6 => town.rows.truncate(byte),
        7 => town.scores[place] = [1_001, u16::MAX][random.below(2)],
        8 => town.scores[place] = town.scores[0].wrapping_add(1),
        9 => town.weights.push(1),
        10 => town.weights.truncate(street),
        11 => town.weights[street] = [0, 100, 255][random.below(3)],
        _ => town.rows[byte] = [0, 1, town.m as u8, 65, random.below(256) as u8][random.below(5)],
    }
}

/// A list of sites that may be empty, too long, or name a site twice or one that is none.
fn any_list(random: &mut Random, m: usize) -> Vec<u8> {
    let m = m.clamp(1, 64);
    let count = random.within(1, m);
    let mut list = towns::some_sites(random, m, count);
    match random.below(8) {
        0 => list.clear(),
        1 => list.extend_from_within(..),
        2 => list[random.below(count)] = [0, m as u8 + 1, 255][random.below(3)],
        3 => list[random.below(count)] = random.within(1, m) as u8,
        4 => list.resize(m + 1, 1),
        _ => {}
    }
    list
}

/// A length that is mostly right.
fn length(random: &mut Random, right: usize) -> usize {
    let right = right.min(500);
    match random.below(12) {
        0 => 0,
        1 => right + 1,
        2 => right.saturating_sub(1),
        _ => right,
    }
}

/// Every call on one town; counts the numbers that come back.
fn call_all(random: &mut Random, town: &Town, seen: &mut [usize; NUMBERS]) {
    let list = any_list(random, town.m);
    let row = &town.rows[..length(random, town.m).min(town.rows.len())];
    let weight = [1, 2, 99, 0, 100, random.below(256) as u8][random.below(6)];
    let site = [1, town.m as u8, 0, 65, random.below(256) as u8][random.below(5)];
    let lengths = Buffers { division: length(random, town.n), chosen: length(random, town.k) };
    let wrong = wrong_kind(random);
    let kind = [FREE, BALANCED, wrong, wrong][random.below(4)];
    let form = [OLD_FORM, NEW_FORM, wrong][random.below(3)];
    let room = [0, 8, 50, FILE_LENGTH][random.below(4)];
    let numbers = [
        compare::check_survey(town),
        compare::row_score(town, weight, row, site),
        compare::list_total(town, &list),
        compare::free_division(town, &list, lengths.division),
        compare::balanced_division(town, &list, lengths.division),
        compare::plan(town, FREE, lengths),
        compare::plan(town, BALANCED, lengths),
        compare::plan(town, wrong, lengths),
        compare::floor(town),
        compare_files::write_file(town, kind, form, room),
    ];
    for number in numbers {
        seen[usize::from(number)] += 1;
    }
}

#[test]
fn damaged_surveys() {
    let mut random = Random::new(5);
    let mut seen = [0; NUMBERS];
    for turn in 0..20_000 {
        let mut town = towns::any_town(&mut random, 9, 5);
        for _ in 0..turn % 3 {
            if !town.scores.is_empty() && !town.weights.is_empty() && !town.rows.is_empty() {
                damage(&mut random, &mut town);
            }
        }
        call_all(&mut random, &town, &mut seen);
    }
    for number in [0, 1, 2, 3, 4, 5, 6, 7, 8, 9, 10, 11, 17, 20, 24, 25] {
        assert!(seen[number] > 100, "{number} came {} times", seen[number]);
    }
}

#[test]
fn damaged_long_surveys() {
    let mut random = Random::new(6);
    let mut seen = [0; NUMBERS];
    for _ in 0..300 {
        let mut town = towns::town(&mut random, towns::Culture::Cut, 400, 64, 8);
        damage(&mut random, &mut town);
        damage(&mut random, &mut town);
        // a plan of a survey that stayed right is for the long towns' test
        if compare::check_survey(&town) != 0 {
            call_all(&mut random, &town, &mut seen);
        }
    }
}

#[test]
fn any_row_has_a_ranked_part() {
    let mut random = Random::new(7);
    for length in 0..300 {
        let row: Vec<u8> = (0..length).map(|_| random.below(30) as u8).collect();
        compare::ranked_part(&row);
        compare::ranked_part(&vec![7; length]);
    }
}
