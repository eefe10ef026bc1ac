//! Survey files of both forms, right and damaged, read into buffers of right and wrong lengths, and converted.
use crate::compare::NUMBERS;
use crate::compare_files::{convert_file, read_and_converted, read_file, there_and_back, write_file, LENGTHS};
use crate::damaged::wrong_kind;
use crate::plain::{file, NEW_FORM, OLD_FORM};
use crate::random::Random;
use crate::towns::{self, Culture};
use planner::FILE_LENGTH;

/// A file of a small town, of either form.
fn small_file(random: &mut Random) -> Vec<u8> {
    let town = towns::any_town(random, 6, 4);
    file::write(&town, random.below(2), random.below(2))
}

#[test]
fn every_beginning() {
    let mut random = Random::new(8);
    for _ in 0..50 {
        let file = small_file(&mut random);
        for end in 0..file.len() {
            assert_eq!(read_and_converted(&file[..end]), 12);
        }
        assert_eq!(read_and_converted(&[&file[..], &[0]].concat()), 16);
    }
}

#[test]
fn every_byte_changed() {
    let mut random = Random::new(9);
    let mut seen = [0; NUMBERS];
    for _ in 0..40 {
        let file = small_file(&mut random);
        for i in 0..file.len() {
            for byte in [0, 1, file[i].wrapping_add(1), file[i].wrapping_sub(1), 255] {
                let mut damaged = file.clone();
                damaged[i] = byte;
                seen[usize::from(read_and_converted(&damaged))] += 1;
            }
        }
    }
    for number in [0, 1, 2, 3, 4, 8, 10, 11, 13, 14, 15, 24] {
        assert!(seen[number] > 20, "{number} came {} times", seen[number]);
    }
}

/// Puts bytes in, takes some out, or changes one.
fn damage(random: &mut Random, file: &mut Vec<u8>) {
    let i = random.below(file.len());
    match random.below(5) {
        0 => file.insert(i, random.below(256) as u8),
        1 if file.len() > 1 => drop(file.remove(i)),
        2 => file.truncate(i.max(1)),
        3 => file.push(b'E'),
        _ => file[i] = random.below(70) as u8,
    }
}

#[test]
fn damaged_files() {
    let mut random = Random::new(10);
    for turn in 0..20_000 {
        let mut file = small_file(&mut random);
        for _ in 0..1 + turn % 3 {
            damage(&mut random, &mut file);
        }
        read_and_converted(&file);
    }
}

#[test]
fn longest_file() {
    let mut random = Random::new(11);
    let town = towns::town(&mut random, Culture::Impartial, 400, 64, 64);
    let file = file::write(&town, 1, NEW_FORM);
    assert_eq!(file.len(), FILE_LENGTH);
    assert_eq!(write_file(&town, 1, NEW_FORM, file.len()), 0);
    there_and_back(&town, 1, NEW_FORM);
    there_and_back(&town.unweighted(), 1, NEW_FORM);
    for _ in 0..500 {
        let mut damaged = file.clone();
        damage(&mut random, &mut damaged);
        read_and_converted(&damaged);
    }
}

#[test]
fn any_bytes() {
    let mut random = Random::new(12);
    for length in 0..2_000 {
        let file: Vec<u8> = (0..length % 40).map(|_| random.below(256) as u8).collect();
        read_and_converted(&file);
        read_and_converted(&[b"TN", &file[..]].concat());
        read_and_converted(&[b"TW", &file[..]].concat());
    }
}

#[test]
fn wrong_buffers_come_first() {
    let file = small_file(&mut Random::new(13));
    for (i, exact) in LENGTHS.into_iter().enumerate() {
        for length in [0, exact - 1, exact + 1] {
            let mut lengths = LENGTHS;
            lengths[i] = length;
            assert_eq!(read_file(&file, lengths), 6);
            assert_eq!(read_file(&[], lengths), 6);
        }
    }
    assert_eq!(read_file(&file, [0; 3]), 6);
}

/// Right files converted into any form, in buffers of any length: 25 before 7.
#[test]
fn conversions() {
    let mut random = Random::new(14);
    let mut seen = [0; NUMBERS];
    for _ in 0..6_000 {
        let file = small_file(&mut random);
        let form = [OLD_FORM, NEW_FORM, wrong_kind(&mut random)][random.below(3)];
        let length = [file.len(), file.len() + 2, file.len().saturating_sub(4), random.below(2 * file.len())][random.below(4)];
        seen[usize::from(convert_file(&file, form, length))] += 1;
    }
    for number in [0, 7, 25] {
        assert!(seen[number] > 500, "{number} came {} times", seen[number]);
    }
}
