//! Files converted from one form into the other and back: drawn ones, and those of examples/.
use crate::files::drawn_file;
use crate::random::Random;
use crate::NUMBERS;
use planner::{slices, Form, Refusal, SurveyFile, FILE_LENGTH};
use std::fs;
use std::path::Path;

fn other(form: Form) -> Form {
    match form {
        Form::Old => Form::New,
        Form::New => Form::Old,
    }
}

/// Into its own form a file stays as it is. Into the other one it is what the same survey is written as, and comes back as it was; a file of
/// the new form is refused where the old one would lose a weight. Whether it was.
fn there_and_back(bytes: &[u8]) -> bool {
    let file = SurveyFile::read(bytes).expect("a right file");
    let (form, other) = (file.form(), other(file.form()));
    assert_eq!(file.write().as_deref(), Ok(bytes));
    assert_eq!(SurveyFile::convert(bytes, form).as_deref(), Ok(bytes));
    let converted = SurveyFile::convert(bytes, other);
    let loses = form == Form::New && file.survey().weights().iter().any(|&weight| weight != 1);
    assert_eq!(converted, file.with_form(other).write());
    match converted {
        Ok(converted) => assert_eq!(SurveyFile::convert(&converted, form).as_deref(), Ok(bytes)),
        Err(refusal) => assert_eq!(refusal, Refusal::LostWeight),
    }
    assert_eq!(SurveyFile::convert(bytes, other).is_err(), loses);
    loses
}

#[test]
fn every_example() {
    let folder = Path::new(env!("CARGO_MANIFEST_DIR")).join("../../examples");
    let paths = fs::read_dir(&folder).expect("the folder of examples").map(|entry| entry.expect("its entries").path());
    let surveys: Vec<_> = paths.filter(|path| path.extension().is_some_and(|ending| ending == "survey")).collect();
    assert!(!surveys.is_empty(), "{} has no survey files", folder.display());
    for path in surveys {
        println!("{}", path.display());
        there_and_back(&fs::read(&path).expect("a survey file"));
    }
}

#[test]
fn drawn_files() {
    let mut random = Random::new(28);
    let mut seen = [0; 2];
    for turn in 0..600 {
        let file = if turn < 580 { drawn_file(&mut random, 20, 9) } else { drawn_file(&mut random, 400, 64) };
        seen[usize::from(there_and_back(&file.write().expect("a right file")))] += 1;
    }
    assert!(seen.iter().all(|&count| count > 100), "{seen:?}");
}

#[test]
fn damaged_files() {
    let mut random = Random::new(29);
    let mut seen = [0; NUMBERS];
    for _ in 0..6_000 {
        let mut bytes = drawn_file(&mut random, 6, 4).write().expect("a right file");
        let (at, form) = (random.below(bytes.len()), [Form::Old, Form::New][random.below(2)]);
        match random.below(5) {
            0 => bytes.truncate(at),
            1 => bytes.push(0),
            2 => {}
            _ => bytes[at] = [0, 1, 255, bytes[at].wrapping_add(1)][random.below(4)],
        }
        let mut lent = vec![0; FILE_LENGTH];
        let length = slices::convert_file(&bytes, form, &mut lent);
        let converted = SurveyFile::convert(&bytes, form);
        seen[converted.as_ref().err().map_or(0, |refusal| refusal.number() as usize)] += 1;
        // what the reader refuses comes first
        if let Err(refusal) = SurveyFile::read(&bytes) {
            assert_eq!(converted, Err(refusal));
        }
        assert_eq!(converted, length.map(|length| lent[..length].to_vec()), "{bytes:?}");
    }
    for number in [0, 1, 2, 3, 4, 8, 10, 11, 12, 13, 14, 15, 16, 24, 25] {
        assert!(seen[number] > 5, "{number} came {} times", seen[number]);
    }
}
