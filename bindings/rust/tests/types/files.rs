//! Files: read after write, write after read, and what is refused.
use crate::random::Random;
use crate::towns;
use crate::{worked, NUMBERS};
use planner::{slices, Form, Kind, Refusal, Survey, SurveyFile, FILE_LENGTH, ROWS_LENGTH, SCORES_LENGTH, WEIGHTS_LENGTH};

/// A drawn town's survey with a kind and a K, in the new form or in one that has its weights.
pub fn drawn_file(random: &mut Random, most_streets: usize, most_sites: usize) -> SurveyFile {
    let town = towns::any_town(random, most_streets, most_sites);
    let survey = Survey::from_rows(&town.scores, &town.rows).and_then(|survey| survey.with_weights(&town.weights));
    let file = SurveyFile::new(survey.expect("a right survey"), [Kind::Free, Kind::Balanced][random.below(2)], town.k);
    let form = file.form();
    file.with_form([form, Form::New][random.below(2)])
}

#[test]
fn there_and_back() {
    let mut random = Random::new(21);
    for turn in 0..600 {
        let file = if turn < 580 { drawn_file(&mut random, 20, 9) } else { drawn_file(&mut random, 400, 64) };
        let bytes = file.write().expect("a right file");
        let mut lent = vec![0; FILE_LENGTH];
        let survey = file.survey();
        let (n, m) = (survey.streets(), survey.sites());
        let (scores, weights, rows) = (survey.scores(), survey.weights(), survey.rows());
        let length = slices::write_file(n, m, file.k(), file.kind(), file.form(), scores, weights, rows, &mut lent);
        assert_eq!(bytes, lent[..length.expect("a right file")]);
        let read = SurveyFile::read(&bytes).expect("a right file");
        assert_eq!(read, file);
        assert_eq!(read.write(), Ok(bytes));
        assert_eq!(read.plan(), survey.plan(file.kind(), file.k()));
        // what the reader accepts, the check accepts
        let checked = Survey::from_rows(read.survey().scores(), read.survey().rows());
        assert_eq!(checked.and_then(|survey| survey.with_weights(read.survey().weights())), Ok(read.into_survey()));
    }
}

#[test]
fn damaged_files() {
    let mut random = Random::new(22);
    let mut seen = [0; NUMBERS];
    for _ in 0..6_000 {
        let mut bytes = drawn_file(&mut random, 6, 4).write().expect("a right file");
        let at = random.below(bytes.len());
        match random.below(4) {
            0 => bytes.truncate(at),
            1 => bytes.push(0),
            _ => bytes[at] = [0, 1, 255, bytes[at].wrapping_add(1)][random.below(4)],
        }
        let sizes = slices::read_file(&bytes, &mut [0; SCORES_LENGTH], &mut [0; WEIGHTS_LENGTH], &mut [0; ROWS_LENGTH]);
        let read = SurveyFile::read(&bytes);
        seen[read.as_ref().err().map_or(0, |refusal| refusal.number() as usize)] += 1;
        let of_file = |file: SurveyFile| (file.survey().streets(), file.survey().sites(), file.k(), file.kind(), file.form());
        assert_eq!(read.map(of_file), sizes.map(|sizes| (sizes.n, sizes.m, sizes.k, sizes.kind, sizes.form)), "{bytes:?}");
    }
    for number in [0, 1, 2, 3, 4, 8, 10, 11, 12, 13, 14, 15, 16, 24] {
        assert!(seen[number] > 5, "{number} came {} times", seen[number]);
    }
}

#[test]
fn weights_are_kept() {
    let file = SurveyFile::new(worked::p1().with_weights(&[1, 1, 1, 9]).expect("right weights"), Kind::Free, 1);
    assert_eq!(file.form(), Form::New);
    let read = SurveyFile::read(&file.write().expect("a right file")).expect("a right file");
    assert_eq!(read, file);
    assert_eq!(read.plan().map(|plan| plan.sites), Ok(vec![3]));
    let plain = SurveyFile::new(worked::p1(), Kind::Free, 1);
    assert_eq!(plain.form(), Form::Old);
    assert_eq!(plain.plan().map(|plan| plan.sites), Ok(vec![1]));
    // in the old form they would be lost, after a K that is wrong
    assert_eq!(file.with_form(Form::Old).write(), Err(Refusal::LostWeight));
    let wrong = SurveyFile::new(read.into_survey(), Kind::Free, 4).with_form(Form::Old);
    assert_eq!(wrong.write(), Err(Refusal::Chosen));
}

#[test]
fn a_wrong_k() {
    for k in [0, 4, 256, 257, usize::MAX] {
        let file = SurveyFile::new(worked::p1(), Kind::Free, k);
        assert_eq!(file.write(), Err(Refusal::Chosen));
        assert_eq!(file.plan(), Err(Refusal::Chosen));
    }
    // a K above the number of streets may be written, and is refused where it is planned with
    let survey = Survey::new(&[2, 1, 0], &[[1, 2, 3], [1, 3, 2]]).expect("a right survey");
    let file = SurveyFile::new(survey, Kind::Balanced, 3);
    assert_eq!(SurveyFile::read(&file.write().expect("a right file")).and_then(|read| read.plan()), Err(Refusal::Share));
}
