//! Survey files.
use crate::{slices, Kind, Plan, Refusal, Survey, FILE_LENGTH, ROWS_LENGTH, SCORES_LENGTH, WEIGHTS_LENGTH};

/// The form of a survey file.
///
/// For the library it is a number: 0 is the old form, and every other number the new one.
///
/// ```
/// use planner::Form;
///
/// assert_eq!(usize::from(Form::New), 1);
/// assert_eq!([0, 1, 256].map(Form::from), [Form::Old, Form::New, Form::New]);
/// ```
#[derive(Clone, Copy, Debug, PartialEq, Eq, Hash)]
pub enum Form {
    /// The file opens with `TN` and has no weights: every street has 1.
    Old = 0,
    /// The file opens with `TW` and has the weights in a record `HW` behind the scores.
    New = 1,
}

impl From<Form> for usize {
    fn from(form: Form) -> usize {
        form as usize
    }
}

impl From<usize> for Form {
    fn from(number: usize) -> Form {
        match number {
            0 => Form::Old,
            _ => Form::New,
        }
    }
}

/// What a survey file holds: a survey, the kind of plan that is wanted, and how many sites are to be chosen, K; and the form of the file.
///
/// A file is made of records, each behind a mark of two letters, with 16-bit numbers low byte first:
///
/// | record | what it holds |
/// |---|---|
/// | `TN`, new `TW` | number of streets (2 bytes), of sites (1 byte), of sites to choose, K (1 byte), kind (1 byte: 0 free, 1 balanced) |
/// | `SC` | a score for each place, best first (2 bytes each) |
/// | `HW`, new form alone | the weight of each street (1 byte each) |
/// | `ST`, once for each street | its number (2 bytes, from 1 on), how many sites it has ranked (1 byte), their numbers, best first |
/// | `EN` | the end; nothing follows |
///
/// Reading what was written gives back the survey, and writing what was read gives back the file, in either form.
///
/// ```
/// use planner::{Form, Kind, Refusal, Survey, SurveyFile};
///
/// # fn main() -> Result<(), Refusal> {
/// let survey = Survey::new(&[2, 1], &[&[1, 2][..], &[1]])?;
/// let file = SurveyFile::new(survey, Kind::Balanced, 2);
/// let bytes = file.write()?;
/// assert_eq!(bytes, b"TN\x02\0\x02\x02\x01SC\x02\0\x01\0ST\x01\0\x02\x01\x02ST\x02\0\x01\x01EN");
/// assert_eq!(SurveyFile::read(&bytes), Ok(file));
/// assert_eq!(SurveyFile::read(&bytes)?.plan()?.total, 3);
/// assert_eq!(SurveyFile::read(&bytes[1..]), Err(Refusal::Mark));
///
/// // the same file in the new form, and back
/// let weighted = SurveyFile::convert(&bytes, Form::New)?;
/// assert_eq!(weighted, b"TW\x02\0\x02\x02\x01SC\x02\0\x01\0HW\x01\x01ST\x01\0\x02\x01\x02ST\x02\0\x01\x01EN");
/// assert_eq!(SurveyFile::convert(&weighted, Form::Old), Ok(bytes));
/// # Ok(())
/// # }
/// ```
#[derive(Clone, Debug, PartialEq, Eq, Hash)]
#[must_use]
pub struct SurveyFile {
    survey: Survey,
    kind: Kind,
    k: usize,
    form: Form,
}

impl SurveyFile {
    /// A survey with the kind of plan and the K that are wanted, in the old form where every weight is 1 and else in the new one. K is
    /// checked where it is used.
    pub fn new(survey: Survey, kind: Kind, k: usize) -> SurveyFile {
        let form = if survey.weights().iter().all(|&weight| weight == 1) { Form::Old } else { Form::New };
        SurveyFile { survey, kind, k, form }
    }

    /// The same in a form. That the old one loses no weight is checked where the file is written.
    ///
    /// ```
    /// use planner::{Form, Kind, Refusal, Survey, SurveyFile};
    ///
    /// # fn main() -> Result<(), Refusal> {
    /// let survey = Survey::new(&[2, 1], &[[1, 2], [2, 1]])?.with_weights(&[1, 9])?;
    /// let file = SurveyFile::new(survey, Kind::Free, 1);
    /// assert_eq!(file.form(), Form::New);
    /// assert_eq!(SurveyFile::read(&file.write()?), Ok(file.clone()));
    /// assert_eq!(file.with_form(Form::Old).write(), Err(Refusal::LostWeight));
    /// # Ok(())
    /// # }
    /// ```
    pub fn with_form(self, form: Form) -> SurveyFile {
        SurveyFile { form, ..self }
    }

    /// Reads a file of either form.
    ///
    /// # Errors
    /// Record by record: 12 [`FileEnds`](Refusal::FileEnds) before its mark, 13 [`Mark`](Refusal::Mark), 12 in its fixed part, its fields
    /// (1 [`Streets`](Refusal::Streets), 2 [`Sites`](Refusal::Sites), 3 [`Chosen`](Refusal::Chosen), 4 [`Kind`](Refusal::Kind); 8
    /// [`Score`](Refusal::Score); 24 [`Weight`](Refusal::Weight); 14 [`StreetNumber`](Refusal::StreetNumber), 15
    /// [`ListLength`](Refusal::ListLength)), 12 in its list, and byte by byte of the list 10 [`SiteNumber`](Refusal::SiteNumber), 11
    /// [`SiteTwice`](Refusal::SiteTwice). Last 16 [`BytesAfterEnd`](Refusal::BytesAfterEnd).
    pub fn read(bytes: &[u8]) -> Result<SurveyFile, Refusal> {
        let (mut scores, mut weights, mut rows) = (vec![0; SCORES_LENGTH], vec![0; WEIGHTS_LENGTH], vec![0; ROWS_LENGTH]);
        let sizes = slices::read_file(bytes, &mut scores, &mut weights, &mut rows)?;
        scores.truncate(sizes.m);
        weights.truncate(sizes.n);
        rows.truncate(sizes.n * sizes.m);
        Ok(SurveyFile { survey: Survey::of_file(scores, weights, rows), kind: sizes.kind, k: sizes.k, form: sizes.form })
    }

    /// The file's bytes.
    ///
    /// # Errors
    /// In order of trial: 3 [`Chosen`](Refusal::Chosen), and in the old form 25 [`LostWeight`](Refusal::LostWeight) where some weight is not
    /// 1.
    pub fn write(&self) -> Result<Vec<u8>, Refusal> {
        let mut file = vec![0; FILE_LENGTH];
        let (n, m) = (self.survey.streets(), self.survey.sites());
        let (scores, weights, rows) = (self.survey.scores(), self.survey.weights(), self.survey.rows());
        let length = slices::write_file(n, m, self.k, self.kind, self.form, scores, weights, rows, &mut file)?;
        file.truncate(length);
        Ok(file)
    }

    /// The bytes of a file in a form, into which they are converted if they are of the other one. There and back gives the same bytes.
    ///
    /// # Errors
    /// As [`read`](SurveyFile::read), then for the old form 25 [`LostWeight`](Refusal::LostWeight) where some weight is not 1.
    pub fn convert(bytes: &[u8], form: Form) -> Result<Vec<u8>, Refusal> {
        let mut file = vec![0; FILE_LENGTH];
        let length = slices::convert_file(bytes, form, &mut file)?;
        file.truncate(length);
        Ok(file)
    }

    /// The plan that is wanted.
    ///
    /// # Errors
    /// In order of trial: 3 [`Chosen`](Refusal::Chosen), and for a balanced plan 5 [`Share`](Refusal::Share) where K is above the number of
    /// streets.
    pub fn plan(&self) -> Result<Plan, Refusal> {
        self.survey.plan(self.kind, self.k)
    }

    /// The survey.
    pub fn survey(&self) -> &Survey {
        &self.survey
    }

    /// The survey alone.
    pub fn into_survey(self) -> Survey {
        self.survey
    }

    /// The kind of plan that is wanted.
    #[must_use]
    pub fn kind(&self) -> Kind {
        self.kind
    }

    /// The number of sites to choose, K.
    #[must_use]
    pub fn k(&self) -> usize {
        self.k
    }

    /// The form of the file.
    #[must_use]
    pub fn form(&self) -> Form {
        self.form
    }
}
