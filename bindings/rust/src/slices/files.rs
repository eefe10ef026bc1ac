//! The functions for survey files.
use super::unpacked;
use crate::{raw, Form, Kind, Refusal};

/// What a survey file says of its town, and the form that the file has.
#[derive(Clone, Copy, Debug, PartialEq, Eq, Hash)]
#[non_exhaustive]
pub struct Sizes {
    /// The number of streets.
    pub n: usize,
    /// The number of sites.
    pub m: usize,
    /// The number of sites to choose.
    pub k: usize,
    /// The kind of plan.
    pub kind: Kind,
    /// The form of the file.
    pub form: Form,
}

/// Writes the survey file of a form into a buffer of any length, of which [`FILE_LENGTH`](crate::FILE_LENGTH) bytes are always enough. Gives
/// the file's length, and changes no byte behind it.
///
/// # Errors
/// As [`check_survey`](super::check_survey); then, in the old form, 25 `LostWeight`; last 7 `FileBufferShort`.
pub fn write_file(
    n: usize,
    m: usize,
    k: usize,
    kind: Kind,
    form: Form,
    scores: &[u16],
    weights: &[u8],
    rows: &[u8],
    file: &mut [u8],
) -> Result<usize, Refusal> {
    // SAFETY: the four pointers are a slice's own, beside its length; only the file is written, and it is borrowed for this call alone.
    let answer = unsafe {
        raw::planner_write_file(
            n,
            m,
            k,
            kind.into(),
            form.into(),
            scores.as_ptr(),
            scores.len(),
            weights.as_ptr(),
            weights.len(),
            rows.as_ptr(),
            rows.len(),
            file.as_mut_ptr(),
            file.len(),
        )
    };
    unpacked(answer).map(|length| length as usize)
}

/// Reads a survey file of any length and of either form into [`SCORES_LENGTH`](crate::SCORES_LENGTH) scores, of which the first `m` are
/// filled, [`WEIGHTS_LENGTH`](crate::WEIGHTS_LENGTH) weights, of which the first `n` are, with 1 for each street of a file of the old form,
/// and [`ROWS_LENGTH`](crate::ROWS_LENGTH) row bytes, of which the first `n` times `m` are.
///
/// # Errors
/// First 6 `BufferLength` for the scores, the weights and the rows. Then record by record: 12 `FileEnds` before its mark, 13 `Mark`, 12 in
/// its fixed part, its fields (1 `Streets`, 2 `Sites`, 3 `Chosen`, 4 `Kind`; 8 `Score`; 24 `Weight`; 14 `StreetNumber`, 15 `ListLength`),
/// 12 in its list, and byte by byte of the list 10 `SiteNumber`, 11 `SiteTwice`. Last 16 `BytesAfterEnd`.
pub fn read_file(file: &[u8], scores: &mut [u16], weights: &mut [u8], rows: &mut [u8]) -> Result<Sizes, Refusal> {
    let (mut n, mut m, mut k, mut kind, mut form) = (0, 0, 0, 0, 0);
    // SAFETY: the four pointers are a slice's own, beside its length; scores, weights and rows are borrowed for this call alone, and each of
    // the five numbers is this function's own.
    let answer = unsafe {
        raw::planner_read_file(
            file.as_ptr(),
            file.len(),
            &mut n,
            &mut m,
            &mut k,
            &mut kind,
            &mut form,
            scores.as_mut_ptr(),
            scores.len(),
            weights.as_mut_ptr(),
            weights.len(),
            rows.as_mut_ptr(),
            rows.len(),
        )
    };
    unpacked(answer)?;
    Ok(Sizes { n, m, k, kind: Kind::try_from(kind)?, form: Form::from(form) })
}

/// Converts a survey file into a form, into a buffer of any length, of which [`FILE_LENGTH`](crate::FILE_LENGTH) bytes are always enough. A
/// file that has this form already comes out as it is. Gives the length of the file in this form, and changes no byte behind it.
///
/// # Errors
/// As [`read_file`] for the file; then, for the old form, 25 `LostWeight`; last 7 `FileBufferShort`.
pub fn convert_file(file: &[u8], form: Form, buffer: &mut [u8]) -> Result<usize, Refusal> {
    // SAFETY: both pointers are a slice's own, beside its length; only the buffer is written, and it is borrowed for this call alone.
    let answer = unsafe { raw::planner_convert_file(file.as_ptr(), file.len(), form.into(), buffer.as_mut_ptr(), buffer.len()) };
    unpacked(answer).map(|length| length as usize)
}
