//! One call of the library on a file and the same by `plain`, as in `compare`.
use crate::any_kind;
use crate::compare::{held, same, OLD};
use crate::plain::survey::Town;
use crate::plain::{file, refusals, NEW_FORM, OLD_FORM};
use planner::{raw, FILE_LENGTH};

/// The lengths of the reader's buffers: scores, weights and rows.
pub const LENGTHS: [usize; 3] = [64, 400, 25_600];

/// A file, where it fits into this many bytes.
fn fitting(file: Vec<u8>, length: usize) -> Result<Vec<u8>, u8> {
    refusals::refuse(7, length < file.len()).map(|()| file)
}

pub fn write_file(t: &Town, kind: usize, form: usize, length: usize) -> u8 {
    let mut buffer = vec![OLD; length];
    let ours = any_kind::write_file(t, kind, form, &mut buffer);
    let plain = refusals::write(t, kind, form).and_then(|()| fitting(file::write(t, kind, form), length));
    let size = plain.as_ref().map_or(0, |file| file.len());
    held(&buffer[..size], plain.as_deref().ok(), "write_file", t);
    held(&buffer[size..], None, "write_file", t);
    same(ours, plain.map(|file| file.len()), "write_file", t)
}

pub fn convert_file(bytes: &[u8], form: usize, length: usize) -> u8 {
    let mut buffer = vec![OLD; length];
    let ours = any_kind::convert_file(bytes, form, &mut buffer).map_err(|refusal| refusal.number() as u8);
    let plain = file::convert(bytes, form).and_then(|file| fitting(file, length));
    assert_eq!(ours, plain.as_ref().map(|file| file.len()).map_err(|&number| number), "converting {bytes:?} into form {form}");
    let number = *plain.as_ref().err().unwrap_or(&0);
    let file = plain.unwrap_or_default();
    assert!(buffer.starts_with(&file), "what {bytes:?} is in form {form}");
    assert!(buffer[file.len()..].iter().all(|&byte| byte == OLD), "bytes behind {bytes:?} in form {form}");
    number
}

/// The reader, through the raw function, since the five numbers it is lent are to be looked at too. The lengths are as in `LENGTHS`.
pub fn read_file(bytes: &[u8], lengths: [usize; 3]) -> u8 {
    let (mut scores, mut weights, mut rows) = (vec![u16::from(OLD); lengths[0]], vec![OLD; lengths[1]], vec![OLD; lengths[2]]);
    let mut sizes = [usize::from(OLD); 5];
    let [n, m, k, kind, form] = &mut sizes;
    // SAFETY: each pointer is a vector's own and stands beside its length, and the five numbers are apart.
    let answer = unsafe {
        raw::planner_read_file(
            bytes.as_ptr(),
            bytes.len(),
            n,
            m,
            k,
            kind,
            form,
            scores.as_mut_ptr(),
            scores.len(),
            weights.as_mut_ptr(),
            weights.len(),
            rows.as_mut_ptr(),
            rows.len(),
        )
    };
    let lent = lengths.iter().zip(LENGTHS).try_for_each(|(&length, exact)| refusals::length(length, exact));
    let (number, new_scores, new_weights, new_rows) = match lent.and_then(|()| file::read(bytes)) {
        Err(number) => {
            assert_eq!(answer, u64::from(number) << 32, "reading {bytes:?}");
            assert_eq!(sizes, [usize::from(OLD); 5], "a refused reading of {bytes:?} wrote");
            (number, Vec::new(), Vec::new(), Vec::new())
        }
        Ok((town, kind, form)) => {
            assert_eq!((answer, sizes), (0, [town.n, town.m, town.k, kind, form]), "reading {bytes:?}");
            (0, town.scores, town.weights, town.rows)
        }
    };
    assert!(
        scores.starts_with(&new_scores) && weights.starts_with(&new_weights) && rows.starts_with(&new_rows),
        "what was read of {bytes:?}"
    );
    assert!(scores[new_scores.len()..].iter().all(|&score| score == u16::from(OLD)), "scores behind {bytes:?}");
    assert!(weights[new_weights.len()..].iter().all(|&byte| byte == OLD), "weights behind {bytes:?}");
    assert!(rows[new_rows.len()..].iter().all(|&byte| byte == OLD), "rows behind {bytes:?}");
    number
}

/// A file of any bytes, read and converted into each form.
pub fn read_and_converted(bytes: &[u8]) -> u8 {
    let number = read_file(bytes, LENGTHS);
    for form in [OLD_FORM, NEW_FORM] {
        let converted = convert_file(bytes, form, FILE_LENGTH);
        assert!(converted == number || (number, converted, form) == (0, 25, OLD_FORM));
    }
    number
}

/// The file of a right survey in a form that has its weights: written, read, and converted into each form and back.
pub fn there_and_back(t: &Town, kind: usize, form: usize) {
    let file = file::write(t, kind, form);
    assert_eq!(file::read(&file), Ok((t.clone(), kind, form)));
    for length in [file.len(), file.len() - 1, FILE_LENGTH] {
        write_file(t, kind, form, length);
        convert_file(&file, form, length);
    }
    assert_eq!(read_and_converted(&file), 0);
    assert_eq!(file::convert(&file, form), Ok(file.clone()));
    if let Ok(other) = file::convert(&file, 1 - form) {
        for length in [other.len(), other.len() - 1] {
            convert_file(&file, 1 - form, length);
        }
        assert_eq!(read_and_converted(&other), 0);
        assert_eq!(file::convert(&other, form), Ok(file));
    }
}
