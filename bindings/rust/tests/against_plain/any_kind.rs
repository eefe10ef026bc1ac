//! The calls that are given a kind, with any number for it. A number that is a kind goes to the safe function; any other goes to the raw one,
//! since the safe one takes none.
use crate::drawn_loads::lent;
use crate::plain::loads::Loads;
use crate::plain::survey::Town;
use planner::{raw, slices, Kind, Refusal};

/// Takes an answer apart: the total, or the refusal, with which no total comes.
fn unpacked(answer: u64) -> Result<u32, Refusal> {
    let (number, total) = ((answer >> 32) as u32, answer as u32);
    if number == 0 {
        return Ok(total);
    }
    assert_eq!(total, 0, "the total beside refusal {number}");
    Err(Refusal::try_from(number).expect("a refusal's number"))
}

pub fn plan(t: &Town, kind: usize, division: &mut [u8], chosen: &mut [u8]) -> Result<u32, Refusal> {
    if let Ok(kind) = Kind::try_from(kind) {
        return slices::plan(t.n, t.m, t.k, kind, &t.scores, &t.weights, &t.rows, division, chosen);
    }
    // SAFETY: each pointer is a slice's own, beside its length; the division and the chosen sites are borrowed for this call alone.
    unpacked(unsafe {
        raw::planner_plan(
            t.n,
            t.m,
            t.k,
            kind,
            t.scores.as_ptr(),
            t.scores.len(),
            t.weights.as_ptr(),
            t.weights.len(),
            t.rows.as_ptr(),
            t.rows.len(),
            division.as_mut_ptr(),
            division.len(),
            chosen.as_mut_ptr(),
            chosen.len(),
        )
    })
}

pub fn hand_plan(t: &Town, kind: usize, division: &[u8], claimed: u32, loads: &Loads) -> Result<u32, Refusal> {
    if let Ok(kind) = Kind::try_from(kind) {
        return slices::hand_plan(t.n, t.m, t.k, kind, &t.scores, &t.weights, &t.rows, division, claimed, lent(loads));
    }
    // SAFETY: each pointer is a slice's own, beside its length, and is only read.
    unpacked(unsafe {
        raw::planner_hand_plan(
            t.n,
            t.m,
            t.k,
            kind,
            t.scores.as_ptr(),
            t.scores.len(),
            t.weights.as_ptr(),
            t.weights.len(),
            t.rows.as_ptr(),
            t.rows.len(),
            division.as_ptr(),
            division.len(),
            claimed,
            loads.kilograms.as_ptr(),
            loads.kilograms.len(),
            loads.litres.as_ptr(),
            loads.litres.len(),
            loads.kilogram_limits.as_ptr(),
            loads.kilogram_limits.len(),
            loads.litre_limits.as_ptr(),
            loads.litre_limits.len(),
        )
    })
}

/// Any number for the form too.
pub fn write_file(t: &Town, kind: usize, form: usize, file: &mut [u8]) -> Result<usize, Refusal> {
    if let (Ok(kind), 0 | 1) = (Kind::try_from(kind), form) {
        return slices::write_file(t.n, t.m, t.k, kind, form.into(), &t.scores, &t.weights, &t.rows, file);
    }
    // SAFETY: each pointer is a slice's own, beside its length; the file is borrowed for this call alone.
    let answer = unsafe {
        raw::planner_write_file(
            t.n,
            t.m,
            t.k,
            kind,
            form,
            t.scores.as_ptr(),
            t.scores.len(),
            t.weights.as_ptr(),
            t.weights.len(),
            t.rows.as_ptr(),
            t.rows.len(),
            file.as_mut_ptr(),
            file.len(),
        )
    };
    unpacked(answer).map(|length| length as usize)
}

pub fn convert_file(file: &[u8], form: usize, buffer: &mut [u8]) -> Result<usize, Refusal> {
    if form <= 1 {
        return slices::convert_file(file, form.into(), buffer);
    }
    // SAFETY: each pointer is a slice's own, beside its length; the buffer is borrowed for this call alone.
    let answer = unsafe { raw::planner_convert_file(file.as_ptr(), file.len(), form, buffer.as_mut_ptr(), buffer.len()) };
    unpacked(answer).map(|length| length as usize)
}
