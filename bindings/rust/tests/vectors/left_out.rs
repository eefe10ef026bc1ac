//! What a file leaves out, since its request does not know it yet: inputs, with what stands for them, and outputs, with what they are.
use crate::blocks::{Block, Line};
use crate::calls::Call;
use planner::{Loads, MAX_SITES, MAX_STREETS, WEIGHTS_LENGTH};

/// Whether a file is older than a request.
fn before(file: &str, request: &str) -> bool {
    file == "base.txt" || file < request
}

/// The first number of a key, 0 where there is none.
fn number(lines: &[Line], key: &str) -> u64 {
    lines.iter().find(|line| line.key == key).and_then(|line| line.values.first().copied()).unwrap_or(0)
}

/// A line for each of these keys that has values.
fn lines<'a>(block: &Block<'a>, keys: &'static str, values: impl Fn(&str) -> Option<Vec<u64>>) -> Vec<Line<'a>> {
    let line = |key: &'static str| Some(Line { number: block.line, key, values: values(key)? });
    keys.split_whitespace().filter_map(line).collect()
}

/// A line for each input of a call that the file leaves out.
pub fn inputs<'a>(file: &str, call: &Call, block: &Block<'a>) -> Vec<Line<'a>> {
    let before = |request| before(file, request);
    // a town above the greatest sizes is refused for them, before any length is looked at
    let size = |key, most: usize| number(&block.inputs, key).min(most as u64) as usize;
    lines(block, call.inputs, |key| match key {
        "weights" if before(if call.name == "write_file" { "2026-06" } else { "2026-05" }) => Some(vec![1; size("n", MAX_STREETS)]),
        "weight" if before("2026-05") => Some(vec![1]),
        "kilograms" | "litres" if before("2026-02") => Some(vec![0; size("n", MAX_STREETS)]),
        "kilogram-limits" | "litre-limits" if before("2026-02") => Some(vec![Loads::MOST.into(); size("m", MAX_SITES)]),
        "form" if before("2026-06") => Some(vec![0]),
        "weights-length" if before("2026-06") => Some(vec![WEIGHTS_LENGTH as u64]),
        _ => None,
    })
}

/// A line for each output of an accepted call that the file leaves out: what the reader says of a file of the old form.
pub fn outputs<'a>(file: &str, call: &Call, block: &Block<'a>) -> Vec<Line<'a>> {
    if call.name != "read_file" || block.refusal != 0 || !before(file, "2026-06") {
        return Vec::new();
    }
    lines(block, "form weights", |key| match key {
        "form" => Some(vec![0]),
        _ => Some(vec![1; number(&block.outputs, "n") as usize]),
    })
}
