//! Runs the blocks of a file and compares what comes back with what stands there.
use crate::blocks::{blocks, Block, Fault, Line};
use crate::calls::{width, Call, Given, CALLS, NUMBERS};
use crate::left_out;
use crate::lent::Lent;
use std::collections::BTreeMap;

/// What buffers hold where nothing is given: two patterns whose bits all differ, so that a byte that stays shows in one of the two.
const PATTERNS: [u8; 2] = [0x5A, 0xA5];

/// Runs every block of a file: how many calls were run and came out as they should, and a line for each block that is wrong or differs.
pub fn every_block(file: &str, text: &str) -> (usize, Vec<String>) {
    let (mut calls, mut faults) = (0, Vec::new());
    for block in blocks(text) {
        match block.and_then(|block| run(file, block)) {
            Ok(()) => calls += 1,
            Err(fault) => faults.push(format!("{file}:{}: {}", fault.line, fault.words)),
        }
    }
    if calls == 0 && faults.is_empty() {
        faults.push(format!("{file}: no call in it"));
    }
    (calls, faults)
}

fn run(file: &str, mut block: Block) -> Result<(), Fault> {
    let call = CALLS.iter().find(|call| call.name == block.name);
    let call = call.ok_or_else(|| Fault::new(block.line, format!("no call `{}` is known", block.name)))?;
    block.inputs.extend(left_out::inputs(file, call, &block));
    block.outputs.extend(left_out::outputs(file, call, &block));
    same_keys(&block, &block.inputs, call.inputs)?;
    same_keys(&block, &block.outputs, if block.refusal == 0 { call.outputs } else { "" })?;
    for pattern in PATTERNS {
        let mut given = given(call, &block.inputs, pattern)?;
        let total = expected(call, &block, &mut given.lent)?;
        let answer = (call.run)(&mut given);
        let (number, sum) = (answer >> 32, answer & 0xFFFF_FFFF);
        if (number, sum) != (block.refusal, total) {
            let words = format!("{} answers {number} with {sum}, and {} with {total} is due", block.name, block.refusal);
            return Err(Fault::new(block.line, words));
        }
        for (key, lent) in &given.lent {
            if let Some(difference) = lent.difference() {
                return Err(Fault::new(block.line, format!("`{key}` after {}: {difference}", block.name)));
            }
        }
    }
    Ok(())
}

/// The keys of a call's outputs, with whether a buffer is written whole.
fn outputs(call: &Call) -> impl Iterator<Item = (&'static str, bool)> {
    call.outputs.split_whitespace().map(|key| (key.trim_end_matches('.'), !key.ends_with("..")))
}

/// Each key has its line, once, and no other line stands there.
fn same_keys(block: &Block, lines: &[Line], keys: &str) -> Result<(), Fault> {
    let mut due: Vec<&str> = keys.split_whitespace().map(|key| key.trim_end_matches('.')).collect();
    for line in lines {
        let Some(at) = due.iter().position(|&key| key == line.key) else {
            return Err(Fault::new(line.number, format!("`{}` has no line `{}`, or has it twice", block.name, line.key)));
        };
        due.remove(at);
    }
    match due.first() {
        Some(key) => Err(Fault::new(block.line, format!("`{}` lacks its line `{key}`", block.name))),
        None => Ok(()),
    }
}

/// The inputs as the call takes them, and memory for the numbers that it is lent. Where a buffer is read and another of the same key is
/// filled, the one that is read has `given-` before its key.
fn given(call: &Call, inputs: &[Line], pattern: u8) -> Result<Given, Fault> {
    let mut given = Given { numbers: BTreeMap::new(), lent: BTreeMap::new() };
    for line in inputs {
        if let Some(key) = line.key.strip_suffix("-length") {
            let length = one_number(line)? as usize;
            given.lent.insert(key.to_string(), Lent::new(length, width(key), pattern));
        } else if NUMBERS.contains(&line.key) {
            given.numbers.insert(line.key.to_string(), one_number(line)?);
        } else {
            let filled = inputs.iter().any(|other| other.key.strip_suffix("-length") == Some(line.key));
            let key = if filled { format!("given-{}", line.key) } else { line.key.to_string() };
            given.lent.insert(key, Lent::holding(fitting(line)?, width(line.key), pattern));
        }
    }
    for (key, _) in outputs(call).filter(|(key, _)| NUMBERS.contains(key)) {
        given.lent.insert(key.to_string(), Lent::new(1, width(key), pattern));
    }
    Ok(given)
}

/// Sets down what the buffers have to hold after the call, and gives the total, which is 0 where the call has none.
fn expected(call: &Call, block: &Block, lent: &mut BTreeMap<String, Lent>) -> Result<u64, Fault> {
    let mut total = 0;
    for line in &block.outputs {
        let whole = outputs(call).any(|(key, whole)| key == line.key && whole);
        match lent.get_mut(line.key) {
            None => total = one_number(line)?,
            Some(lent) => {
                let (count, length) = (line.values.len(), lent.length());
                if count > length || (whole && count < length) {
                    return Err(Fault::new(line.number, format!("{count} values for the {length} entries of `{}`", line.key)));
                }
                lent.expect(fitting(line)?);
            }
        }
    }
    Ok(total)
}

fn one_number(line: &Line) -> Result<u64, Fault> {
    match fitting(line)? {
        [number] => Ok(*number),
        values => Err(Fault::new(line.number, format!("`{}` is one number and has {}", line.key, values.len()))),
    }
}

/// The values of a line, none of them too large for its key.
fn fitting<'a>(line: &'a Line) -> Result<&'a [u64], Fault> {
    let bytes = if ["total", "length"].iter().any(|ending| line.key.ends_with(ending)) { 4 } else { width(line.key) };
    match line.values.iter().find(|&&value| bytes < 8 && value >> (8 * bytes) != 0) {
        Some(value) => Err(Fault::new(line.number, format!("{value} is too large for `{}`", line.key))),
        None => Ok(&line.values),
    }
}
