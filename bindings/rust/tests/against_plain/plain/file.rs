//! The survey file: a writer, a reader that goes through the bytes record by record, and a converter that reads and writes.
use super::survey::{ranked, Town};
use super::{refusals, NEW_FORM, OLD_FORM};

/// A town, the kind of its plan, and the form of its file.
pub type Filed = (Town, usize, usize);

fn word(number: usize) -> [u8; 2] {
    (number as u16).to_le_bytes()
}

pub fn write(town: &Town, kind: usize, form: usize) -> Vec<u8> {
    let mut file = if form == OLD_FORM { b"TN" } else { b"TW" }.to_vec();
    file.extend(word(town.n));
    file.extend([town.m as u8, town.k as u8, kind as u8]);
    file.extend(b"SC");
    for &score in &town.scores {
        file.extend(score.to_le_bytes());
    }
    if form != OLD_FORM {
        file.extend(b"HW");
        file.extend(&town.weights);
    }
    for street in 0..town.n {
        let list = ranked(town.row(street));
        file.extend(b"ST");
        file.extend(word(street + 1));
        file.push(list.len() as u8);
        file.extend(list);
    }
    file.extend(b"EN");
    file
}

/// The bytes that are still to be read.
struct Rest<'a>(&'a [u8]);

impl<'a> Rest<'a> {
    fn take(&mut self, count: usize) -> Result<&'a [u8], u8> {
        let (first, rest) = self.0.split_at_checked(count).ok_or(12)?;
        self.0 = rest;
        Ok(first)
    }

    fn mark(&mut self, due: &[u8; 2]) -> Result<(), u8> {
        if self.take(2)? == due {
            Ok(())
        } else {
            Err(13)
        }
    }
}

fn number(bytes: &[u8]) -> usize {
    usize::from(bytes[0]) + 256 * usize::from(bytes[1])
}

pub fn read(file: &[u8]) -> Result<Filed, u8> {
    let mut rest = Rest(file);
    let form = match rest.take(2)? {
        b"TN" => OLD_FORM,
        b"TW" => NEW_FORM,
        _ => return Err(13),
    };
    let fixed = rest.take(5)?;
    let (n, m, k, kind) = (number(fixed), usize::from(fixed[2]), usize::from(fixed[3]), usize::from(fixed[4]));
    refusals::streets(n)?;
    refusals::sites(m)?;
    refusals::chosen(k, m)?;
    refusals::kind(kind)?;
    rest.mark(b"SC")?;
    let scores: Vec<u16> = rest.take(2 * m)?.chunks(2).map(|bytes| number(bytes) as u16).collect();
    refusals::scores(&scores)?;
    let mut weights = vec![1; n];
    if form == NEW_FORM {
        rest.mark(b"HW")?;
        weights = rest.take(n)?.to_vec();
        refusals::weights(&weights)?;
    }
    let mut rows = Vec::new();
    for street in 1..=n {
        let mut row = list(&mut rest, street, m)?;
        row.resize(m, 0);
        rows.extend(row);
    }
    rest.mark(b"EN")?;
    if !rest.0.is_empty() {
        return Err(16);
    }
    Ok((Town { n, m, k, scores, weights, rows }, kind, form))
}

pub fn convert(file: &[u8], form: usize) -> Result<Vec<u8>, u8> {
    let (town, kind, _) = read(file)?;
    refusals::lost(form, &town.weights)?;
    Ok(write(&town, kind, form))
}

/// One street's record.
fn list(rest: &mut Rest, street: usize, m: usize) -> Result<Vec<u8>, u8> {
    rest.mark(b"ST")?;
    let fixed = rest.take(3)?;
    if number(fixed) != street {
        return Err(14);
    }
    let length = usize::from(fixed[2]);
    if length > m {
        return Err(15);
    }
    let list = rest.take(length)?;
    for (i, site) in list.iter().enumerate() {
        if !(1..=m).contains(&usize::from(*site)) {
            return Err(10);
        }
        if list[..i].contains(site) {
            return Err(11);
        }
    }
    Ok(list.to_vec())
}
