//! Memory that is lent to a call: it stands between two guards, and is compared with them afterwards, byte for byte.
use std::mem;

/// The bytes of each guard; a multiple of every width, so that the cells between them are aligned.
const GUARD: usize = 512;

/// Cells of 1, 2, 4 or 8 bytes, the low byte first as on every machine that the archive is for.
pub struct Lent {
    length: usize,
    width: usize,
    memory: Vec<u64>,
    due: Vec<u8>,
}

impl Lent {
    /// `length` cells that hold the pattern. Two runs with patterns whose bits all differ show a cell that was due and not written.
    pub fn new(length: usize, width: usize, pattern: u8) -> Lent {
        let words = (length * width).div_ceil(8) + 2 * GUARD / 8;
        let due: Vec<u8> = (0..8 * words).map(|i| (i as u8).wrapping_mul(37) ^ pattern).collect();
        Lent { length, width, memory: words_of(&due), due }
    }

    /// Cells that hold these values.
    pub fn holding(values: &[u64], width: usize, pattern: u8) -> Lent {
        let mut lent = Lent::new(values.len(), width, pattern);
        lent.expect(values);
        lent.memory = words_of(&lent.due);
        lent
    }

    pub fn length(&self) -> usize {
        self.length
    }

    /// After the call the first cells have to hold these values, and the others what they held.
    pub fn expect(&mut self, values: &[u64]) {
        assert!(values.len() <= self.length);
        for (cell, value) in self.due[GUARD..].chunks_exact_mut(self.width).zip(values) {
            cell.copy_from_slice(&value.to_le_bytes()[..self.width]);
        }
    }

    /// Where the cells start, for a call that reads or writes them.
    pub fn start<T>(&mut self) -> *mut T {
        assert_eq!(mem::size_of::<T>(), self.width);
        self.first_byte().cast()
    }

    pub fn first_byte(&mut self) -> *mut u8 {
        self.memory.as_mut_ptr().cast::<u8>().wrapping_add(GUARD)
    }

    /// What is not as it should be after the call.
    pub fn difference(&self) -> Option<String> {
        let now: Vec<u8> = self.memory.iter().flat_map(|word| word.to_le_bytes()).collect();
        let at = (0..now.len()).find(|&i| now[i] != self.due[i])?;
        let end = GUARD + self.length * self.width;
        if at < GUARD || at >= end {
            return Some(format!("a byte {} it was written", if at < end { "before" } else { "behind" }));
        }
        let cell = (at - GUARD) / self.width;
        let start = GUARD + cell * self.width;
        let number = |bytes: &[u8]| bytes[start..start + self.width].iter().rev().fold(0, |high, &byte| high << 8 | u64::from(byte));
        Some(format!("its entry {} is {} and should be {}", cell + 1, number(&now), number(&self.due)))
    }
}

fn words_of(bytes: &[u8]) -> Vec<u64> {
    bytes.chunks_exact(8).map(|word| u64::from_le_bytes(word.try_into().expect("8 bytes"))).collect()
}
