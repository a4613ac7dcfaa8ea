//! Numbers in payloads, each a little-endian u64, and what lent memory holds.

/// What is left of a payload.
pub struct Words<'a>(pub &'a [u8]);

impl Words<'_> {
    /// The next number.
    pub fn one(&mut self) -> Option<u64> {
        let (head, rest) = self.0.split_first_chunk::<8>()?;
        self.0 = rest;
        Some(u64::from_le_bytes(*head))
    }

    /// The next number, if it is at most `most`.
    pub fn at_most(&mut self, most: u64) -> Option<u64> {
        self.one().filter(|&x| x <= most)
    }

    /// The next `count` numbers.
    pub fn many(&mut self, count: u64) -> Option<Vec<u64>> {
        (0..count).map(|_| self.one()).collect()
    }

    /// Numbers with their count, at most `most`, before them.
    pub fn counted(&mut self, most: u64) -> Option<Vec<u64>> {
        let count = self.at_most(most)?;
        self.many(count)
    }
}

/// The bytes of numbers.
pub fn bytes_of(numbers: &[u64]) -> Vec<u8> {
    numbers.iter().flat_map(|x| x.to_le_bytes()).collect()
}

/// Numbers with their count before them.
pub fn with_count(numbers: &[u64]) -> Vec<u64> {
    let mut list = vec![numbers.len() as u64];
    list.extend(numbers);
    list
}

/// What lent output memory holds beforehand.
pub fn memory(size: u64) -> Vec<u64> {
    (0..size).map(|k| (200 + k) % 251).collect()
}

/// What lent output bytes hold beforehand.
pub fn byte_memory(size: u64) -> Vec<u8> {
    memory(size).iter().map(|&x| x as u8).collect()
}

/// The bytes of a dataset of a length.
pub fn dataset_bytes(length: u64) -> Vec<u8> {
    (0..length).map(|k| ((k * 7 + 3) % 251) as u8).collect()
}
