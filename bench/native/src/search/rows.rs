//! A set of rows of bytes, each with a number, in the order in which they were added.

/// The rows lie one after another. A table has one more than the number of a row, or 0, at a place that its hash gives.
pub struct Rows {
    bytes: Vec<u8>,
    ends: Vec<usize>,
    hashes: Vec<u32>,
    table: Vec<u32>,
}

impl Rows {
    pub fn new() -> Rows {
        Rows { bytes: Vec::new(), ends: Vec::new(), hashes: Vec::new(), table: vec![0; 64] }
    }

    pub fn len(&self) -> usize {
        self.ends.len()
    }

    pub fn row(&self, number: usize) -> &[u8] {
        let start = if number == 0 { 0 } else { self.ends[number - 1] };
        &self.bytes[start..self.ends[number]]
    }

    /// The number of a row, or where it would stand in the table.
    pub fn find(&self, row: &[u8], hash: u32) -> Result<usize, usize> {
        let mask = self.table.len() - 1;
        let mut place = hash as usize & mask;
        loop {
            match self.table[place] {
                0 => return Err(place),
                next => {
                    let number = next as usize - 1;
                    if self.hashes[number] == hash && self.row(number) == row {
                        return Ok(number);
                    }
                }
            }
            place = (place + 1) & mask;
        }
    }

    /// Adds a row that isn't there.
    pub fn push(&mut self, row: &[u8], hash: u32, place: usize) {
        self.bytes.extend_from_slice(row);
        self.ends.push(self.bytes.len());
        self.hashes.push(hash);
        self.table[place] = self.hashes.len() as u32;
        if self.hashes.len() * 2 > self.table.len() {
            self.widen();
        }
    }

    fn widen(&mut self) {
        let mask = self.table.len() * 2 - 1;
        let mut table = vec![0; mask + 1];
        for (number, &hash) in self.hashes.iter().enumerate() {
            let mut place = hash as usize & mask;
            while table[place] != 0 {
                place = (place + 1) & mask;
            }
            table[place] = number as u32 + 1;
        }
        self.table = table;
    }
}

/// The hash of a row, of eight bytes at a time.
pub fn hash(row: &[u8]) -> u32 {
    const FACTOR: u64 = 0x9E37_79B9_7F4A_7C15;
    let mut mixed: u64 = row.len() as u64;
    let mut parts = row.chunks_exact(8);
    for part in &mut parts {
        let number = u64::from_le_bytes([part[0], part[1], part[2], part[3], part[4], part[5], part[6], part[7]]);
        mixed = (mixed.rotate_left(5) ^ number).wrapping_mul(FACTOR);
    }
    for &byte in parts.remainder() {
        mixed = (mixed.rotate_left(5) ^ u64::from(byte)).wrapping_mul(FACTOR);
    }
    (mixed >> 32) as u32
}
