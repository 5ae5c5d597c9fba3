//! Reading numbers from bytes; "stored low byte first".

/// Reads a byte string from its start. The callers have checked its length.
pub struct Reader<'a>(&'a [u8]);

impl<'a> Reader<'a> {
    pub fn new(bytes: &'a [u8]) -> Self {
        Self(bytes)
    }

    pub fn bytes<const N: usize>(&mut self) -> &'a [u8; N] {
        let (bytes, rest) = self.0.split_first_chunk().expect("the length was checked");
        self.0 = rest;
        bytes
    }

    pub fn byte(&mut self) -> u8 {
        self.bytes::<1>()[0]
    }

    pub fn number(&mut self) -> u32 {
        u32::from_le_bytes(*self.bytes())
    }

    pub fn numbers<const N: usize>(&mut self) -> [u32; N] {
        std::array::from_fn(|_| self.number())
    }

    /// N byte strings of M bytes each.
    pub fn strings<const N: usize, const M: usize>(&mut self) -> [[u8; M]; N] {
        std::array::from_fn(|_| *self.bytes())
    }

    pub fn is_empty(&self) -> bool {
        self.0.is_empty()
    }
}

/// The numbers one after the other, four bytes each.
pub fn number_bytes(numbers: &[u32]) -> Vec<u8> {
    numbers.iter().flat_map(|n| n.to_le_bytes()).collect()
}

/// "Adding is XOR throughout."
pub fn add_bytes(sum: &mut [u8], bytes: &[u8]) {
    for (sum, byte) in sum.iter_mut().zip(bytes) {
        *sum ^= byte;
    }
}

pub fn add_numbers(sum: &mut [u32], numbers: &[u32]) {
    for (sum, number) in sum.iter_mut().zip(numbers) {
        *sum ^= number;
    }
}

/// The sum of some byte strings of equal length.
pub fn sum_bytes<'a, const N: usize>(strings: impl IntoIterator<Item = &'a [u8; N]>) -> [u8; N] {
    let mut sum = [0; N];
    for string in strings {
        add_bytes(&mut sum, string);
    }
    sum
}
