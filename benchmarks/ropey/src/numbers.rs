//! Random numbers and checksums.

/// The generator of random numbers of all workloads: a 64-bit xorshift with a fixed seed.
pub struct Numbers(u64);

impl Numbers {
    /// Returns the generator in its initial state.
    pub fn new() -> Numbers {
        Numbers(0x9E37_79B9_7F4A_7C15)
    }

    /// Returns the next number, reduced to 0 to `most` by its remainder.
    pub fn up_to(&mut self, most: usize) -> usize {
        self.0 ^= self.0 << 13;
        self.0 ^= self.0 >> 7;
        self.0 ^= self.0 << 17;
        (self.0 % (most as u64 + 1)) as usize
    }
}

/// A checksum of bytes by FNV-1a.
pub struct Fnv(u64);

impl Fnv {
    /// Returns the checksum of no bytes.
    pub fn new() -> Fnv {
        Fnv(0xCBF2_9CE4_8422_2325)
    }

    /// Returns the checksum of some bytes.
    pub fn of(bytes: &[u8]) -> u64 {
        let mut sum = Fnv::new();
        sum.add(bytes);
        sum.sum()
    }

    /// Adds bytes to the checksum.
    pub fn add(&mut self, bytes: &[u8]) {
        for byte in bytes {
            self.0 = (self.0 ^ u64::from(*byte)).wrapping_mul(0x0100_0000_01B3);
        }
    }

    /// Returns the checksum.
    pub fn sum(&self) -> u64 {
        self.0
    }
}
