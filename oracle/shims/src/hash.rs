use std::hash::{BuildHasher, Hasher};

/// Builds a quick hasher without a seed, so that runs repeat exactly.
#[derive(Clone, Copy, Debug, Default)]
pub struct FxBuildHasher;

pub struct FxHasher(u64);

impl BuildHasher for FxBuildHasher {
    type Hasher = FxHasher;
    fn build_hasher(&self) -> FxHasher {
        FxHasher(0)
    }
}

impl Hasher for FxHasher {
    fn finish(&self) -> u64 {
        self.0.rotate_left(26)
    }
    fn write(&mut self, bytes: &[u8]) {
        for &byte in bytes {
            self.write_u64(byte.into());
        }
    }
    fn write_u8(&mut self, number: u8) {
        self.write_u64(number.into());
    }
    fn write_u32(&mut self, number: u32) {
        self.write_u64(number.into());
    }
    fn write_u64(&mut self, number: u64) {
        self.0 = self.0.wrapping_add(number).wrapping_mul(0xf135_7aea_2e62_a9c5);
    }
    fn write_usize(&mut self, number: usize) {
        self.write_u64(number as u64);
    }
}
