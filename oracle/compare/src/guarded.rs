//! Bytes between two guards, which no one may touch.

const GUARD: usize = 64;
const MARK: u8 = 0xC3;

pub struct Guarded {
    bytes: Vec<u8>,
}

impl Guarded {
    pub fn new(inner: &[u8]) -> Guarded {
        let mut bytes = vec![MARK; GUARD];
        bytes.extend_from_slice(inner);
        bytes.extend([MARK; GUARD]);
        Guarded { bytes }
    }

    pub fn inner(&self) -> &[u8] {
        &self.bytes[GUARD..self.bytes.len() - GUARD]
    }

    pub fn inner_mut(&mut self) -> &mut [u8] {
        let end = self.bytes.len() - GUARD;
        &mut self.bytes[GUARD..end]
    }

    pub fn guards_hold(&self) -> bool {
        let end = self.bytes.len() - GUARD;
        self.bytes[..GUARD].iter().chain(&self.bytes[end..]).all(|&b| b == MARK)
    }
}
