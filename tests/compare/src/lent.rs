//! Bytes lent to the library.

/// Bytes between guards that the library must not touch. They may stand at any address.
pub struct Lent {
    bytes: Vec<u8>,
    before: usize,
    length: usize,
}

const GUARD: u8 = 0xa5;
const BEHIND: usize = 64;

impl Lent {
    pub fn new(content: &[u8], before: usize) -> Lent {
        let length = before + content.len() + BEHIND;
        let mut bytes = Vec::with_capacity(length);
        bytes.resize(before, GUARD);
        bytes.extend(content);
        bytes.resize(length, GUARD);
        Lent { bytes, before, length: content.len() }
    }

    pub fn slice(&mut self) -> &mut [u8] {
        &mut self.bytes[self.before..self.before + self.length]
    }

    pub fn guards_hold(&self) -> bool {
        let (before, rest) = self.bytes.split_at(self.before);
        let behind = &rest[self.length..];
        before.iter().chain(behind).all(|&byte| byte == GUARD)
    }
}
