//! Buffers as a caller lends them: stale bytes inside, guard bytes on both sides, and every byte watched.

use crate::random::Random;

const GUARD: usize = 24;

pub struct Lent {
    all: Vec<u8>,
    before: Vec<u8>,
    length: usize,
}

/// Stale bytes to fill buffers from: reading them from one pool is quicker than making them.
pub struct Stale(Vec<u8>);

impl Stale {
    pub fn new(random: &mut Random) -> Stale {
        let words = (0..40_000).map(|_| random.next());
        Stale(words.flat_map(u64::to_le_bytes).collect())
    }

    pub fn lend(&self, random: &mut Random, length: usize) -> Lent {
        let size = length + 2 * GUARD;
        let from = random.below(self.0.len() - size);
        let all = self.0[from..from + size].to_vec();
        let before = all.clone();
        Lent {
            all,
            before,
            length,
        }
    }
}

impl Lent {
    /// Begins the buffer with bytes of the caller's, as many of them as it holds.
    pub fn begin(&mut self, bytes: &[u8]) {
        let count = bytes.len().min(self.length);
        for side in [&mut self.all, &mut self.before] {
            side[GUARD..GUARD + count].copy_from_slice(&bytes[..count]);
        }
    }

    pub fn slice(&mut self) -> &mut [u8] {
        &mut self.all[GUARD..GUARD + self.length]
    }

    /// The first bytes, which a call says that it wrote; every other byte is as it was.
    pub fn written(&self, length: usize) -> &[u8] {
        assert!(length <= self.length, "more was written than was lent");
        assert!(
            self.all[..GUARD] == self.before[..GUARD],
            "bytes before a buffer changed"
        );
        let past = GUARD + length;
        assert!(
            self.all[past..] == self.before[past..],
            "bytes past a result changed"
        );
        &self.all[GUARD..past]
    }

    pub fn kept(&self) {
        self.written(0);
    }

    /// Scratch after a call: zeros over its whole length, and nothing else changed.
    pub fn zeroed(&self) {
        let bytes = self.written(self.length);
        assert!(bytes.iter().all(|b| *b == 0), "scratch is not zeros");
    }
}
