//! Numbers that two sequences of bytes hardly share (FNV-1a, 64 bits). They guard against mistakes and damage,
//! not against forgery.

use std::fmt;

/// The number of some bytes, which can be carried on as more bytes come.
///
/// Two sequences of one length that differ in a single byte never share it: each step is one to one in what
/// came before.
#[derive(Clone, Copy, Debug, PartialEq, Eq)]
pub struct Fingerprint(u64);

impl Fingerprint {
    /// That of no bytes.
    pub const EMPTY: Fingerprint = Fingerprint(0xcbf2_9ce4_8422_2325);

    pub fn of(bytes: &[u8]) -> Fingerprint {
        Fingerprint::EMPTY.and(bytes)
    }

    /// That of the bytes so far and these behind them.
    pub fn and(self, bytes: &[u8]) -> Fingerprint {
        Fingerprint(bytes.iter().fold(self.0, |hash, byte| {
            (hash ^ u64::from(*byte)).wrapping_mul(0x0000_0100_0000_01b3)
        }))
    }

    /// The number that a word writes, as it is written here and no other way.
    pub fn read(word: &str) -> Option<Fingerprint> {
        let read = Fingerprint(u64::from_str_radix(word, 16).ok()?);
        (read.to_string() == word).then_some(read)
    }
}

impl fmt::Display for Fingerprint {
    fn fmt(&self, f: &mut fmt::Formatter<'_>) -> fmt::Result {
        write!(f, "{:016x}", self.0)
    }
}
