//! Boards: three bytes for each name and the lowest grade, and files that stand one behind another.

use super::checks::Refusal;
use super::rule::Morphism;

pub const NAMES: usize = 8;
pub const STATE: usize = 25;
/// The bytes for each name's file.
pub const SLOT: usize = 16_404;
/// The lowest grade where no rule has one.
pub const NO_GRADE: u8 = 4;
/// The value of no letters.
const NONE: u8 = 64;

/// A name: whether a rule is present there, and its monitor.
#[derive(Clone, Copy, Debug, PartialEq, Eq)]
pub struct Slot {
    pub present: bool,
    pub before: u8,
    pub since: u8,
}

impl Slot {
    pub fn event(&mut self, m: &Morphism, letter: u8) {
        let image = m.images[letter as usize];
        self.since = times(m, self.since, image);
    }

    pub fn mark(&mut self, m: &Morphism) {
        self.before = times(m, self.before, self.since);
        self.since = NONE;
    }
}

fn times(m: &Morphism, first: u8, second: u8) -> u8 {
    match (first, second) {
        (NONE, other) | (other, NONE) => other,
        (first, second) => m.product(first, second),
    }
}

pub fn slots(state: &[u8; STATE]) -> Vec<Slot> {
    let slot = |bytes: &[u8]| Slot {
        present: bytes[0] != 0,
        before: bytes[1],
        since: bytes[2],
    };
    state[..STATE - 1].chunks(3).map(slot).collect()
}

pub fn state(slots: &[Slot], lowest: u8) -> [u8; STATE] {
    let mut state = [lowest; STATE];
    for (bytes, slot) in state.chunks_exact_mut(3).zip(slots) {
        bytes.copy_from_slice(&[u8::from(slot.present), slot.before, slot.since]);
    }
    state
}

/// How many letters the bytes of a file say that there are; 0 where they end before.
pub fn letters(file: &[u8]) -> usize {
    let elements = file.first().map_or(0, |n| *n as usize);
    file.get(1 + elements * elements).map_or(0, |k| *k as usize)
}

/// The file of a name: section by section as long as there are bytes for it, and no byte more.
pub fn file(files: &[u8], name: usize) -> &[u8] {
    let all = &files[name * SLOT..(name + 1) * SLOT];
    let mut end = 0;
    let mut take = |length: usize| {
        let bytes = all.get(end..end + length)?;
        end += length;
        Some(bytes)
    };
    let mut sections = || {
        let n = take(1)?[0] as usize;
        take(n * n)?;
        let k = take(1)?[0] as usize;
        take(k)?;
        let marks = take(2)?;
        take(3 * u16::from_le_bytes([marks[0], marks[1]]) as usize)
    };
    match sections() {
        Some(_) => &all[..end],
        None => all,
    }
}

/// Check 21: a rule enters under a free name.
pub fn free(slots: &[Slot], name: usize) -> Result<(), Refusal> {
    match slots.get(name) {
        Some(slot) if !slot.present => Ok(()),
        _ => Err((21, 1, 0)),
    }
}

/// Check 22: a rule leaves a name where one is.
pub fn present(slots: &[Slot], name: usize) -> Result<(), Refusal> {
    match slots.get(name) {
        Some(slot) if slot.present => Ok(()),
        _ => Err((22, 1, 0)),
    }
}

/// Check 10 of an event for the rule of a name.
pub fn letter(m: &Morphism, name: usize, letter: u8) -> Result<(), Refusal> {
    match usize::from(letter) < m.letters() {
        true => Ok(()),
        false => Err((10, name as u8, 0)),
    }
}
