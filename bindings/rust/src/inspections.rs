//! What a rule file has.

use crate::answer::unpack;
use crate::{raw, Refused};

/// How many elements, letters and marks a rule file has.
#[derive(Clone, Copy, Debug, PartialEq, Eq, Hash)]
pub struct Inspection {
    /// 1 to 64.
    pub elements: usize,
    /// 1 to 16.
    pub letters: usize,
    /// 0 to 4,096.
    pub marks: usize,
}

/// Whether the bytes are a rule file, and its counts.
///
/// ```
/// use duknavet::{inspect, Inspection, SCRATCH};
///
/// let rule = [2, 0, 1, 1, 0, 2, 1, 0, 1, 0, 0, 0, 2];
/// let mut scratch = vec![0; SCRATCH];
/// let counts = Inspection { elements: 2, letters: 2, marks: 1 };
/// assert_eq!(inspect(&rule, &mut scratch), Ok(counts));
/// assert_eq!(inspect(&rule[..12], &mut scratch).unwrap_err().place, 12);
/// ```
pub fn inspect(rule: &[u8], scratch: &mut [u8]) -> Result<Inspection, Refused> {
    let [elements, letters, marks] = unpack(raw::inspect(rule, scratch))?;
    Ok(Inspection {
        elements,
        letters,
        marks,
    })
}
