//! Refusals, and the answers that the archive packs into one number.
//!
//! Byte 0 of an answer is 0 for a result, else the number of the refusal. Of a refusal byte 1 is the input, and the place
//! stands from bit 16 on. A result has three fields of 16 bits, from bits 16, 32 and 48 on.

use std::ops::RangeInclusive;

/// Why a call refuses; the discriminant is the refusal's number. A later version may add some.
#[non_exhaustive]
#[derive(Clone, Copy, Debug, PartialEq, Eq, Hash, PartialOrd, Ord)]
#[repr(u8)]
pub enum Refusal {
    /// The bytes end inside a count or a section. Place: the length of the input.
    Truncated = 1,
    /// A count lies outside its range (place: its first byte), or a number of letters is not 1 to 16 (place 0).
    CountOutOfRange = 2,
    /// An entry names no element, state, letter or state kind, or is a mark's grade and not 1 to 3 (place: its byte); or a value of
    /// a monitor or under a kept name is neither an element nor [`NONE`](crate::NONE), or a grade is not in its range
    /// (place 0).
    EntryOutOfRange = 3,
    /// Bytes follow the last section. Place: the first such byte.
    TrailingBytes = 4,
    /// (a·b)·c differs from a·(b·c). Place: a·4,096 + b·64 + c.
    NotAssociative = 5,
    /// An element is no word's value. Place: the least such element.
    Unreachable = 6,
    /// A marked pair is not linked. Place: its first byte.
    NotLinked = 7,
    /// A marked pair, with whatever grade, or a transition stands twice. Place: the first byte of the later.
    Duplicate = 8,
    /// A word, an event or a set has a letter that the rule does not have. Place: its position, the first in a word, 0 for an event; of a set
    /// the least such letter.
    UnknownLetter = 10,
    /// u (input 1) has more than [`WORD`](crate::WORD) letters, v (input 2) does not have 1 to [`WORD`](crate::WORD), a word of
    /// events has more than [`LOG`](crate::LOG), or a verdict is wanted of a monitor that saw no letter since its last mark.
    WordLength = 11,
    /// The rule is not strong.
    NotStrong = 12,
    /// A lent buffer is too short. Nothing was written, to no buffer.
    BufferTooShort = 13,
    /// An automaton has more than 64 matrices.
    TooManyMatrices = 14,
    /// A point's name is above 7.
    NameOutOfRange = 15,
    /// A return goes to a name that was never kept.
    NameNeverKept = 16,
    /// There is no such state: e is no idempotent element, or s neither an element nor [`NONE`](crate::NONE).
    NoSuchState = 17,
    /// Two rules to be made one have different numbers of letters.
    LettersDiffer = 18,
    /// Two rules to be made one have more than 64 pairs of values.
    TooManyPairs = 19,
    /// A limit of rounds is above [`MOST_ROUNDS`](crate::MOST_ROUNDS).
    LimitOutOfRange = 20,
    /// A rule would enter a board under a name above 7 or a taken one.
    NameNotFree = 21,
    /// A rule would leave a board under a name where none is.
    NameNotPresent = 22,
    /// The rule of [`next`](crate::next) or [`until`](crate::until) would have more than 64 elements.
    TooManyClasses = 23,
    /// A formula in postfix form lacks operands, has more than eight rules at once, or does not end with exactly one.
    UnbalancedFormula = 24,
}

impl Refusal {
    /// The refusal's number, 1 to 23, never 9.
    pub fn number(self) -> u8 {
        self as u8
    }

    /// What it says in general.
    fn meaning(self) -> &'static str {
        match self {
            Refusal::Truncated => "the bytes end inside a count or a section",
            Refusal::CountOutOfRange => "a count lies outside its range",
            Refusal::EntryOutOfRange => {
                "an entry, a grade or a monitor's value is out of its range"
            }
            Refusal::TrailingBytes => "bytes follow the last section",
            Refusal::NotAssociative => "the product is not associative",
            Refusal::Unreachable => "an element is no word's value",
            Refusal::NotLinked => "a marked pair is not linked",
            Refusal::Duplicate => "a marked pair or a transition stands twice",
            Refusal::UnknownLetter => "the rule does not have this letter",
            Refusal::WordLength => "a word has too many letters, or none where there must be one",
            Refusal::NotStrong => "the rule is weak",
            Refusal::BufferTooShort => "a lent buffer is too short",
            Refusal::TooManyMatrices => "the automaton has more than 64 matrices",
            Refusal::NameOutOfRange => "the name of a point is above 7",
            Refusal::NameNeverKept => "the name was never kept",
            Refusal::NoSuchState => "there is no such state",
            Refusal::LettersDiffer => "the rules have different numbers of letters",
            Refusal::TooManyPairs => "the rules have more than 64 pairs of values",
            Refusal::LimitOutOfRange => "the limit of rounds is above 64",
            Refusal::NameNotFree => "the name is above 7 or taken",
            Refusal::NameNotPresent => "no rule is present under the name",
            Refusal::TooManyClasses => "the rule would have more than 64 elements",
            Refusal::UnbalancedFormula => "the formula's operations do not leave one rule",
        }
    }

    /// The refusal of a number, if there is one.
    pub fn from_number(number: u8) -> Option<Refusal> {
        Some(match number {
            1 => Refusal::Truncated,
            2 => Refusal::CountOutOfRange,
            3 => Refusal::EntryOutOfRange,
            4 => Refusal::TrailingBytes,
            5 => Refusal::NotAssociative,
            6 => Refusal::Unreachable,
            7 => Refusal::NotLinked,
            8 => Refusal::Duplicate,
            10 => Refusal::UnknownLetter,
            11 => Refusal::WordLength,
            12 => Refusal::NotStrong,
            13 => Refusal::BufferTooShort,
            14 => Refusal::TooManyMatrices,
            15 => Refusal::NameOutOfRange,
            16 => Refusal::NameNeverKept,
            17 => Refusal::NoSuchState,
            18 => Refusal::LettersDiffer,
            19 => Refusal::TooManyPairs,
            20 => Refusal::LimitOutOfRange,
            21 => Refusal::NameNotFree,
            22 => Refusal::NameNotPresent,
            23 => Refusal::TooManyClasses,
            24 => Refusal::UnbalancedFormula,
            _ => return None,
        })
    }
}

/// A refused call: the first check that fails.
#[derive(Clone, Copy, Debug, PartialEq, Eq, Hash)]
pub struct Refused {
    /// Why.
    pub refusal: Refusal,
    /// Which input it lies in: 2 for a second marks section, a second rule and the word v, otherwise 1. Of a board it is the name, 0 to 7,
    /// of the rule that it lies in, and 1 where it lies in none.
    pub input: u8,
    /// Where in that input; [`Refusal`] says what it counts.
    pub place: u64,
}

impl Refused {
    /// Its number, input and place.
    pub(crate) fn numbers(&self) -> String {
        let number = self.refusal.number();
        format!(
            "refusal {number}, input {}, place {}",
            self.input, self.place
        )
    }

    /// What is wrong, as far as it can be said without the inputs.
    pub(crate) fn without_inputs(&self) -> String {
        match self.refusal {
            Refusal::NotAssociative => {
                let (a, b, c) = (self.place / 4096, self.place / 64 % 64, self.place % 64);
                format!("({a}·{b})·{c} is not {a}·({b}·{c})")
            }
            Refusal::Unreachable => format!("element {} is no word's value", self.place),
            other => other.meaning().to_string(),
        }
    }
}

/// What is wrong as far as the place tells it; [`explain`](crate::words::explain) looks at the inputs too.
impl std::fmt::Display for Refused {
    fn fmt(&self, f: &mut std::fmt::Formatter<'_>) -> std::fmt::Result {
        write!(f, "{} ({})", self.without_inputs(), self.numbers())
    }
}

impl std::error::Error for Refused {}

/// The three fields of a result, or the refusal. A number that no answer is packed into is a fault of the archive, and panics.
pub(crate) fn unpack(packed: u64) -> Result<[usize; 3], Refused> {
    unpack_of(packed, 1..=2)
}

/// The same of a call on a board, where the input of a refusal is a rule's name.
pub(crate) fn unpack_of_board(packed: u64) -> Result<[usize; 3], Refused> {
    unpack_of(packed, 0..=7)
}

fn unpack_of(packed: u64, inputs: RangeInclusive<u8>) -> Result<[usize; 3], Refused> {
    let [number, input, ..] = packed.to_le_bytes();
    if number == 0 {
        if input != 0 {
            foreign(packed, "byte 1 of a result is not 0");
        }
        let field = |from: u32| ((packed >> from) & 0xffff) as usize;
        return Ok([field(16), field(32), field(48)]);
    }
    let Some(refusal) = Refusal::from_number(number) else {
        foreign(packed, "there is no such refusal");
    };
    if !inputs.contains(&input) {
        foreign(packed, "the call has no such input");
    }
    Err(Refused {
        refusal,
        input,
        place: packed >> 16,
    })
}

/// A result that is yes or no.
pub(crate) fn unpack_bool(packed: u64) -> Result<bool, Refused> {
    match unpack(packed)? {
        [0, 0, 0] => Ok(false),
        [1, 0, 0] => Ok(true),
        _ => foreign(packed, "the result is neither yes nor no"),
    }
}

/// A result that is a lasso's grade, and the turns of its cycle.
pub(crate) fn unpack_graded(packed: u64) -> Result<(u8, usize), Refused> {
    match unpack(packed)? {
        [grade @ 0..=3, turns @ 1..=64, 0] => Ok((grade as u8, turns)),
        _ => foreign(packed, "the result is no grade, 0 to 3, with 1 to 64 turns"),
    }
}

/// A result that is the number of bytes written to a buffer of `room` bytes.
pub(crate) fn unpack_length(packed: u64, room: usize) -> Result<usize, Refused> {
    match unpack(packed)? {
        [length, 0, 0] if length <= room => Ok(length),
        _ => foreign(packed, "the result is no length within the buffer"),
    }
}

/// Ends a call whose answer is packed as no answer is.
pub(crate) fn foreign(packed: u64, why: &str) -> ! {
    panic!("duknavet: the archive answered {packed:#018x}, which packs no answer: {why}")
}

#[cfg(test)]
mod tests {
    use super::{unpack, unpack_bool, unpack_graded, unpack_length, unpack_of_board};
    use super::{Refusal, Refused};
    use std::panic::catch_unwind;

    #[test]
    fn numbers_and_refusals_agree() {
        for number in 0..=255 {
            match Refusal::from_number(number) {
                Some(refusal) => assert_eq!(refusal.number(), number),
                None => assert!(matches!(number, 0 | 9) || number > 23),
            }
        }
    }

    /// What a refusal says of itself, with a, b and c of a place that has three different ones.
    #[test]
    fn refusals_without_inputs() {
        let expected = [
            (1, "the bytes end inside a count or a section"),
            (2, "a count lies outside its range"),
            (
                3,
                "an entry, a grade or a monitor's value is out of its range",
            ),
            (4, "bytes follow the last section"),
            (5, "(40·7)·5 is not 40·(7·5)"),
            (6, "element 164293 is no word's value"),
            (7, "a marked pair is not linked"),
            (8, "a marked pair or a transition stands twice"),
            (10, "the rule does not have this letter"),
            (
                11,
                "a word has too many letters, or none where there must be one",
            ),
            (12, "the rule is weak"),
            (13, "a lent buffer is too short"),
            (14, "the automaton has more than 64 matrices"),
            (15, "the name of a point is above 7"),
            (16, "the name was never kept"),
            (17, "there is no such state"),
            (18, "the rules have different numbers of letters"),
            (19, "the rules have more than 64 pairs of values"),
            (20, "the limit of rounds is above 64"),
            (21, "the name is above 7 or taken"),
            (22, "no rule is present under the name"),
            (23, "the rule would have more than 64 elements"),
            (24, "the formula's operations do not leave one rule"),
        ];
        let numbers: Vec<u8> = (0..=255)
            .filter(|own| Refusal::from_number(*own).is_some())
            .collect();
        assert_eq!(numbers, expected.map(|(number, _)| number));
        for (number, words) in expected {
            let place = 40 * 4096 + 7 * 64 + 5;
            let packed = (place << 16) + 0x0200 + u64::from(number);
            let refused = unpack(packed).expect_err("a refusal").to_string();
            let expected = format!("{words} (refusal {number}, input 2, place 164293)");
            assert_eq!(refused, expected);
        }
    }

    #[test]
    fn answers_are_unpacked() {
        assert_eq!(unpack(0x0003_0002_0001_0000), Ok([1, 2, 3]));
        let refused = Refused {
            refusal: Refusal::UnknownLetter,
            input: 2,
            place: 4223,
        };
        assert_eq!(unpack(0x0000_0000_107f_020a), Err(refused));
        let refused = Refused {
            refusal: Refusal::Truncated,
            input: 1,
            place: (1 << 48) - 1,
        };
        assert_eq!(unpack(0xffff_ffff_ffff_0101), Err(refused));
        let refused = Refused {
            refusal: Refusal::NotStrong,
            input: 7,
            place: 0,
        };
        assert_eq!(unpack_of_board(0x070c), Err(refused));
        assert_eq!(unpack_bool(0x1_0000), Ok(true));
        assert_eq!(unpack_graded(0x2_0001_0000), Ok((1, 2)));
        assert_eq!(unpack_graded(0x1_0003_0000), Ok((3, 1)));
        assert_eq!(unpack_graded(0x40_0000_0000), Ok((0, 64)));
        assert_eq!(unpack_length(0x4014_0000, 16_404), Ok(16_404));
    }

    #[test]
    fn what_packs_no_answer_panics() {
        for packed in [0x0000_0119, 0x0000_0109, 0x0100, 0x0001, 0x0301] {
            assert!(catch_unwind(|| unpack(packed)).is_err());
        }
        for packed in [0x0000_0119, 0x0000_0109, 0x0100, 0x0801] {
            assert!(catch_unwind(|| unpack_of_board(packed)).is_err());
        }
        assert!(catch_unwind(|| unpack_bool(0x2_0000)).is_err());
        assert!(catch_unwind(|| unpack_bool(0x1_0001_0000)).is_err());
        for packed in [
            0,
            0x1_0000,
            0x1_0004_0000,
            0x41_0001_0000,
            0x1_0001_0001_0000,
        ] {
            assert!(catch_unwind(|| unpack_graded(packed)).is_err());
        }
        assert!(catch_unwind(|| unpack_length(0x4015_0000, 16_404)).is_err());
    }
}
