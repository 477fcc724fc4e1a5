//! The call for a formula in postfix form, on any bytes: which check refuses and where, by a second reading of the operations; what the buffers hold
//! after each answer; and that the calls one by one make the same rule.

use super::{formula, letters};
use duknavet::formulas::{make, make_by_steps, Program};
use duknavet::{formula_rule, FORMULA, FORMULA_STACK, RULE_OUT, SCRATCH, UNTIL_CLASSES};

/// The number and the place of the first check of the bytes that fails.
fn scan(letters: usize, formula: &[u8]) -> Option<(u8, usize)> {
    if !(1..=16).contains(&letters) {
        return Some((2, 0));
    }
    if formula.len() > FORMULA {
        return Some((11, 0));
    }
    let (mut at, mut height) = (0, 0_usize);
    while at < formula.len() {
        let code = formula[at];
        let bytes = match code {
            0 => 4,
            1 | 12 => 2,
            2..=11 => 1,
            _ => return Some((3, at)),
        };
        let Some(operands) = formula.get(at + 1..at + bytes) else {
            return Some((1, formula.len()));
        };
        if code < 2 && operands[0] > 3 {
            return Some((3, at + 1));
        }
        if code == 0 {
            let set = u32::from(operands[1]) | u32::from(operands[2]) << 8;
            if set >> letters != 0 {
                return Some((10, at + 2));
            }
        }
        let (asks, left) = match code {
            0 | 1 => (0, height + 1),
            12 => (usize::from(operands[0]) + 1, height + 1),
            2 | 6 | 8 | 9 => (1, height),
            _ => (2, height.wrapping_sub(1)),
        };
        if height < asks || left > 8 {
            return Some((24, at));
        }
        height = left;
        at += bytes;
    }
    (height != 1).then_some((24, formula.len()))
}

struct Buffers {
    out: Vec<u8>,
    lent: [Vec<u8>; 4],
}

impl Buffers {
    fn new(sizes: [usize; 5]) -> Buffers {
        let [out, stack, spare, classes, scratch] = sizes;
        Buffers {
            out: vec![0xa5; out],
            lent: [stack, spare, classes, scratch].map(|size| vec![0xa5; size]),
        }
    }

    /// The number and the place of a refusal, or the rule, once everything that was lent is looked at.
    fn ask(&mut self, letters: usize, formula: &[u8]) -> Result<Vec<u8>, (u8, usize)> {
        let out_before = self.out.clone();
        let [stack, spare, classes, scratch] = &mut self.lent;
        let answer = formula_rule(
            letters,
            formula,
            &mut self.out,
            stack,
            spare,
            classes,
            scratch,
        );
        let answer = answer.map_err(|refused| {
            assert_eq!(refused.input, 1, "{formula:?}");
            let place = usize::try_from(refused.place).expect("a place");
            (refused.refusal.number(), place)
        });
        match answer {
            Ok(formed) => {
                assert_eq!(self.out[formed.length..], out_before[formed.length..]);
                Ok(self.out[..formed.length].to_vec())
            }
            Err(refused) => {
                assert!(self.out == out_before, "out changed: {formula:?}");
                Err(refused)
            }
        }
    }
}

const SIZES: [usize; 5] = [RULE_OUT, FORMULA_STACK, RULE_OUT, UNTIL_CLASSES, SCRATCH];

fn checked(buffers: &mut Buffers, letters: usize, formula: &[u8]) -> Result<Vec<u8>, (u8, usize)> {
    let answer = buffers.ask(letters, formula);
    for lent in &mut buffers.lent {
        assert!(lent.iter().all(|byte| *byte == 0), "not zeros: {formula:?}");
        lent.iter_mut().step_by(997).for_each(|byte| *byte = 0x5a);
    }
    match (scan(letters, formula), &answer) {
        (Some(expected), found) => assert_eq!(found, &Err(expected), "{letters}: {formula:?}"),
        (None, Err((number, place))) => {
            assert!(matches!(number, 19 | 23), "{number} for {formula:?}");
            assert!(*place < formula.len(), "{place} for {formula:?}");
        }
        (None, Ok(_)) => {}
    }
    answer
}

const FORMULAS: [&[u8]; 6] = [
    &[1, 3],
    &[0, 3, 1, 0, 6],
    &[0, 2, 1, 0, 0, 3, 2, 0, 7, 9],
    &[0, 3, 1, 0, 12, 0, 2, 3],
    &[0, 3, 1, 0, 0, 1, 2, 0, 11, 8, 1, 2, 4],
    &[0, 3, 1, 0, 8, 12, 0, 9, 10, 0, 3, 2, 0, 5],
];

#[test]
fn every_byte_at_every_place() {
    let mut buffers = Buffers::new(SIZES);
    let mut kinds = std::collections::BTreeSet::new();
    for formula in FORMULAS {
        for place in 0..formula.len() {
            for byte in (0..=20).chain([63, 64, 127, 128, 254, 255]) {
                let mut bytes = formula.to_vec();
                bytes[place] = byte;
                match checked(&mut buffers, 2, &bytes) {
                    Ok(_) => kinds.insert(0),
                    Err((number, _)) => kinds.insert(number),
                };
            }
        }
        for length in 0..formula.len() {
            let _ = checked(&mut buffers, 2, &formula[..length]);
        }
    }
    assert_eq!(kinds, [0, 1, 3, 10, 24].into());
}

#[test]
fn letters_and_lengths() {
    let mut buffers = Buffers::new(SIZES);
    for letters in [0, 1, 2, 15, 16, 17, usize::MAX] {
        for formula in FORMULAS {
            let _ = checked(&mut buffers, letters, formula);
        }
        let every = [0, 3, 255, 255];
        let _ = checked(&mut buffers, letters, &every);
    }
    // Nine rules at a time, one with each letter; eight are taken, and then joined.
    let mut eight: Vec<u8> = (0..8).flat_map(|letter| [0, 3, 1 << letter, 0]).collect();
    eight.extend([4; 7]);
    assert!(checked(&mut buffers, 8, &eight).is_ok());
    let nine: Vec<u8> = (0..9).flat_map(|_| [1, 3]).collect();
    assert_eq!(checked(&mut buffers, 8, &nine), Err((24, 16)));
    // The longest formula that is taken, and one byte more.
    let mut long = vec![2; FORMULA];
    long[..2].copy_from_slice(&[1, 3]);
    assert!(checked(&mut buffers, 1, &long).is_ok());
    long.push(2);
    assert_eq!(checked(&mut buffers, 1, &long), Err((11, 0)));
}

#[test]
fn short_buffers() {
    for short in 0..SIZES.len() {
        let mut sizes = SIZES;
        sizes[short] -= 1;
        let mut buffers = Buffers::new(sizes);
        assert_eq!(buffers.ask(0, &[13]), Err((13, 0)), "buffer {short}");
        let kept = |buffer: &Vec<u8>| buffer.iter().all(|byte| *byte == 0xa5);
        assert!(buffers.lent.iter().all(kept), "buffer {short}");
    }
}

#[test]
fn too_large_on_the_way() {
    let mut buffers = Buffers::new(SIZES);
    let mut met = std::collections::BTreeSet::new();
    // The letter that comes so many places on decides: more and more first letters count.
    let mut formula = vec![0, 3, 1, 0];
    for _ in 0..8 {
        formula.push(6);
        if let Err((number, place)) = checked(&mut buffers, 2, &formula) {
            assert_eq!((number, place), (23, formula.len() - 1));
            met.insert(number);
            break;
        }
    }
    // Two such counts over letters of their own, together.
    for places in 1..6 {
        let mut formula = vec![0, 3, 1, 0];
        formula.extend(vec![6; places]);
        formula.extend([0, 3, 2, 0]);
        formula.extend(vec![6; places]);
        formula.extend([7, 9]);
        if let Err((number, _)) = checked(&mut buffers, 3, &formula) {
            met.insert(number);
        }
    }
    assert!(met.contains(&23), "{met:?}");
}

#[test]
fn as_by_steps() {
    let alphabet = letters(&["alarm", "pump", "shut"]);
    for text in [
        "G (alarm -> (!pump U shut))",
        "F G alarm || X (pump W shut)",
        "(alarm R pump) xor (shut M alarm)",
    ] {
        let program = Program::of(&formula(text, &alphabet)).expect("a program");
        let made = make(alphabet.letters(), &program).expect("a rule");
        let by_steps = make_by_steps(alphabet.letters(), &program).expect("a rule");
        assert_eq!(made, by_steps, "{text}");
    }
}
