//! What the tool works out by itself from a table, against the engine written apart.

use crate::definitions::order;
use crate::random::Random;
use crate::samples::rule;
use duknavet::files::Rule;
use duknavet::owned;

#[test]
fn values_and_first_words() {
    let mut random = Random::new(1101);
    for _ in 0..300 {
        let expected = rule(&mut random, 20);
        let own = Rule::read(&expected.bytes()).expect("a rule");
        let morphism = &expected.morphism;
        for _ in 0..20 {
            let length = random.within(1, 8);
            let word = random.word(length, morphism.letters());
            assert_eq!(own.value(&word), Some(morphism.value(&word)));
            let pair = (
                random.below(morphism.n) as u8,
                random.below(morphism.n) as u8,
            );
            assert_eq!(own.linked(pair.0, pair.1), morphism.linked(pair));
            let grade = expected.marks.iter().find(|mark| mark.pair == pair);
            assert_eq!(
                own.grade(pair.0, pair.1),
                grade.map_or(0, |mark| mark.grade)
            );
        }
        let words = own.first_words();
        assert_eq!(words.len(), morphism.n);
        for (element, word) in order::first_words(morphism) {
            assert_eq!(
                words[usize::from(element)],
                Some(word),
                "{:?}",
                expected.bytes()
            );
        }
        assert_eq!(own.value(&[]), None);
        assert_eq!(own.value(&[morphism.letters() as u8]), None);
        assert_eq!(own.product(morphism.n as u8, 0), None);
    }
}

/// The check alone refuses what every other call refuses of a rule, and passes the rest.
#[test]
fn checks() {
    let mut random = Random::new(1102);
    let (mut passed, mut refused) = (0, 0);
    for _ in 0..2000 {
        let mut bytes = rule(&mut random, 5).bytes();
        let at = random.below(bytes.len());
        bytes[at] = random.below(6) as u8;
        let check = owned::check(&bytes);
        assert_eq!(check, owned::classes(&bytes).map(|_| ()), "{bytes:?}");
        match check {
            Ok(()) => passed += 1,
            Err(_) => refused += 1,
        }
    }
    assert!(passed > 200 && refused > 200, "{passed} and {refused}");
}
