//! Places, counts and files that take more than one byte or two.

use duknavet::{board_file, classes, complement, member, owned, strong};
use duknavet::{Classes, Refusal, Refused, BOARD_FILES, CLASSES_OUT, RULE_OUT, SCRATCH};

/// The products a·b = a of so many elements, a letter for each up to 16, and as many marks, of grade 3.
fn left_zeros(n: u8, marks: u16) -> Vec<u8> {
    let mut rule = vec![n];
    rule.extend((0..n).flat_map(|a| vec![a; usize::from(n)]));
    rule.push(n.min(16));
    rule.extend(0..n.min(16));
    rule.extend(marks.to_le_bytes());
    let pairs = (0..n).flat_map(|s| (0..n).map(move |e| [s, e, 3]));
    rule.extend(pairs.take(usize::from(marks)).flatten());
    rule
}

/// 64 elements with a·b = a but for 40·5 = 7: then (40·0)·5 = 7 and 40·(0·5) = 40.
#[test]
fn a_place_above_65535() {
    let mut rule = left_zeros(64, 0);
    rule[1 + 40 * 64 + 5] = 7;
    let refused = Refused {
        refusal: Refusal::NotAssociative,
        input: 1,
        place: 163_845,
    };
    let mut scratch = vec![0; SCRATCH];
    assert_eq!(strong(&rule, &mut scratch), Err(refused));
    assert_eq!(member(&rule, &[0], &[0], &mut scratch), Err(refused));
    let words = "(40·0)·5 = 7 but 40·(0·5) = 40 (refusal 5, input 1, place 163845)";
    let explained = owned::classes(&rule).expect_err("a refusal");
    assert_eq!(
        (explained.refused, explained.to_string().as_str()),
        (refused, words)
    );
}

#[test]
fn counts_above_255() {
    let rule = left_zeros(16, 256);
    let mut scratch = vec![0; SCRATCH];
    let found = classes(&rule, &mut vec![0; CLASSES_OUT], &mut scratch);
    let expected = Classes {
        linked: 256,
        classes: 16,
        joins: 240,
    };
    assert_eq!(found, Ok(expected));
    let complement = complement(&rule, &mut vec![0; RULE_OUT], &mut scratch);
    assert_eq!(complement.map(|written| written.length), Ok(276));
}

/// The file of a name ends where its own counts say, which may be past 255 marks, and never within the next name's.
#[test]
fn the_file_of_a_name() {
    let mut files = vec![0xff; BOARD_FILES];
    let (long, short) = (left_zeros(16, 256), left_zeros(3, 2));
    assert_eq!(long.len(), 1 + 256 + 1 + 16 + 2 + 3 * 256);
    for (name, file) in [(2, &long), (3, &short)] {
        files[name * RULE_OUT..][..file.len()].copy_from_slice(file);
    }
    assert_eq!(board_file(&files, 2), long);
    assert_eq!(board_file(&files, 3), short);
    // Counts of 255 would go on past the next name's file.
    for name in [0, 1, 4, 7] {
        let all = &files[name * RULE_OUT..(name + 1) * RULE_OUT];
        assert_eq!(board_file(&files, name), all, "{name}");
    }
    // 64 elements, 16 letters and 4,096 marks fill their place to the last byte.
    let longest = left_zeros(64, 4096);
    assert_eq!(longest.len(), RULE_OUT);
    files[7 * RULE_OUT..].copy_from_slice(&longest);
    assert_eq!(board_file(&files, 7), longest);
    // Where there are fewer bytes, as many as there are, and of no name none.
    assert_eq!(board_file(&files[..3 * RULE_OUT + 9], 3), &short[..9]);
    assert_eq!(board_file(&files[..3 * RULE_OUT], 3), b"");
    for name in [8, usize::MAX] {
        assert_eq!(board_file(&files, name), b"");
    }
}
