//! The program `duknavet`, run on files: its line for rules of every kind, for long ones, and for each refusal.

#[allow(dead_code)]
#[path = "comparison/definitions/mod.rs"]
mod definitions;
#[allow(dead_code)]
#[path = "comparison/inputs/mod.rs"]
mod inputs;
#[allow(dead_code)]
#[path = "comparison/random.rs"]
mod random;

mod archive;

use duknavet::{owned, Strength, RULE_OUT};
use inputs::{marks, morphisms};
use random::Random;
use std::fs;
use std::io::Write;
use std::path::Path;
use std::process::{Command, Stdio};

/// What the program prints of bytes, which it gets in pieces of some length.
fn printed_in_pieces(bytes: &[u8], length: usize) -> String {
    let mut child = Command::new(archive::program())
        .stdin(Stdio::piped())
        .stdout(Stdio::piped())
        .stderr(Stdio::piped())
        .spawn()
        .expect("the program runs");
    let mut input = child.stdin.take().expect("a pipe");
    let bytes = bytes.to_vec();
    // The program may end without reading all of it.
    let writer = std::thread::spawn(move || {
        for piece in bytes.chunks(length) {
            if input.write_all(piece).and_then(|()| input.flush()).is_err() {
                break;
            }
        }
    });
    let output = child.wait_with_output().expect("the program ends");
    writer.join().expect("the input was written");
    assert!(
        output.status.success() && output.stderr.is_empty(),
        "{output:?}"
    );
    String::from_utf8(output.stdout).expect("a line is text")
}

fn printed(bytes: &[u8]) -> String {
    printed_in_pieces(bytes, usize::MAX)
}

/// A file of products, letters' elements and marks.
fn file(products: &[Vec<u8>], images: &[u8], marks: &[[u8; 3]]) -> Vec<u8> {
    let mut file = vec![products.len() as u8];
    file.extend(products.concat());
    file.push(images.len() as u8);
    file.extend(images);
    file.extend((marks.len() as u16).to_le_bytes());
    file.extend(marks.concat());
    file
}

#[test]
fn samples() {
    let samples = Path::new(env!("CARGO_MANIFEST_DIR")).join("../../samples");
    let mut found = Vec::new();
    for entry in fs::read_dir(samples).expect("the samples") {
        let path = entry.expect("a sample").path();
        let name = path
            .file_name()
            .expect("a name")
            .to_string_lossy()
            .into_owned();
        found.push((name, printed(&fs::read(path).expect("a sample"))));
    }
    found.sort();
    let expected = [
        (
            "letter-0-without-end.rule",
            "elements 2 letters 2 marks 1 linked 3 classes 3 strong 1 reduced 2\n",
        ),
        ("not-associative.rule", "refused 5 at 1\n"),
        (
            "three-grades.rule",
            "elements 2 letters 2 marks 3 linked 3 classes 3 strong 1 reduced 2\n",
        ),
    ];
    assert_eq!(
        found,
        expected.map(|(name, line)| (name.to_string(), line.to_string()))
    );
}

/// Sums modulo 4, and whether letter 0 came: an element is twice the sum, and one more if it did not. Grade 3 where it
/// comes without end.
#[test]
fn seven_different_numbers() {
    let product = |a: u8, b: u8| 2 * ((a / 2 + b / 2) % 4) + (a & b & 1);
    let products: Vec<Vec<u8>> = (0..8)
        .map(|a| (0..8).map(|b| product(a, b)).collect())
        .collect();
    let marks = [[0, 0, 3], [2, 0, 3], [4, 0, 3], [6, 0, 3]];
    let rule = file(&products, &[2, 3, 1, 5, 7], &marks);
    let line = "elements 8 letters 5 marks 4 linked 12 classes 3 strong 1 reduced 2\n";
    assert_eq!(printed(&rule), line);
    // With one mark of these four the sums that a cycle passes decide, and not its value: the rule is weak.
    let weak = file(&products, &[2, 3, 1, 5, 7], &marks[..1]);
    let line = "elements 8 letters 5 marks 1 linked 12 classes 3 strong 0 reduced 0\n";
    assert_eq!(printed(&weak), line);
}

#[test]
fn weak_rules() {
    let sums = [2, 0, 1, 1, 0, 2, 1, 0, 1, 0, 0, 0, 3];
    let line = "elements 2 letters 2 marks 1 linked 2 classes 1 strong 0 reduced 0\n";
    assert_eq!(printed(&sums), line);
}

/// The longest file known that passes the checks. With 64 elements all 4,096 pairs are linked only if s·t = s for all s and
/// t, and then no word has a value that is not a letter's. Here that is so of all s but 4, letters whose products among
/// themselves leave the first as it is; the other 12 letters, and what each of the 4 makes of them, are the elements that no
/// product changes: 60 times 64 and 4 times 4 linked pairs.
fn longest() -> Vec<u8> {
    // (i, b) is element 4 + 5 b + i for the letter b itself, i = 0, or after the letter i - 1.
    let product = |a: u8, b: u8| match (a < 4, b < 4) {
        (true, false) => 4 + (b - 4) / 5 * 5 + a + 1,
        _ => a,
    };
    let products: Vec<Vec<u8>> = (0..64)
        .map(|a| (0..64).map(|b| product(a, b)).collect())
        .collect();
    let images: Vec<u8> = (0..4).chain((0..12).map(|b| 4 + 5 * b)).collect();
    // The grade is that of the first letter: 1, 2, 3, 1 for the four, and 1 for the others.
    let grade = |s: u8| match s {
        0..=3 => 1 + s % 3,
        _ => 1 + ((s - 4) % 5).saturating_sub(1) % 3,
    };
    let pairs = (0..64).flat_map(|s| (0..64).map(move |e| [s, e, grade(s)]));
    let linked = pairs.filter(|[s, e, _]| product(*s, *e) == *s);
    file(&products, &images, &linked.collect::<Vec<_>>())
}

#[test]
fn long_files() {
    let longest = longest();
    assert_eq!(longest.len(), 15_684);
    let line = "elements 64 letters 16 marks 3856 linked 3856 classes 124 strong 1 reduced 3\n";
    assert_eq!(printed(&longest), line);
    // Its last byte is read: another grade of the last pair makes it weak.
    let mut weak = longest.clone();
    let last = weak.last_mut().expect("a grade");
    *last = 1 + *last % 3;
    let line = line.replace("strong 1 reduced 3", "strong 0 reduced 0");
    assert_eq!(printed(&weak), line);
    let longer = [longest.as_slice(), &[0]].concat();
    assert_eq!(printed(&longer), "refused 4 at 15684\n");
    assert_eq!(printed(&longest[..15_683]), "refused 1 at 15683\n");
    // As long as counts in their ranges can make a file; of 64 such elements only 16 are values of words.
    let products: Vec<Vec<u8>> = (0..64).map(|a| vec![a; 64]).collect();
    let images: Vec<u8> = (0..16).collect();
    let pairs = (0..64).flat_map(|s| (0..64).map(move |e| [s, e, 3]));
    let full = file(&products, &images, &pairs.collect::<Vec<_>>());
    assert_eq!(full.len(), RULE_OUT);
    assert_eq!(printed(&full), "refused 6 at 16\n");
    let mut graded_0 = full.clone();
    graded_0[RULE_OUT - 1] = 0;
    assert_eq!(printed(&graded_0), "refused 3 at 16403\n");
    assert_eq!(printed(&full[..RULE_OUT - 1]), "refused 1 at 16403\n");
    for more in [1, 2, 4 << 20] {
        let longer = [full.as_slice(), &vec![7; more]].concat();
        assert_eq!(printed(&longer), "refused 4 at 16404\n");
    }
    // A place above 65,535: (40·0)·5 = 7, but 40·(0·5) = 40.
    let mut broken = full;
    broken[1 + 40 * 64 + 5] = 7;
    assert_eq!(printed(&broken), "refused 5 at 163845\n");
}

/// The input comes as it comes.
#[test]
fn pieces() {
    let longest = longest();
    for length in [1, 7, 4096] {
        assert_eq!(
            printed_in_pieces(&longest, length),
            printed(&longest),
            "{length}"
        );
    }
}

#[test]
fn refusals() {
    let rule = [2, 0, 0, 0, 1, 2, 0, 1, 1, 0, 0, 0, 3];
    let with = |at: usize, byte: u8| {
        let mut changed = rule;
        changed[at] = byte;
        changed.to_vec()
    };
    for (bytes, line) in [
        (Vec::new(), "refused 1 at 0\n"),
        (rule[..12].to_vec(), "refused 1 at 12\n"),
        (with(0, 65), "refused 2 at 0\n"),
        (with(5, 0), "refused 2 at 5\n"),
        (with(2, 2), "refused 3 at 2\n"),
        ([rule.as_slice(), &[3]].concat(), "refused 4 at 13\n"),
        (vec![2, 1, 0, 0, 0, 2, 0, 1, 0, 0], "refused 5 at 1\n"),
        (vec![2, 0, 0, 0, 1, 1, 0, 0, 0], "refused 6 at 1\n"),
        (with(10, 1), "refused 7 at 10\n"),
        (
            vec![2, 0, 0, 0, 1, 2, 0, 1, 2, 0, 0, 0, 3, 0, 0, 3],
            "refused 8 at 13\n",
        ),
    ] {
        assert_eq!(printed(&bytes), line, "{bytes:?}");
    }
}

/// The same line as the library's calls give, for rules and damaged files from a fixed seed.
#[test]
fn as_the_library() {
    let mut random = Random::new(2301);
    let (mut strong, mut weak, mut refused) = (0, 0, 0);
    for _ in 0..300 {
        let morphism = morphisms::any(&mut random, 24);
        let marks = marks::mixed(&mut random, &morphism);
        let mut bytes = morphism.with(marks).bytes();
        if random.once_in(3) {
            let at = random.below(bytes.len());
            bytes[at] = random.below(24) as u8;
        }
        let line = match owned::summary(&bytes) {
            Ok(summary) => {
                let is_strong = summary.strength == Strength::Strong;
                strong += usize::from(is_strong);
                weak += usize::from(!is_strong);
                format!(
                    "elements {} letters {} marks {} linked {} classes {} strong {} reduced {}\n",
                    summary.elements,
                    summary.letters,
                    summary.marks,
                    summary.classes.linked,
                    summary.classes.classes,
                    u8::from(is_strong),
                    summary.reduced
                )
            }
            Err(explained) => {
                refused += 1;
                let own = explained.refused;
                format!("refused {} at {}\n", own.refusal.number(), own.place)
            }
        };
        assert_eq!(printed(&bytes), line, "{bytes:?}");
    }
    assert!(
        strong > 100 && weak > 10 && refused > 40,
        "{strong} {weak} {refused}"
    );
}
