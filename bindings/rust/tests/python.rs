//! The Python module over the archive as a shared object.

mod archive;

use archive::{archive, needed};
use duknavet::words::Explained;
use duknavet::{owned, Operation, Refusal, Refused};
use std::path::{Path, PathBuf};
use std::process::Command;

fn package() -> PathBuf {
    Path::new(env!("CARGO_MANIFEST_DIR")).join("../python")
}

/// A shared object of the archive, which is gone when the test ends.
struct Object(PathBuf);

impl Object {
    fn made(name: &str) -> Object {
        needed("python3");
        needed("cc");
        let name = format!("lib{name}-{}.so", std::process::id());
        let object = Path::new(env!("CARGO_TARGET_TMPDIR")).join(name);
        let built = Command::new("sh")
            .arg(package().join("build"))
            .arg(archive())
            .arg(&object)
            .output()
            .expect("a shell");
        assert!(built.status.success(), "{built:?}");
        Object(object)
    }
}

impl Drop for Object {
    fn drop(&mut self) {
        let _ = std::fs::remove_file(&self.0);
    }
}

#[test]
fn module() {
    let object = Object::made("duknavet");
    let tested = Command::new("python3")
        .args(["-B", "-m", "unittest", "-q", "test_duknavet"])
        .current_dir(package())
        .env("DUKNAVET_LIBRARY", &object.0)
        .output()
        .expect("Python runs");
    let said = String::from_utf8_lossy(&tested.stderr);
    assert!(tested.status.success(), "{said}");
    assert!(said.contains("Ran 42 tests"), "{said}");
}

/// Calls by their names, with bytes in base 16 between commas, and what is to be said, behind a tab.
const READER: &str = r#"
import sys, duknavet
told = 0
for line in sys.stdin.read().splitlines():
    asked, expected = line.split("\t")
    name, *inputs = asked.split(",")
    if name == "refused":
        found = str(duknavet.Refused(int(inputs[0]), 1, 70))
    else:
        try:
            getattr(duknavet, name)(*map(bytes.fromhex, inputs))
            found = "no refusal"
        except duknavet.Refused as refused:
            found = str(refused).replace(duknavet.words.LONGER, "")
    assert found == expected, f"{asked}: {found}, not {expected}"
    told += 1
print(told)
"#;

/// Numbers from a fixed seed.
struct Random(u64);

impl Random {
    fn below(&mut self, bound: usize) -> usize {
        self.0 ^= self.0 << 13;
        self.0 ^= self.0 >> 7;
        self.0 ^= self.0 << 17;
        (self.0 >> 11) as usize % bound
    }

    /// Bytes with one that is changed, cut off, or added.
    fn damaged(&mut self, bytes: &[u8]) -> Vec<u8> {
        let mut bytes = bytes.to_vec();
        let at = self.below(bytes.len());
        match self.below(4) {
            0 => bytes.truncate(at),
            1 => bytes.extend([0; 3].iter().take(1 + self.below(3))),
            2 => bytes[at] = self.below(256) as u8,
            _ => bytes[at] = self.below(3) as u8,
        }
        bytes
    }

    fn word(&mut self) -> Vec<u8> {
        match self.below(30) {
            0 => vec![0; 4225],
            _ => (0..self.below(4)).map(|_| self.below(3) as u8).collect(),
        }
    }
}

/// Sums modulo m and modulo n, of one letter, with one mark.
fn remainders(m: u8, n: u8) -> [Vec<u8>; 2] {
    [m, n].map(|n| {
        let products = (0..n).flat_map(|a| (0..n).map(move |b| (a + b) % n));
        let marks = [1, 1, 1, 0, 0, 0, 3];
        [n].into_iter().chain(products).chain(marks).collect()
    })
}

/// Sums modulo n of two or three letters, with some of the pairs (s, 0) marked: mostly weak, since they are all conjugate.
fn weak_rule(random: &mut Random, number: usize) -> Vec<u8> {
    let n = 2 + (number % 5) as u8;
    let products = (0..n).flat_map(|a| (0..n).map(move |b| (a + b) % n));
    let letters = 2 + random.below(2);
    let images = (0..letters).map(|at| match at {
        0 => 1,
        _ => random.below(usize::from(n)) as u8,
    });
    let images: Vec<u8> = images.collect();
    let marked: Vec<u8> = (0..n).filter(|_| random.below(2) == 0).collect();
    let marks = marked.iter().flat_map(|s| [*s, 0, 1 + s % 3]);
    let counts = [letters as u8];
    let count = [marked.len() as u8, 0];
    let table = [n].into_iter().chain(products).chain(counts);
    table.chain(images).chain(count).chain(marks).collect()
}

/// Python says of a refusal what this package says of it.
#[test]
fn words_are_those_of_this_package() {
    let mut lines = String::new();
    let mut kinds = std::collections::BTreeSet::new();
    let mut add = |call: &str, inputs: &[&[u8]], refused: Option<Explained>| {
        let Some(explained) = refused else { return };
        let hexed = |bytes: &&[u8]| bytes.iter().map(|byte| format!("{byte:02x}")).collect();
        let inputs: Vec<String> = inputs.iter().map(hexed).collect();
        lines += &format!("{call},{}\t{explained}\n", inputs.join(","));
        kinds.insert((call.to_string(), explained.refused.refusal.number()));
    };
    let rules: [&[u8]; 4] = [
        &[2, 0, 0, 0, 1, 2, 0, 1, 1, 0, 0, 0, 3],
        &[2, 0, 0, 0, 1, 2, 0, 1, 3, 0, 0, 0, 3, 0, 1, 2, 1, 1, 1],
        &[2, 0, 1, 1, 0, 2, 1, 0, 1, 0, 0, 0, 3],
        &[
            3, 0, 2, 2, 0, 1, 2, 0, 2, 2, 2, 0, 1, 2, 0, 0, 0, 3, 2, 2, 3,
        ],
    ];
    let sums = remainders(8, 9);
    let automaton = [2, 1, 2, 2, 4, 0, 0, 0, 1, 0, 1, 0, 1, 0, 1, 1, 1, 0];
    let mut random = Random(0x5eed_0046);
    for _ in 0..1500 {
        let whole = rules[random.below(4)];
        let damaged = random.damaged(whole);
        add("strong", &[&damaged], owned::strong(&damaged).err());
        let (u, v) = (random.word(), random.word());
        add(
            "member",
            &[whole, &u, &v],
            owned::member(whole, &u, &v).err(),
        );
        add(
            "member",
            &[&damaged, &u, &v],
            owned::member(&damaged, &u, &v).err(),
        );
        let marks = random.damaged(&[2, 0, 0, 0, 3, 0, 1, 2]);
        add(
            "included",
            &[whole, &marks],
            owned::included(whole, &marks).err(),
        );
        let other = random.damaged(&automaton);
        add(
            "automaton_rule",
            &[&other],
            owned::automaton_rule(&other).err(),
        );
        let first = random.damaged(whole);
        let both = owned::combine(&first, &damaged, Operation::Both);
        add("both", &[&first, &damaged], both.err());
        let both = owned::combine(rules[0], &damaged, Operation::Both);
        add("both", &[rules[0], &damaged], both.err());
    }
    for number in 0..200 {
        let weak = weak_rule(&mut random, number);
        add("complement", &[&weak], owned::complement(&weak).err());
    }
    let (eight, nine) = (&sums[0], &sums[1]);
    let both = owned::combine(eight, nine, Operation::Both);
    add("both", &[eight, nine], both.err());
    assert!(kinds.contains(&("complement".to_string(), 12)), "{kinds:?}");
    assert!(kinds.len() > 30, "{kinds:?}");
    for number in 1..=255 {
        if let Some(refusal) = Refusal::from_number(number) {
            let refused = Refused {
                refusal,
                input: 1,
                place: 70,
            };
            lines += &format!("refused,{number}\t{refused}\n");
        }
    }
    let object = Object::made("duknavet-words");
    let cases = object.0.with_extension("cases");
    std::fs::write(&cases, &lines).expect("the cases are written");
    let tested = Command::new("python3")
        .args(["-B", "-c", READER])
        .current_dir(package())
        .env("DUKNAVET_LIBRARY", &object.0)
        .stdin(std::fs::File::open(&cases).expect("the cases"))
        .output()
        .expect("Python runs");
    let _ = std::fs::remove_file(&cases);
    let said = String::from_utf8_lossy(&tested.stderr);
    assert!(tested.status.success(), "{said}");
    let told = String::from_utf8_lossy(&tested.stdout);
    assert_eq!(told.trim(), lines.lines().count().to_string());
}
