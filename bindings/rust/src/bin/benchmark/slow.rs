//! A search for slow inputs: rules are altered a little, again and again, and what makes a call slower is kept. Bounded, and nothing fails by it.
//!
//! A rule is drawn as maps of a few points, one for each letter: its elements are the maps of words. Its marks are drawn by a number, so that they go with
//! the elements however these are numbered.

use crate::calls::{Buffers, Call, ENGINES};
use crate::inputs::{self, Numbers};
use std::hint::black_box;
use std::time::{Duration, Instant};

const MOST_ELEMENTS: usize = 64;
const MOST_LETTERS: usize = 16;
const MOST_POINTS: usize = 8;

/// After so many alterations in a row that made nothing slower, a new rule is drawn.
const PATIENCE: usize = 60;

type Map = Vec<u8>;

/// A rule that is altered.
#[derive(Clone)]
struct Draft {
    /// Where each letter takes each point.
    letters: Vec<Map>,
    /// Which linked pairs are marked, and how many of a hundred.
    seed: u64,
    marked: u64,
    grades: u64,
}

impl Draft {
    fn new(numbers: &mut Numbers) -> Draft {
        let points = 2 + numbers.below(MOST_POINTS as u64 - 1) as usize;
        let letters = 1 + numbers.below(MOST_LETTERS as u64) as usize;
        let mut map = || -> Map {
            (0..points)
                .map(|_| numbers.below(points as u64) as u8)
                .collect()
        };
        Draft {
            letters: (0..letters).map(|_| map()).collect(),
            seed: numbers.below(1 << 20),
            marked: 1 + numbers.below(99),
            grades: 1 + numbers.below(3),
        }
    }

    fn altered(&self, numbers: &mut Numbers) -> Draft {
        let mut next = self.clone();
        let points = next.letters[0].len() as u64;
        let letter = numbers.below(next.letters.len() as u64) as usize;
        match numbers.below(8) {
            0 => next.seed = numbers.below(1 << 20),
            1 => next.marked = 1 + numbers.below(99),
            2 => next.grades = 1 + numbers.below(3),
            3 if next.letters.len() < MOST_LETTERS => {
                next.letters.push(next.letters[letter].clone())
            }
            4 if next.letters.len() > 1 => {
                next.letters.remove(letter);
            }
            _ => {
                let point = numbers.below(points) as usize;
                next.letters[letter][point] = numbers.below(points) as u8;
            }
        }
        next
    }

    /// The rule's file; none where it has more than 64 elements.
    fn file(&self) -> Option<Vec<u8>> {
        let mut elements: Vec<Map> = Vec::new();
        let number = |elements: &mut Vec<Map>, map: Map| -> Option<u8> {
            let known = elements.iter().position(|other| *other == map);
            if known.is_none() {
                elements.push(map);
            }
            let number = known.unwrap_or(elements.len() - 1);
            (number < MOST_ELEMENTS).then_some(number as u8)
        };
        let after = |first: &Map, second: &Map| -> Map {
            first.iter().map(|point| second[*point as usize]).collect()
        };
        let mut images = Vec::new();
        for letter in &self.letters {
            images.push(number(&mut elements, letter.clone())?);
        }
        let mut next = 0;
        while next < elements.len() {
            for letter in &self.letters {
                let map = after(&elements[next], letter);
                number(&mut elements, map)?;
            }
            next += 1;
        }
        let n = elements.len();
        let mut bytes = vec![n as u8];
        for first in &elements {
            for second in &elements {
                let map = after(first, second);
                let product = elements.iter().position(|other| *other == map)?;
                bytes.push(product as u8);
            }
        }
        let product = |a: usize, b: usize| bytes[1 + a * n + b] as usize;
        let mut marks: Vec<u8> = Vec::new();
        for (s, e) in (0..n * n).map(|at| (at / n, at % n)) {
            let linked = product(e, e) == e && product(s, e) == s;
            let drawn = self.drawn(&elements[s], &elements[e]);
            if linked && drawn % 100 < self.marked {
                marks.extend([s as u8, e as u8, 1 + (drawn / 100 % self.grades) as u8]);
            }
        }
        bytes.push(images.len() as u8);
        bytes.extend(images);
        bytes.extend((marks.len() as u16 / 3).to_le_bytes());
        bytes.extend(marks);
        Some(bytes)
    }

    /// A number of the pair and the seed.
    fn drawn(&self, s: &Map, e: &Map) -> u64 {
        let both = s.iter().chain(e);
        let hash = both.fold(self.seed ^ 0xcbf2_9ce4_8422_2325, |hash, byte| {
            (hash ^ u64::from(*byte)).wrapping_mul(0x0000_0100_0000_01b3)
        });
        hash >> 20
    }
}

/// The calls that are asked, each on a rule.
const CALLS: [(&str, fn(Vec<u8>) -> Call); 9] = [
    ("event", Call::Event),
    ("verdict", Call::Verdict),
    ("classes", Call::Classes),
    ("strong", Call::Strong),
    ("complement", Call::Complement),
    ("reduce", Call::Reduce),
    ("next", Call::Next),
    ("member of 4224", |rule| {
        let letters = usize::from(rule[1 + usize::from(rule[0]).pow(2)]);
        Call::Member(rule, inputs::lasso(4_224, letters))
    }),
    ("event on a board of eight", Call::full_board),
];

/// The least of a few times of a call, in microseconds.
fn time(call: &Call, buffers: &mut Buffers) -> f64 {
    let times = (0..4).map(|_| {
        let begin = Instant::now();
        let _ = black_box(call.run(ENGINES[0].1, buffers));
        begin.elapsed()
    });
    let least = times.min().unwrap_or(Duration::ZERO);
    least.as_secs_f64() * 1e6
}

/// Prints the slowest rule found for each call within so many seconds each.
pub fn search(seconds: u64, seed: u64) {
    println!("| Call | µs | elements | letters | different | marks | tried |");
    println!("|---|---|---|---|---|---|---|");
    for (name, call) in CALLS {
        let mut numbers = Numbers::new(seed);
        let mut buffers = Buffers::new();
        let (mut worst, mut worst_file, mut tried) = (0.0, Vec::new(), 0_u64);
        let end = Instant::now() + Duration::from_secs(seconds);
        while Instant::now() < end {
            let mut draft = Draft::new(&mut numbers);
            let (mut own, mut idle) = (0.0, 0);
            while idle < PATIENCE && Instant::now() < end {
                let next = draft.altered(&mut numbers);
                idle += 1;
                let Some(file) = next.file() else { continue };
                tried += 1;
                let took = time(&call(file.clone()), &mut buffers);
                if took > own {
                    (draft, own, idle) = (next, took, 0);
                }
                if took > worst {
                    (worst, worst_file) = (took, file);
                }
            }
        }
        let n = usize::from(worst_file[0]);
        let letters = usize::from(worst_file[1 + n * n]);
        let mut images = worst_file[2 + n * n..][..letters].to_vec();
        images.sort_unstable();
        images.dedup();
        let marks = (worst_file.len() - 4 - n * n - letters) / 3;
        println!(
            "| {name} | {worst:.1} | {n} | {letters} | {} | {marks} | {tried} |",
            images.len()
        );
    }
}
