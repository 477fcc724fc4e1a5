//! The refusals in document 01's order, read from its table and the requests that changed it: for each call the first check that fails.

use super::rule::{Mark, Morphism, Rule};

/// A refusal: its number, its input, its place.
pub type Refusal = (u8, u8, u64);

/// A file as it is read: what is left, and where that begins.
struct Reader<'a> {
    bytes: &'a [u8],
    at: usize,
    input: u8,
}

impl<'a> Reader<'a> {
    fn refuse<T>(&self, number: u8, place: usize) -> Result<T, Refusal> {
        Err((number, self.input, place as u64))
    }

    fn take(&mut self, length: usize) -> Result<&'a [u8], Refusal> {
        match self.bytes.get(self.at..self.at + length) {
            Some(part) => {
                self.at += length;
                Ok(part)
            }
            None => self.refuse(1, self.bytes.len()),
        }
    }

    /// A count of `width` bytes, low byte first.
    fn count(&mut self, width: usize, least: usize, most: usize) -> Result<usize, Refusal> {
        let place = self.at;
        let bytes = self.take(width)?;
        let count = bytes.iter().rev().fold(0, |c, b| c * 256 + *b as usize);
        match (least..=most).contains(&count) {
            true => Ok(count),
            false => self.refuse(2, place),
        }
    }

    /// A section's entries; the least and the most that one may be repeat.
    fn entries(&mut self, count: usize, limits: &[(usize, usize)]) -> Result<&'a [u8], Refusal> {
        let place = self.at;
        let part = self.take(count * limits.len())?;
        let bad = |i: &usize| {
            let (least, most) = limits[*i % limits.len()];
            !(least..=most).contains(&(part[*i] as usize))
        };
        match (0..part.len()).find(bad) {
            Some(i) => self.refuse(3, place + i),
            None => Ok(part),
        }
    }

    fn end(&self) -> Result<(), Refusal> {
        match self.at < self.bytes.len() {
            true => self.refuse(4, self.at),
            false => Ok(()),
        }
    }
}

/// What the entries of a mark may be: s, e and the grade.
fn mark_limits(n: usize) -> [(usize, usize); 3] {
    [(0, n - 1), (0, n - 1), (1, 3)]
}

/// Checks 7 and 8 of a marks section whose triples begin at a byte. A pair that stands twice does so whatever its grades are.
fn marks(m: &Morphism, triples: &[u8], input: u8, begin: usize) -> Result<Vec<Mark>, Refusal> {
    let mut marks: Vec<Mark> = Vec::new();
    let mut seen = vec![false; m.n * m.n];
    for (i, triple) in triples.chunks(3).enumerate() {
        let place = (begin + 3 * i) as u64;
        let (pair, grade) = ((triple[0], triple[1]), triple[2]);
        if !m.linked(pair) {
            return Err((7, input, place));
        }
        let at = pair.0 as usize * m.n + pair.1 as usize;
        if seen[at] {
            return Err((8, input, place));
        }
        seen[at] = true;
        marks.push(Mark { pair, grade });
    }
    Ok(marks)
}

fn associative(m: &Morphism) -> Result<(), Refusal> {
    for a in m.elements() {
        for b in m.elements() {
            for c in m.elements() {
                let (left, right) = (m.product(m.product(a, b), c), m.product(a, m.product(b, c)));
                if left != right {
                    let place = a as u64 * 4_096 + b as u64 * 64 + c as u64;
                    return Err((5, 1, place));
                }
            }
        }
    }
    Ok(())
}

/// Every check of a rule file.
pub fn rule(bytes: &[u8]) -> Result<Rule, Refusal> {
    let mut reader = Reader {
        bytes,
        at: 0,
        input: 1,
    };
    let n = reader.count(1, 1, 64)?;
    let table = reader.entries(n * n, &[(0, n - 1)])?.to_vec();
    let k = reader.count(1, 1, 16)?;
    let images = reader.entries(k, &[(0, n - 1)])?.to_vec();
    let count = reader.count(2, 0, 4_096)?;
    let begin = reader.at;
    let triples = reader.entries(count, &mark_limits(n))?;
    reader.end()?;
    let morphism = Morphism { n, table, images };
    associative(&morphism)?;
    if let Some(s) = morphism.words().iter().position(Option::is_none) {
        return Err((6, 1, s as u64));
    }
    let marks = marks(&morphism, triples, 1, begin)?;
    Ok(Rule { morphism, marks })
}

/// The checks of a marks section as a second input.
pub fn second(m: &Morphism, bytes: &[u8]) -> Result<Vec<Mark>, Refusal> {
    let mut reader = Reader {
        bytes,
        at: 0,
        input: 2,
    };
    let count = reader.count(2, 0, 4_096)?;
    let begin = reader.at;
    let triples = reader.entries(count, &mark_limits(m.n))?;
    reader.end()?;
    marks(m, triples, 2, begin)
}

/// The checks of a lasso: both lengths, of which only that of u may be 0, then the letters of both.
pub fn lasso(m: &Morphism, u: &[u8], v: &[u8]) -> Result<(), Refusal> {
    let words = [(1, u), (2, v)];
    for ((input, word), least) in words.into_iter().zip([0, 1]) {
        if word.len() < least || word.len() > 4_224 {
            return Err((11, input, 0));
        }
    }
    for (input, word) in words {
        let foreign = word.iter().position(|a| *a as usize >= m.letters());
        if let Some(i) = foreign {
            return Err((10, input, i as u64));
        }
    }
    Ok(())
}

/// The check of a monitor's values.
pub fn monitor(m: &Morphism, before: usize, since: usize) -> Result<(), Refusal> {
    let fits = |value: usize| value < m.n || value == 64;
    match fits(before) && fits(since) {
        true => Ok(()),
        false => Err((3, 1, 0)),
    }
}

/// Check 15: a point's name is 0 to 7.
pub fn name(name: usize) -> Result<(), Refusal> {
    match name > 7 {
        true => Err((15, 1, 0)),
        false => Ok(()),
    }
}

/// Check 3 of a monitor's values and of those under every kept name, three bytes each: whether it was kept, before, since.
pub fn points(m: &Morphism, before: usize, since: usize, points: &[u8]) -> Result<(), Refusal> {
    monitor(m, before, since)?;
    let kept = points.chunks(3).filter(|bytes| bytes[0] != 0);
    kept.map(|bytes| monitor(m, bytes[1] as usize, bytes[2] as usize))
        .collect()
}

/// An automaton file, before its matrices are counted.
#[derive(Clone, Debug, PartialEq, Eq)]
pub struct Automaton {
    pub kinds: Vec<u8>,
    pub letters: usize,
    pub transitions: Vec<(u8, u8, u8)>,
}

/// Checks 1 to 4 and 8 of an automaton file.
pub fn automaton(bytes: &[u8]) -> Result<Automaton, Refusal> {
    let mut reader = Reader {
        bytes,
        at: 0,
        input: 1,
    };
    let states = reader.count(1, 1, 6)?;
    let kinds = reader.entries(states, &[(0, 3)])?.to_vec();
    let letters = reader.count(1, 1, 16)?;
    let count = reader.count(2, 0, 576)?;
    let begin = reader.at;
    let limits = [(0, states - 1), (0, letters - 1), (0, states - 1)];
    let triples = reader.entries(count, &limits)?;
    reader.end()?;
    let mut transitions: Vec<(u8, u8, u8)> = Vec::new();
    for (i, triple) in triples.chunks(3).enumerate() {
        let triple = (triple[0], triple[1], triple[2]);
        if transitions.contains(&triple) {
            return Err((8, 1, (begin + 3 * i) as u64));
        }
        transitions.push(triple);
    }
    Ok(Automaton {
        kinds,
        letters,
        transitions,
    })
}
