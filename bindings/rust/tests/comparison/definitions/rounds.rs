//! Reduction by rounds: which elements stand together after each round.

use super::rule::Morphism;

/// For each two elements s and t, at s·n + t, whether they stand together.
#[derive(Clone, PartialEq)]
pub struct Together(Vec<bool>);

impl Together {
    fn by(m: &Morphism, related: impl Fn(u8, u8) -> bool) -> Together {
        let pairs = m.elements().flat_map(|s| m.elements().map(move |t| (s, t)));
        Together(pairs.map(|(s, t)| related(s, t)).collect())
    }

    pub fn holds(&self, m: &Morphism, s: u8, t: u8) -> bool {
        self.0[s as usize * m.n + t as usize]
    }

    /// Round 0: s and t have equal grades as starts before every cycle, and as cycles after every start.
    fn first(m: &Morphism, outcomes: &[u8]) -> Together {
        let grade = |s: u8, z: u8| outcomes[s as usize * m.n + z as usize];
        Together::by(m, |s, t| {
            m.elements()
                .all(|z| grade(s, z) == grade(t, z) && grade(z, s) == grade(z, t))
        })
    }

    /// One round more: they stood together, and so did their products with each letter's element on either side.
    fn next(&self, m: &Morphism) -> Together {
        Together::by(m, |s, t| {
            let mut images = m.images.iter().copied();
            self.holds(m, s, t)
                && images.all(|a| {
                    self.holds(m, m.product(s, a), m.product(t, a))
                        && self.holds(m, m.product(a, s), m.product(a, t))
                })
        })
    }

    /// The least element that stands together with each.
    pub fn least(&self, m: &Morphism) -> Vec<u8> {
        let least = |s: u8| m.elements().find(|t| self.holds(m, *t, s));
        m.elements().map(|s| least(s).expect("itself")).collect()
    }
}

/// The relation after as many rounds as the limit, or after the first that one more would not change; how many those are, and whether
/// one more would change nothing.
pub fn within(m: &Morphism, outcomes: &[u8], limit: usize) -> (Together, usize, bool) {
    let mut together = Together::first(m, outcomes);
    let mut rounds = 0;
    loop {
        let next = together.next(m);
        if next == together {
            return (together, rounds, true);
        }
        if rounds == limit {
            return (together, rounds, false);
        }
        together = next;
        rounds += 1;
    }
}
