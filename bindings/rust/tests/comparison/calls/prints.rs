//! Prints, by which the printers file rules: the bytes of reductions, equal exactly if the rules give every lasso the same grade.

use super::{Comparison, REDUCE_SIZES};
use crate::definitions::equivalence::Difference;

impl Comparison {
    /// The print of a strong rule.
    pub fn print(&mut self, rule: &[u8]) -> Vec<u8> {
        let sizes = self.enough(REDUCE_SIZES);
        let [mut out, mut map, mut scratch] = self.lend(sizes);
        let answer = duknavet::reduce(rule, out.slice(), map.slice(), scratch.slice());
        let reduced = answer.unwrap_or_else(|refused| panic!("print of {rule:?}: {refused}"));
        map.written(rule[0] as usize);
        scratch.zeroed();
        out.written(reduced.length).to_vec()
    }

    /// Holds the prints of two strong rules over as many letters to the lassos that the two grade differently. Whether there are none.
    pub fn prints(&mut self, kind: &str, rules: [&[u8]; 2], differences: &[Difference]) -> bool {
        let [first, second] = rules.map(|rule| self.print(rule));
        match differences.first() {
            None => assert_eq!(first, second, "{kind}: prints of {rules:?}"),
            Some(Difference { u, v, grades }) => assert_ne!(
                first, second,
                "{kind}: {u:?} {v:?} has grades {grades:?} by {rules:?}"
            ),
        }
        let equal = differences.is_empty();
        let outcome = if equal { "equal" } else { "different" };
        let outcome = format!("{outcome}: {kind}");
        if rules[0][0] == 64 {
            self.tally.count("print of 64", outcome.clone());
        }
        self.tally.count("print", outcome);
        if equal && first[0] > 1 {
            self.tally.count("print", "equal, of 2 elements or more");
        }
        let both = |difference: &Difference| difference.grades.0 > 0 && difference.grades.1 > 0;
        if !equal && differences.iter().all(both) {
            self.tally.count("print", "different above grade 1 only");
        }
        equal
    }
}
