//! Whether a table associates: by every triple, or by tests with letters along the words that reach the elements.

use super::reached::Reached;
use super::{Refusal, Rule};

/// The first triple, by a, then b, then c, with (a·b)·c not a·(b·c). Not inlined, so that its machine code, most of a plain call's
/// time, does not depend on the code around it.
#[inline(never)]
pub fn triples(rule: &Rule) -> Result<(), Refusal> {
    let n = rule.n;
    for a in 0..n {
        let row_a = rule.row(a);
        for b in 0..n {
            let row_ab = rule.row(row_a[b] as usize);
            let row_b = rule.row(b);
            for c in 0..n {
                if row_ab[c] != row_a[row_b[c] as usize] {
                    return Err((5, 1, (a * 4_096 + b * 64 + c) as u64));
                }
            }
        }
    }
    Ok(())
}

/// Whether the tests look up fewer products than the triples: three for each element and entry behind the letters', four for each
/// element and two letters, against three for each triple.
pub fn worth_testing(rule: &Rule, reached: &Reached) -> bool {
    let (n, g) = (rule.n, reached.images);
    3 * (n - g) + 4 * (g * g) < 3 * (n * n)
}

/// Whether every element s that was found as p·h has (x·p)·h = x·s for every x, and every two letters' images g and h have
/// (g·x)·h = g·(x·h) for every x. Where all elements were found, the table then associates.
#[inline(never)]
pub fn tests(rule: &Rule, reached: &Reached) -> bool {
    let (images, others) = reached.order[..reached.count].split_at(reached.images);
    let rows = || rule.table.chunks_exact(rule.n);
    let along = |s: usize| {
        let p = reached.parent[s] as usize;
        let h = rule.image(reached.letter[s] as usize);
        rows().all(|row| rule.product(row[p] as usize, h) == row[s] as usize)
    };
    let between = |g: usize, h: usize| {
        let row_g = rule.row(g);
        let mut each = row_g.iter().zip(rows());
        each.all(|(gx, row_x)| rule.product(*gx as usize, h) == row_g[row_x[h] as usize] as usize)
    };
    others.iter().all(|s| along(*s as usize))
        && images
            .iter()
            .all(|g| images.iter().all(|h| between(*g as usize, *h as usize)))
}
