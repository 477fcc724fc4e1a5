//! Leaving letters out of a lasso while it still shows what it is to show.

use crate::files::Lasso;
use crate::words::Explained;

/// The lasso with letters left out, first many together, then single ones for as long as that can be: of what is left none can be
/// left out alone.
pub fn shortened(
    mut lasso: Lasso,
    mut shows: impl FnMut(&Lasso) -> Result<bool, Explained>,
) -> Result<Lasso, Explained> {
    let mut together = lasso.letters().div_ceil(2);
    while together > 0 {
        let mut place = 0;
        let mut changed = false;
        while place < lasso.letters() {
            let shorter = lasso.without(place..place + together);
            if !shorter.v.is_empty() && shows(&shorter)? {
                lasso = shorter;
                changed = true;
            } else {
                place += together;
            }
        }
        // A letter left out late may let an earlier one be left out too.
        if together > 1 || !changed {
            together /= 2;
        }
    }
    Ok(lasso)
}

#[cfg(test)]
mod tests {
    use super::shortened;
    use crate::files::Lasso;

    /// What a cycle is left as where only some cycles show what is to be shown.
    fn left_of(cycle: &[u8], showing: &[&[u8]]) -> Vec<u8> {
        let lasso = Lasso {
            u: Vec::new(),
            v: cycle.to_vec(),
        };
        let shows = |lasso: &Lasso| Ok(lasso.u.is_empty() && showing.contains(&lasso.v.as_slice()));
        shortened(lasso, shows).expect("nothing is refused").v
    }

    #[test]
    fn a_letter_may_go_only_behind_a_later_one() {
        let showing: [&[u8]; 3] = [&[0, 1, 2, 3], &[0, 1, 2], &[1, 2]];
        assert_eq!(left_of(&[0, 1, 2, 3], &showing), [1, 2]);
    }

    #[test]
    fn many_go_together_and_the_last_stays() {
        assert_eq!(left_of(&[0, 1, 2, 3], &[&[0, 1, 2, 3], &[2, 3]]), [2, 3]);
        assert_eq!(left_of(&[7], &[&[7], &[]]), [7]);
    }
}
