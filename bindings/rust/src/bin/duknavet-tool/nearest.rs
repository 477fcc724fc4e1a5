//! The word of a list that a mistyped one is nearest to.

/// The nearest word, if at most half of the longer one's characters would have to change; of several, the first.
pub fn nearest<'a>(word: &str, words: impl Iterator<Item = &'a str>) -> Option<&'a str> {
    let typed: Vec<char> = word.chars().collect();
    let near = words.filter_map(|own| {
        let known: Vec<char> = own.chars().collect();
        // Words that differ so much in length need no look, so that a long one costs nothing.
        let apart = typed.len().abs_diff(known.len());
        let most = typed.len().max(known.len()) / 2;
        let changes = (apart <= most).then(|| changes(&typed, &known))?;
        (changes <= most).then_some((changes, own))
    });
    near.min_by_key(|(changes, _)| *changes).map(|(_, own)| own)
}

/// How many characters must be added, left out, replaced, or exchanged with their neighbour to come from word to word.
fn changes(from: &[char], to: &[char]) -> usize {
    let mut before: Vec<usize> = Vec::new();
    let mut row: Vec<usize> = (0..=to.len()).collect();
    for i in 1..=from.len() {
        let mut next = vec![i];
        for j in 1..=to.len() {
            let replaced = row[j - 1] + usize::from(from[i - 1] != to[j - 1]);
            let mut least = replaced.min(row[j] + 1).min(next[j - 1] + 1);
            let exchanged = i > 1 && j > 1 && from[i - 1] == to[j - 2] && from[i - 2] == to[j - 1];
            if exchanged {
                least = least.min(before[j - 2] + 1);
            }
            next.push(least);
        }
        before = std::mem::replace(&mut row, next);
    }
    row[to.len()]
}
