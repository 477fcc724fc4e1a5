//! Runs of an automaton on a lasso, whatever the automaton is given by.

/// Whether some run on u, then v for ever, from an initial state meets a final state again and again. `next` lists where a letter leads.
///
/// A point is a place of the lasso (|u| + |v| of them) with a state there. A run goes from point to point, and there are
/// finitely many: it meets a final state again and again exactly if such a run goes through some final point that is on
/// a loop of points.
pub fn accepted(
    states: usize,
    initial: impl Fn(usize) -> bool,
    is_final: impl Fn(usize) -> bool,
    next: impl Fn(usize, u8) -> Vec<usize>,
    (u, v): (&[u8], &[u8]),
) -> bool {
    let length = u.len() + v.len();
    let step = |points: &mut Vec<usize>, seen: &mut Vec<bool>, point: usize| {
        let (place, q) = (point / states, point % states);
        let a = match place < u.len() {
            true => u[place],
            false => v[place - u.len()],
        };
        let after = match place + 1 == length {
            true => u.len(),
            false => place + 1,
        };
        for to in next(q, a) {
            let point = after * states + to;
            if !seen[point] {
                seen[point] = true;
                points.push(point);
            }
        }
    };
    let reached = |from: Vec<usize>| {
        let mut seen = vec![false; length * states];
        let mut points = from;
        while let Some(point) = points.pop() {
            step(&mut points, &mut seen, point);
        }
        seen
    };
    let begun: Vec<usize> = (0..states).filter(|q| initial(*q)).collect();
    let mut on_runs = reached(begun.clone());
    for q in begun {
        on_runs[q] = true;
    }
    (0..length * states)
        .any(|point| on_runs[point] && is_final(point % states) && reached(vec![point])[point])
}
