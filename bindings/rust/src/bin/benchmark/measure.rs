//! Times of several engines, taken in turn so that a change of the machine's speed meets all.

use std::time::Instant;

/// Many short repeats: on a busy machine some of them are not disturbed.
const REPEATS: usize = 61;
const SECONDS: f64 = 0.002;

/// The times of one engine.
pub struct Times {
    /// Microseconds a call, the least of the repeats: other work on the machine only ever adds.
    pub least: f64,
    /// By how much the median of the repeats lies above the least, as a part of it.
    pub spread: f64,
}

fn time(call: &mut dyn FnMut(), rounds: usize) -> f64 {
    let start = Instant::now();
    for _ in 0..rounds {
        call();
    }
    start.elapsed().as_secs_f64() * 1e6 / rounds as f64
}

/// How many calls take about `SECONDS`.
fn rounds(call: &mut dyn FnMut()) -> usize {
    let one = time(call, 2).min(time(call, 2));
    ((SECONDS * 1e6 / one) as usize).clamp(1, 100_000)
}

pub fn measure<const ENGINES: usize>(mut call: impl FnMut(usize)) -> [Times; ENGINES] {
    let counts: [usize; ENGINES] = std::array::from_fn(|engine| rounds(&mut || call(engine)));
    let mut times: [Vec<f64>; ENGINES] = std::array::from_fn(|_| Vec::new());
    for _ in 0..REPEATS {
        for engine in 0..ENGINES {
            times[engine].push(time(&mut || call(engine), counts[engine]));
        }
    }
    times.map(|mut times| {
        times.sort_by(f64::total_cmp);
        Times {
            least: times[0],
            spread: times[REPEATS / 2] / times[0] - 1.0,
        }
    })
}
