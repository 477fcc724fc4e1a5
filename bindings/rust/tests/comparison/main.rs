//! Every exported call against an engine that is written apart, from the definitions of documents 01 and 02. Inputs come from
//! fixed seeds. A difference, a byte of a buffer that is not as it must be, or an outcome that occurs too seldom is a failure.

mod calls;
mod definitions;
mod inputs;
mod lending;
mod parts;
mod random;
mod subject;
mod tally;

use calls::Comparison;
use std::thread;
use std::time::Instant;
use tally::Tally;

/// What one thread compares.
fn share(half: usize) -> Tally {
    let mut c = Comparison::new(2015 + half as u64);
    let mut timed = |name: &str, part: &mut dyn FnMut(&mut Comparison)| {
        let start = Instant::now();
        part(&mut c);
        println!(
            "half {half}: {name} in {:.1} s",
            start.elapsed().as_secs_f64()
        );
    };
    timed("damaged files", &mut |c| parts::damage::run(c, half));
    timed("small rules", &mut |c| parts::rules::run(c, 1_000));
    timed("automata", &mut |c| parts::automata::run(c, 2_000));
    timed("two states", &mut |c| parts::automata::two_states(c, half));
    timed("words and monitors", &mut |c| parts::words::run(c, 60));
    timed("large rules", &mut |c| parts::large::run(c));
    timed("states", &mut |c| parts::states::run(c, 300));
    timed("two rules", &mut |c| parts::combinations::run(c, 400));
    timed("temporal rules", &mut |c| parts::temporal::run(c, 500));
    timed("confirmations", &mut |c| {
        parts::confirmations::run(c, 300, half)
    });
    timed("boards", &mut |c| parts::boards::run(c, 150, half));
    timed("rounds", &mut |c| parts::rounds::run(c, half));
    timed("prints", &mut |c| parts::prints::run(c, 300, half));
    c.tally
}

fn main() {
    let start = Instant::now();
    let halves: Vec<_> = (0..2)
        .map(|half| thread::spawn(move || share(half)))
        .collect();
    let mut tally = Tally::default();
    for half in halves {
        match half.join() {
            Ok(counts) => tally.add(counts),
            Err(_) => {
                println!("comparison: FAILED: a difference; the message is above");
                std::process::exit(1);
            }
        }
    }
    tally.print();
    let faults = tally::faults(&tally);
    for fault in &faults {
        println!("comparison: {fault}");
    }
    let seconds = start.elapsed().as_secs_f64();
    println!("comparison: {} outcomes in {seconds:.1} s", tally.total());
    if !faults.is_empty() {
        println!("comparison: FAILED: outcomes are missing");
        std::process::exit(1);
    }
}
