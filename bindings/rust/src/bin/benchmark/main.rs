//! Times of every call of the library beside those of two engines in plain Rust, on the same inputs in one process. Answers are
//! compared before anything is timed.
//!
//!     benchmark                           prints a table in Markdown
//!     benchmark times ROW ..              prints it of some rows
//!     benchmark rows                      prints the names of its rows
//!     benchmark count ROW ENGINE N CALLS  runs one call so many times, for a count of its instructions
//!     benchmark slow SECONDS SEED         looks for slow rules, so long for each call, and prints the slowest

mod calls;
mod engine;
mod inputs;
mod measure;
mod rows;
mod slow;

use calls::{Buffers, Engine, ENGINES};
use inputs::SIZES;
use measure::{measure, Times};
use rows::{rows, Row};
use std::hint::black_box;

/// The times of a row at one size, of the library first.
fn times(row: &Row, n: usize) -> Option<[Times; ENGINES.len()]> {
    let call = (row.call)(n)?;
    call.confirm();
    let mut buffers = ENGINES.map(|_| Buffers::new());
    Some(measure(|engine| {
        let answer = call.run(ENGINES[engine].1, &mut buffers[engine]);
        let _ = black_box(answer);
    }))
}

fn print_table(rows: &[Row]) {
    inputs::confirm();
    let sizes = SIZES.map(|n| n.to_string()).join(" | ");
    let beside: Vec<String> = ENGINES[1..]
        .iter()
        .map(|(name, _)| format!("/ {name} {sizes}"))
        .collect();
    println!("| Call | {sizes} | {} | spread |", beside.join(" | "));
    println!("|---{}|", "|---".repeat(1 + SIZES.len() * ENGINES.len()));
    for row in rows {
        let measured = SIZES.map(|n| times(row, n));
        let cells = |cell: &dyn Fn(&[Times; ENGINES.len()]) -> String| {
            let cells = measured.each_ref().map(|times| times.as_ref().map(cell));
            cells
                .map(|cell| cell.unwrap_or("–".to_string()))
                .join(" | ")
        };
        let mut columns = vec![row.name.clone(), cells(&|t| format!("{:.1}", t[0].least))];
        for engine in 1..ENGINES.len() {
            columns.push(cells(&|t| format!("{:.2}", t[0].least / t[engine].least)));
        }
        let spreads = measured.iter().flatten().map(|times| times[0].spread);
        let spread = spreads.fold(0.0, f64::max);
        println!("| {} | {:.0} % |", columns.join(" | "), spread * 100.0);
    }
}

fn count(row: &Row, engine: Engine, n: usize, calls: usize) {
    let call = (row.call)(n).expect("no input of that size");
    let mut buffers = Buffers::new();
    for _ in 0..calls {
        let _ = black_box(call.run(engine, &mut buffers));
    }
}

fn main() {
    let arguments: Vec<String> = std::env::args().skip(1).collect();
    let arguments: Vec<&str> = arguments.iter().map(String::as_str).collect();
    match arguments[..] {
        [] => print_table(&rows()),
        ["times", ref names @ ..] => {
            let mut chosen = rows();
            chosen.retain(|row| names.contains(&row.name.as_str()));
            assert_eq!(chosen.len(), names.len(), "there is no such row");
            print_table(&chosen);
        }
        ["rows"] => rows().iter().for_each(|row| println!("{}", row.name)),
        ["count", name, engine, n, calls] => {
            let row = rows().into_iter().find(|row| row.name == name);
            let engine = ENGINES.into_iter().find(|(other, _)| *other == engine);
            let numbers = n.parse().ok().zip(calls.parse().ok());
            match (row, engine, numbers) {
                (Some(row), Some((_, engine)), Some((n, calls))) => count(&row, engine, n, calls),
                _ => panic!("there is no such row or engine, or a number is none"),
            }
        }
        ["slow", seconds, seed] => match (seconds.parse(), seed.parse()) {
            (Ok(seconds), Ok(seed)) => slow::search(seconds, seed),
            _ => panic!("a number is none"),
        },
        _ => {
            panic!("benchmark [times ROW .. | rows | count ROW ENGINE N CALLS | slow SECONDS SEED]")
        }
    }
}
