//! Times each call of the proved library and the same call of the second program, which is ordinary Rust, in one run,
//! and prints the ratios. Nothing is asserted about them.

mod call;
mod case;
mod machine;
mod time;

use case::{Case, large_batches, largest_write, on_full_ring};
use time::{ROUNDS, RUNS, Times, measure};

const SIZES: [usize; 5] = [18, 32, 64, 128, 255];
const LARGEST: usize = 255;

fn main() {
    println!("Machine: {}.", machine::describe());
    println!();
    println!("Times are in nanoseconds, each the lowest of {ROUNDS} medians of {RUNS} runs (slow calls: fewer).");
    println!(
        "A ratio is the library's time to that of ordinary Rust, both optimised, in one process, in turn on the same bytes."
    );
    println!(
        "A batch is 32 writes, or all that a small ring holds. 32 writes of 4,096 bytes take 544 slots, which no ring has:"
    );
    println!("instead 14 of 4,096, and 32 of 1,768.");
    println!();
    large_table();
    println!();
    growth_table();
}

/// Every call on the largest ring.
fn large_table() {
    println!("| call, full ring of N = {LARGEST} | library | ordinary | ratio |");
    println!("|---|---:|---:|---:|");
    let mut cases = on_full_ring(LARGEST);
    cases.push(largest_write(LARGEST));
    cases.extend(large_batches(LARGEST));
    for (case, times) in cases.iter().zip(measure(&cases)) {
        println!("| {} | {} | {} | {:.2} |", case.name, times.library, times.ordinary, times.ratio());
    }
}

/// How each call grows with the ring: the library's time, and the ratio.
fn growth_table() {
    let sizes = SIZES.map(|slots| format!(" N = {slots} |")).concat();
    println!("| call, full ring: library (ratio) |{sizes}");
    println!("|---|{}", "---:|".repeat(SIZES.len()));
    let cases: Vec<Case> = SIZES.iter().flat_map(|&slots| on_full_ring(slots)).collect();
    let times = measure(&cases);
    let rows = cases.len() / SIZES.len();
    for row in 0..rows {
        let cell = |times: &Times| format!(" {} ({:.2}) |", times.library, times.ratio());
        let cells: String = times[row..].iter().step_by(rows).map(cell).collect();
        println!("| {} |{cells}", cases[row].name);
    }
}
