//! The work of crates/fdb_bench once more, in plain Rust with std alone and without proofs:
//! `peer NAME SIZE THREADS` runs the benchmark of that name.

mod audit;
mod batches;
mod benchmarks;
mod chain;
mod live;
mod measuring;
mod queue;

use benchmarks::{FEW, MANY};
use measuring::Measured;

fn main() {
    let arguments: Vec<String> = std::env::args().skip(1).collect();
    let [name, size, threads] = arguments.as_slice() else {
        panic!("a benchmark, its size and its threads are wanted");
    };
    let (size, threads) = (size.parse().expect("a size"), threads.parse().expect("threads"));
    let Measured { operations, nanos, clock, checksum } = run(name, size, threads);
    println!("{name} {size} {threads} {}", checksum.0);
    eprintln!("{name} {size} {threads}: {operations} operations, {nanos} ns of {clock} time");
}

fn run(name: &str, size: u32, threads: u32) -> Measured {
    match name {
        "fresh" => benchmarks::fresh(size, MANY, false),
        "repeats" => benchmarks::repeats(size),
        "processed" => benchmarks::fresh(size, FEW, true),
        "queue" => benchmarks::mix(size),
        "waits" => benchmarks::waits(size),
        "throttles" => benchmarks::throttles(size),
        "audit" => benchmarks::audits(size),
        // a plain program has no tokens to keep
        "sequencer" | "master" => benchmarks::asks(size, threads),
        "reads" => benchmarks::reads(size, threads, false),
        "reads_beside" => benchmarks::reads(size, threads, true),
        "reports" => benchmarks::reports(size, threads),
        "tokens" => benchmarks::tokens(size),
        "batches" => benchmarks::batches(size),
        _ => panic!("there is no benchmark {name}"),
    }
}
