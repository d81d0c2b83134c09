//! The workloads of `crates/rope_bench` with the Rust crate ropey 1.6.1: the same names,
//! operations, checksums and lines of output.

mod changing;
mod comparing;
mod counting;
mod cursors;
mod editing;
mod edits;
mod growing;
mod keeping;
mod lookups;
mod making;
mod measure;
mod numbers;
mod reading;
mod report;
mod sample;
mod scaling;
mod screens;
mod slicing;
mod task;
mod texts;
mod traces;
mod workloads;

use task::Task;

fn main() {
    match Task::of_words(std::env::args().skip(1)) {
        Some(task) => report::run(&task),
        None => {
            eprintln!("usage: ropey_bench [time [WORD ..] | grow [WORD ..] | mem [WORD ..]]");
            std::process::exit(1);
        }
    }
}
