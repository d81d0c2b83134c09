//! Runs the selected workloads, and prints a line for each.

use crate::growing::{fill, LENGTHS, MEMORIES};
use crate::measure::Outcome;
use crate::sample::{Sample, Size, State};
use crate::scaling::{BYTES, EIGHTY, LINE_LENGTHS, OF_PORTIONS, PORTIONS, START};
use crate::task::{Mode, Task};
use crate::texts::{letters, Text, TEXTS};
use crate::traces::{keystrokes, replay};
use crate::workloads::{of_texts, OF_LENGTHS, OF_LINE_LENGTHS, OF_NONE};

/// Runs a task.
pub fn run(task: &Task) {
    match task.mode {
        Mode::Small | Mode::Full => run_all(task),
        Mode::Growth => run_lengths(task),
        Mode::Memory => run_memories(task),
    }
}

/// Runs the workloads on each text, on edited ropes, without a text, by length of lines and of
/// edits, and on a person's edits.
fn run_all(task: &Task) {
    // After a large free the allocator keeps more memory at later frees, which makes ropes cheaper.
    // It should do so for all workloads.
    drop(Text::Prose.make(task.size().bytes()));
    for text in TEXTS {
        for (state, start) in [(State::New, ""), (State::Edited, "edited_")] {
            run_round(task, start, &of_texts(state), text.ending(), || {
                Sample::new(text.make(task.size().bytes()), task.size(), state)
            });
        }
    }
    run_round(task, "", OF_NONE, "", || {
        Sample::new(String::new(), task.size(), State::New)
    });
    run_scaled(task);
    run_trace(task);
}

/// Runs the workloads of each length of lines, and the edits of each portion.
fn run_scaled(task: &Task) {
    let sample = |width| {
        let text = letters(width, task.size().of(BYTES));
        Sample::new(text, task.size(), State::New)
    };
    for (width, ending) in LINE_LENGTHS {
        run_round(task, START, OF_LINE_LENGTHS, ending, || sample(width));
    }
    for (portion, ending) in PORTIONS {
        let edits = OF_PORTIONS.map(|(name, edit)| (name, move |of: &Sample| edit(of, portion)));
        run_round(task, START, &edits, ending, || sample(EIGHTY));
    }
}

/// Runs the selected workloads on a sample, which is made only if there are any.
fn run_round<W: Fn(&Sample) -> Outcome>(
    task: &Task,
    start: &str,
    workloads: &[(&'static str, W)],
    ending: &str,
    sample: impl FnOnce() -> Sample,
) {
    let selected: Vec<_> = workloads
        .iter()
        .map(|(name, work)| (format!("{start}{name}{ending}"), work))
        .filter(|(name, _)| task.selects(name))
        .collect();
    if selected.is_empty() {
        return;
    }
    let sample = sample();
    for (name, work) in selected {
        show(task, &name, best_of(task.runs(), || work(&sample)));
    }
}

/// Returns the fastest of `runs` runs, at least one.
fn best_of(runs: usize, run: impl Fn() -> Outcome) -> Outcome {
    let mut best = run();
    for _ in 1..runs {
        best.nanos = best.nanos.min(run().nanos);
    }
    best
}

/// Replays the edits on standard input, which is read only if the workload is selected.
fn run_trace(task: &Task) {
    if !task.selects("trace") {
        return;
    }
    let edits = keystrokes().expect("standard input can be read");
    if !edits.is_empty() {
        show(task, "trace", best_of(task.runs(), || replay(&edits)));
    }
}

/// Runs a few workloads on prose of each length.
fn run_lengths(task: &Task) {
    for length in LENGTHS {
        run_round(task, "", OF_LENGTHS, length.ending(), || {
            Sample::new(length.text(), Size::Full, State::New)
        });
    }
}

/// Runs the selected workloads of memory.
fn run_memories(task: &Task) {
    for memory in MEMORIES {
        if task.selects(memory.name()) {
            show(task, memory.name(), fill(memory));
        }
    }
}

/// Prints the name, the operations, the nanoseconds per operation if timed, and the checksum.
fn show(task: &Task, name: &str, outcome: Outcome) {
    let Outcome {
        operations,
        nanos,
        checksum,
    } = outcome;
    if task.mode == Mode::Small {
        println!("{name} {operations} {checksum:016x}");
        return;
    }
    let thousandths = (nanos * 1_000).checked_div(operations as u64).unwrap_or(0);
    let (whole, part) = (thousandths / 1_000, thousandths % 1_000);
    println!("{name} {operations} {whole}.{part:03} {checksum:016x}");
}
