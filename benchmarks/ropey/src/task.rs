//! The task of the command line.

use crate::sample::Size;

/// The workloads of a task and their size.
#[derive(Clone, Copy, PartialEq, Eq)]
pub enum Mode {
    /// No argument: every workload in small size, without times.
    Small,
    /// `time`: workloads in full size, with times.
    Full,
    /// `grow`: a few workloads on texts of 1 MB to 1 GB.
    Growth,
    /// `mem`: a rope, whose memory the process shows.
    Memory,
}

/// A mode, and the selected workloads.
pub struct Task {
    /// The mode.
    pub mode: Mode,
    /// Parts of names of workloads, or whole names after a `=`. No words select all workloads.
    words: Vec<String>,
}

impl Task {
    /// Returns the task of the program's arguments, or `None` if they are wrong.
    pub fn of_words(mut words: impl Iterator<Item = String>) -> Option<Task> {
        let mode = match words.next().as_deref() {
            None => Mode::Small,
            Some("time") => Mode::Full,
            Some("grow") => Mode::Growth,
            Some("mem") => Mode::Memory,
            Some(_) => return None,
        };
        Some(Task {
            mode,
            words: words.collect(),
        })
    }

    /// Returns whether a workload is selected.
    pub fn selects(&self, name: &str) -> bool {
        self.words.is_empty() || self.words.iter().any(|word| names(word, name))
    }

    /// Returns the size of the workloads.
    pub fn size(&self) -> Size {
        match self.mode {
            Mode::Small => Size::Small,
            Mode::Full | Mode::Growth | Mode::Memory => Size::Full,
        }
    }

    /// Returns how often a workload is timed. The least time counts.
    pub fn runs(&self) -> usize {
        match self.mode {
            Mode::Full | Mode::Growth => 5,
            Mode::Small | Mode::Memory => 1,
        }
    }
}

/// Returns whether a word of the command line selects a workload.
fn names(word: &str, name: &str) -> bool {
    match word.strip_prefix('=') {
        Some(whole) => name == whole,
        None => name.contains(word),
    }
}
