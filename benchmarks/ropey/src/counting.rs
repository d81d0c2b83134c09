//! Counts over a plain text, ten times the sample's, by the crate str_indices that ropey uses.

use crate::measure::{timed_sum, Outcome};
use crate::sample::Sample;
use crate::workloads::Workload;
use ropey::RopeSlice;
use str_indices::{chars, lines, lines_crlf, lines_lf, utf16};

/// The workloads on each text, in order.
pub const WORKLOADS: &[Workload] = &[
    ("count_chars_100MB", count_chars),
    ("count_breaks_100MB", count_breaks),
    ("count_breaks_lf_100MB", count_breaks_lf),
    ("count_breaks_crlf_100MB", count_breaks_crlf),
    ("count_utf16_100MB", count_pairs),
    ("slice_from_str_100MB", slice),
];

/// Times a count over the text.
fn count(sample: &Sample, counted: impl FnOnce(&str) -> usize) -> Outcome {
    let text = sample.text.repeat(10);
    timed_sum(1, || counted(&text) as u64)
}

fn count_chars(sample: &Sample) -> Outcome {
    count(sample, chars::count)
}

fn count_breaks(sample: &Sample) -> Outcome {
    count(sample, lines::count_breaks)
}

fn count_breaks_lf(sample: &Sample) -> Outcome {
    count(sample, lines_lf::count_breaks)
}

fn count_breaks_crlf(sample: &Sample) -> Outcome {
    count(sample, lines_crlf::count_breaks)
}

fn count_pairs(sample: &Sample) -> Outcome {
    count(sample, utf16::count_surrogates)
}

/// Times a slice of the text, which counts it, and its lengths.
fn slice(sample: &Sample) -> Outcome {
    count(sample, |text| {
        let slice = RopeSlice::from(text);
        slice.len_chars() + slice.len_lines() + slice.len_utf16_cu()
    })
}
