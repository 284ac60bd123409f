//! Sheets that show how cost grows: in lines, and in tags.

use crate::data::{commands, selecting, tag_lines};
use crate::text::{joined, page};

/// Calls of a sheet that grows in tags.
const CALLS: usize = 2000;

/// One to four quarters of the lines of a sheet.
pub fn in_lines(sheet: &str) -> Vec<(String, String)> {
    let lines: Vec<&str> = sheet.lines().collect();
    (1..=4)
        .map(|n| (format!("lines-{n}"), joined(&lines[..lines.len() * n / 4])))
        .collect()
}

/// The same calls, and as many lines before them, for 8, 16, 32 and 64 tags.
pub fn in_tags() -> Vec<(String, String)> {
    let before = tag_lines(32, 32).len();
    let mut calls = selecting();
    calls.extend(commands(CALLS - calls.len()));
    [8, 16, 32, 64]
        .into_iter()
        .map(|tags| {
            let mut lines = tag_lines(tags / 2, tags / 2);
            lines.resize(before, page(0, 1, [0; 8]));
            lines.extend(calls.iter().cloned());
            (format!("tags-{tags}"), joined(&lines))
        })
        .collect()
}
