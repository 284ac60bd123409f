//! Stock taken of a full tray, again and again.

use crate::data::{numbers, serial};
use crate::rng::Rng;
use crate::text::{SHEET_MOST, fill_up, joined, serial_page};

/// The short sheet has one of so many of the largest one's calls.
const SHORT: usize = 100;

/// The largest stock sheet: 64 tags, and stock up to its most bytes.
pub fn largest() -> String {
    let mut sheet = joined(&tag_lines());
    let mut rng = Rng::new(4);
    // room for the longest group of calls, and six bytes to fill up
    while sheet.len() + 6 * 20 + 16 + 6 <= SHEET_MOST {
        sheet.push_str(&joined(&calls(&mut rng)));
    }
    while sheet.len() + 6 + 6 <= SHEET_MOST {
        sheet.push_str("stock\n");
    }
    fill_up(&mut sheet);
    sheet
}

/// The first part of the same, for slow measuring.
pub fn short() -> String {
    let all = largest();
    let named = tag_lines().len();
    let calls = all.lines().count() - named;
    let lines: Vec<&str> = all.lines().take(named + calls / SHORT).collect();
    joined(&lines)
}

/// 64 tags with serial numbers and draw numbers of their own.
fn tag_lines() -> Vec<String> {
    let mut rng = Rng::new(3);
    let mut lines = Vec::new();
    for tag in numbers(32, 32) {
        let kind = if tag < 32 { "pump" } else { "gauge" };
        // the six high bits are the tag's own
        let draw = (tag as u16) << 10 | rng.below(1 << 10) as u16;
        lines.push(format!("tag,{kind},{draw:04x}"));
    }
    lines.extend(numbers(32, 32).map(|tag| serial_page(tag, serial(tag))));
    lines.push("on".into());
    lines
}

/// Twenty stocks, and something between them: a tag lifted or placed, or the field off and on.
fn calls(rng: &mut Rng) -> Vec<String> {
    let mut lines = vec!["stock".to_string(); 20];
    let tag = rng.below(64);
    match rng.below(4) {
        0 => lines.extend(["off".into(), "on".into()]),
        1 => lines.push(format!("lift,{tag}")),
        _ => lines.push(format!("place,{tag}")),
    }
    lines
}
