//! Random sheets: some in order, some with a line that is refused, some damaged anywhere.

use crate::calls::call;
use crate::rng::Rng;
use crate::spoiled::{damage, spoil, too_long};
use crate::text::{attrib, command, page, send, serial_page};

/// The tags of a random sheet.
pub struct Cast {
    pub pumps: usize,
    pub gauges: usize,
}

impl Cast {
    /// Often one pump tag, whose replies no other's clash with.
    fn new(rng: &mut Rng) -> Cast {
        if rng.percent(50) {
            return Cast {
                pumps: 1,
                gauges: rng.below(2),
            };
        }
        Cast {
            pumps: row_length(rng),
            gauges: row_length(rng),
        }
    }

    pub fn numbers(&self) -> Vec<usize> {
        (0..self.pumps.min(32))
            .chain(32..32 + self.gauges)
            .collect()
    }

    /// A number that most often names a tag.
    pub fn some_tag(&self, rng: &mut Rng) -> usize {
        let all = self.numbers();
        if all.is_empty() {
            return 0;
        }
        rng.pick(&all)
    }
}

/// A few tags, a full row, or more than a row can have.
fn row_length(rng: &mut Rng) -> usize {
    match rng.below(100) {
        0..85 => rng.below(6),
        85..97 => 6 + rng.below(27),
        _ => 33 + rng.below(3),
    }
}

/// Few tags share a serial number.
pub fn serial(tag: usize) -> [u8; 4] {
    [0x5E, (tag / 32) as u8, 0x41, (tag % 29) as u8]
}

/// A short choice of card numbers, so that commands often meet a tag.
pub fn some_cid(rng: &mut Rng) -> u8 {
    rng.pick(&[0, 0, 0, 0, 0, 0, 1, 2, 5, 15])
}

/// All tags have one of these passwords, most of them that of a blank tag.
pub fn some_password(rng: &mut Rng) -> [u8; 8] {
    if rng.percent(75) {
        return [0; 8];
    }
    rng.pick(&[[0xFF; 8], *b"password", *b"Password"])
}

pub fn sheet(rng: &mut Rng) -> Vec<u8> {
    let cast = Cast::new(rng);
    let mut lines = tag_lines(rng, &cast);
    let named = lines.len();
    if rng.percent(80) {
        lines.extend(opening(rng, &cast));
    }
    for _ in 0..rng.below(80) {
        lines.push(call(rng, &cast));
    }
    let mut lines: Vec<Vec<u8>> = lines.into_iter().map(String::into_bytes).collect();
    if rng.percent(35) {
        spoil(rng, &cast, named, &mut lines);
    }
    let mut text: Vec<u8> = lines.join(&b'\n');
    if !rng.percent(2) && !text.is_empty() {
        text.push(b'\n');
    }
    if rng.percent(8) {
        damage(rng, &mut text);
    }
    if rng.percent(3) {
        too_long(rng, &mut text);
    }
    text
}

/// Tags in any order of the rows, then pages.
fn tag_lines(rng: &mut Rng, cast: &Cast) -> Vec<String> {
    let mut kinds = vec!["pump"; cast.pumps];
    kinds.extend(vec!["gauge"; cast.gauges]);
    for i in (1..kinds.len()).rev() {
        kinds.swap(i, rng.below(i + 1));
    }
    let mut lines: Vec<String> = kinds
        .iter()
        .map(|kind| format!("tag,{kind},{:04x}", rng.next() as u16))
        .collect();
    for tag in cast.numbers() {
        if rng.percent(95) {
            lines.push(serial_page(tag, serial(tag)));
        }
        if rng.percent(30) {
            lines.push(page(tag, 1, rng.bytes()));
        }
        if tag < 32 {
            lines.extend(pump_page(rng, tag));
        }
    }
    lines
}

/// A page of a pump tag: counters near their end, lock bits, the password, or any other.
fn pump_page(rng: &mut Rng, tag: usize) -> Option<String> {
    match rng.below(6) {
        0 => {
            let [low, high] = rng.pick(&[0x7FFEu16, 0x7FFF, 0x8000]).to_le_bytes();
            Some(page(tag, 2, [1, 2, 3, 4, 5, 6, low, high]))
        }
        1 => {
            let [s0, s1, s2, s3] = serial(tag);
            let [l0, l1, l2, l3] = rng.bytes();
            Some(page(tag, 0, [s0, s1, s2, s3, l0 & 0xFE, l1, l2, l3]))
        }
        2 | 3 => Some(page(tag, 3, some_password(rng))),
        4 => Some(page(tag, 4 + rng.below(28), rng.bytes())),
        _ => None,
    }
}

/// The field on, tags selected, and passwords checked.
fn opening(rng: &mut Rng, cast: &Cast) -> Vec<String> {
    let mut lines = vec!["on".into()];
    if rng.percent(80) {
        lines.push(send(&[0x05, 0x00, rng.pick(&[0x00, 0x00, 0x08, 0x01])]));
        for tag in cast.numbers() {
            if rng.percent(85) {
                lines.push(attrib(serial(tag), some_cid(rng)));
            }
        }
    }
    for _ in 0..rng.below(6) {
        lines.push(command(0x6, some_cid(rng), 0, some_password(rng)));
    }
    lines
}
