//! Data commands before tags that are all selected.

use crate::rng::Rng;
use crate::text::{SHEET_MOST, attrib, command, fill_up, joined, page, send, serial_page};

const READ: u8 = 0x4;
const WRITE: u8 = 0x3;
const LOCK: u8 = 0x2;
const CHECK: u8 = 0x6;
const DESELECT: u8 = 0xA;
const COUNT: u8 = 0xE;

/// How many commands at the end have DESELECT among them.
const LAST: usize = 40;

/// The largest data sheet: 32 pump tags, 32 gauges, and commands up to its most bytes.
pub fn largest() -> String {
    let mut sheet = joined(&tag_lines(32, 32));
    sheet.push_str(&joined(&selecting()));
    let each = command(READ, 0, 0, [0; 8]).len() + 1;
    // six bytes or more stay for filling up
    let count = (SHEET_MOST - sheet.len() - 6) / each;
    sheet.push_str(&joined(&commands(count)));
    fill_up(&mut sheet);
    sheet
}

/// The numbers of so many pump tags and gauges.
pub fn numbers(pumps: usize, gauges: usize) -> impl Iterator<Item = usize> {
    (0..pumps).chain(32..32 + gauges)
}

pub fn serial(tag: usize) -> [u8; 4] {
    let mut rng = Rng::new(tag as u64);
    [0xA0 + (tag / 32) as u8, tag as u8, rng.byte(), rng.byte()]
}

/// A few tags have a card number of their own, most share one. Nobody has 15.
fn cid(tag: usize) -> u8 {
    (match tag {
        0..6 => tag,
        6..32 => 6 + tag % 5,
        32..36 => tag - 21,
        _ => 6 + tag % 5,
    }) as u8
}

/// Pump tags with the same card number have the same password.
fn password(cid: u8) -> [u8; 8] {
    [0x70, 0x61, 0x73, 0x73, 0x77, 0x64, 0x30, cid]
}

/// Tags with serial numbers, application data, passwords and some more pages.
pub fn tag_lines(pumps: usize, gauges: usize) -> Vec<String> {
    let mut rng = Rng::new(1);
    let mut lines = Vec::new();
    for tag in numbers(pumps, gauges) {
        let kind = if tag < 32 { "pump" } else { "gauge" };
        lines.push(format!("tag,{kind},{:04x}", rng.next() as u16));
    }
    for tag in numbers(pumps, gauges) {
        lines.push(serial_page(tag, serial(tag)));
        if tag % 2 == 0 {
            lines.push(page(tag, 1, rng.bytes()));
        }
        if tag < 32 {
            lines.push(page(tag, 3, password(cid(tag))));
        }
        if tag % 8 == 0 && tag < 32 {
            lines.push(page(tag, 2, [1, 2, 3, 4, 5, 6, 0xF0, 0x7F]));
            lines.push(page(tag, 4 + rng.below(28), rng.bytes()));
        }
    }
    lines
}

/// The field, a request for one slot, ATTRIB for each of 64 tags, and their passwords.
pub fn selecting() -> Vec<String> {
    let mut lines = vec!["on".into(), send(&[0x05, 0x00, 0x00])];
    lines.extend(numbers(32, 32).map(|tag| attrib(serial(tag), cid(tag))));
    lines.extend((0..11).map(|cid| command(CHECK, cid, 0, password(cid))));
    lines
}

/// So many commands.
pub fn commands(count: usize) -> Vec<String> {
    let mut rng = Rng::new(2);
    let mut lines = Vec::new();
    while lines.len() < count {
        if lines.len() + LAST > count && rng.percent(20) {
            let cid = rng.pick(&[0, 3, 7, 9, 12]);
            lines.push(command(DESELECT, cid, 0, [0; 8]));
        } else {
            add_command(&mut rng, &mut lines);
        }
    }
    lines.truncate(count);
    lines
}

/// A card number: often a pump tag's own, at times one that many share, a gauge's, or nobody's.
fn some_cid(rng: &mut Rng) -> u8 {
    let below = rng.below(6) as u8;
    match rng.below(100) {
        0..50 => below,
        50..77 => 6 + below % 5,
        77..92 => 11 + below % 4,
        _ => 15,
    }
}

fn add_command(rng: &mut Rng, lines: &mut Vec<String>) {
    let cid = some_cid(rng);
    let line = match rng.below(100) {
        0..45 => command(READ, cid, rng.byte(), [0; 8]),
        45..70 => command(WRITE, cid, written_page(rng), rng.bytes()),
        70..74 => command(LOCK, cid, 0, lock_bits(rng)),
        74..90 => command(COUNT, cid, 0, rng.bytes()),
        90..98 => command(CHECK, cid, 0, password(cid)),
        _ => {
            lines.push(command(CHECK, cid, 0, rng.bytes()));
            command(CHECK, cid, 0, password(cid))
        }
    };
    lines.push(line);
}

/// Any page but the password's.
fn written_page(rng: &mut Rng) -> u8 {
    match rng.below(16) as u8 {
        low @ 0..3 => low,
        _ => 4 + rng.below(28) as u8,
    }
}

/// One page of the last eight is locked.
fn lock_bits(rng: &mut Rng) -> [u8; 8] {
    [0, 0, 0, 0, 0, 0, 0, 1 << rng.below(8)]
}
