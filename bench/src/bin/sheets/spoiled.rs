//! Lines that are refused, and damage.

use crate::random::Cast;
use crate::rng::Rng;
use crate::text::{SHEET_MOST, page};

const UNKNOWN: &[&str] = &[
    "",
    ",",
    "Tag,pump,0000",
    "tags,pump,0000",
    " on",
    "on ",
    "on\r",
    "ON",
    "o",
    "reply,00",
    "serial,00",
    "sendd,00",
    "stocks",
    "rAw,00",
    "-",
    "tag;pump;0000",
];

const MISCOUNTED: &[&str] = &[
    "on,",
    "on,1",
    "off,off",
    "stock,",
    "stock,1,2,3,4,5",
    "place",
    "place,1,2",
    "lift",
    "lift,0,",
    "send",
    "send,05,00,00",
    "raw",
    "raw,00,",
    "tag",
    "tag,pump",
    "tag,pump,0000,",
    "tag,gauge,0,0,0",
    "page,0",
    "page,0,0",
    "page,0,0,0000000000000000,",
    "page,0,0,00,00,00,00,00",
];

const MISFORMED: &[&str] = &[
    "place,",
    "place,01",
    "place,00",
    "place,1000",
    "place,-1",
    "place,+1",
    "place, 1",
    "place,a",
    "place,1a",
    "place,12:",
    "lift,000",
    "lift,9999",
    "lift,1/",
    "lift,0x1",
    "send,",
    "send,0",
    "send,0g",
    "send,AB",
    "send,0 ",
    "send,050000\r",
    "send,000000000000000000000000000000",
    "raw,",
    "raw,5",
    "raw,0X",
    "raw,/0",
    "raw,:0",
    "raw,`0",
    "raw,F0",
    "raw,0000000000000000000000000000000000",
    "tag,pomp,0000",
    "tag,,0000",
    "tag,pump,",
    "tag,pump,000",
    "tag,pump,00000",
    "tag,pump,00A0",
    "tag,gauge,g000",
    "tag,GAUGE,0000",
    "page,,0,0000000000000000",
    "page,0,,0000000000000000",
    "page,00,0,0000000000000000",
    "page,0,032,0000000000000000",
    "page,0,0,",
    "page,0,0,00",
    "page,0,0,00000000000000000",
    "page,0,0,000000000000000000",
    "page,0,0,000000000000000G",
    "page,1000,0,0000000000000000",
];

/// Puts a line that is refused, most often, before or among the calls. The first `named` lines name tags.
pub fn spoil(rng: &mut Rng, cast: &Cast, named: usize, lines: &mut Vec<Vec<u8>>) {
    let anywhere = rng.below(lines.len() + 1);
    let among_calls = named + rng.below(lines.len() - named + 1);
    let (at, line) = match rng.below(9) {
        0 => (named, bad_image(rng, cast).into_bytes()),
        1 => (named, no_such_page(rng, cast).into_bytes()),
        2 => (among_calls, no_such_tag(rng, cast).into_bytes()),
        3 => (anywhere, long_line(rng)),
        4 => (anywhere, rng.pick(UNKNOWN).into()),
        5 => (anywhere, rng.pick(MISCOUNTED).into()),
        6 => (anywhere, rng.pick(MISFORMED).into()),
        7 => (
            among_calls,
            rng.pick(&["tag,pump,0000", "tag,gauge,0001"]).into(),
        ),
        _ => (
            among_calls,
            page(rng.below(70), rng.below(40), rng.bytes()).into_bytes(),
        ),
    };
    lines.insert(at, line);
}

/// Lock bits or a counter that no new tag has, or only just.
fn bad_image(rng: &mut Rng, cast: &Cast) -> String {
    let tag = cast.some_tag(rng);
    let one = 1 << rng.below(8);
    match rng.below(4) {
        0 => page(tag, 0, [1, 2, 3, 4, 0x01, 0, 0, 0]),
        1 => page(tag, 0, [1, 2, 3, 4, 0, 0, 0, one]),
        2 => page(tag, 2, [0, 0, 0, 0, 0, 0, one, 0x80]),
        _ => page(
            tag,
            2,
            [0, 0, 0, 0, 0, 0, 0x00, rng.pick(&[0x7F, 0x80, 0x81])],
        ),
    }
}

/// A tag that is not named, or a page that it has not, or only just has.
fn no_such_page(rng: &mut Rng, cast: &Cast) -> String {
    let n = rng.pick(&[1, 2, 3, 31, 32, 33, 999]);
    let tag = rng.pick(&[cast.pumps, 32 + cast.gauges, 0, 31, 32, 63, 64, 999]);
    if rng.percent(50) {
        page(tag, 1, rng.bytes())
    } else {
        page(cast.some_tag(rng), n, [0; 8])
    }
}

fn no_such_tag(rng: &mut Rng, cast: &Cast) -> String {
    let word = rng.pick(&["place", "lift"]);
    let tag = rng.pick(&[cast.pumps, 32 + cast.gauges, 31, 32, 63, 64, 999]);
    format!("{word},{tag}")
}

/// A line about as long as a line may be.
fn long_line(rng: &mut Rng) -> Vec<u8> {
    let mut line = rng
        .pick(&["send,", "on", "page,0,0,", "", "raw,00,"])
        .as_bytes()
        .to_vec();
    line.resize(rng.pick(&[78, 79, 80, 81, 200]), b'0');
    line
}

/// A few bytes are changed, lost, put in or doubled, wherever they stand.
pub fn damage(rng: &mut Rng, text: &mut Vec<u8>) {
    for _ in 0..1 + rng.below(3) {
        if text.is_empty() {
            return;
        }
        let at = rng.below(text.len());
        match rng.below(5) {
            0 => text[at] = rng.byte(),
            1 => text[at] = rng.pick(b"0123456789abcdef,\n"),
            2 => text.insert(at, rng.pick(b"0a,\n\r \0\xFF")),
            3 => {
                text.remove(at);
            }
            _ => text.truncate(at),
        }
    }
}

/// Grown by `on` and `off` to just the most bytes of a sheet, or to one more or less.
pub fn too_long(rng: &mut Rng, text: &mut Vec<u8>) {
    let end = SHEET_MOST - 1 + rng.below(3);
    while text.len() + 8 <= end {
        text.extend(rng.pick(&[b"off\n", b"on\non\n".as_slice()]));
    }
    text.extend(
        [b"on\n".as_slice(), b"off\n", b"\n"]
            .concat()
            .iter()
            .take(end - text.len()),
    );
}
