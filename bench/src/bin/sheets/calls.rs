//! Random calls.

use crate::random::{Cast, serial, some_cid, some_password};
use crate::rng::Rng;
use crate::text::{attrib, command, hex, send};
use handtray::ears::{Tabled, check_bytes};

pub fn call(rng: &mut Rng, cast: &Cast) -> String {
    let tag = cast.some_tag(rng);
    match rng.below(100) {
        0..5 => "on".into(),
        5..8 => "off".into(),
        8..12 if cast.pumps + cast.gauges > 0 => format!("place,{tag}"),
        12..16 if cast.pumps + cast.gauges > 0 => format!("lift,{tag}"),
        16..20 => "stock".into(),
        20..30 => send(&request(rng)),
        30..36 => send(&[rng.byte() & 0xF0 | 5]),
        36..48 => some_attrib(rng, tag),
        48..53 => halt(rng, tag),
        53..85 => some_command(rng),
        85..90 => send(&some_bytes(rng, 14)),
        _ => raw(rng),
    }
}

/// REQB or WUPB, most often to this family and with a number of slots that is heard.
fn request(rng: &mut Rng) -> [u8; 3] {
    let family = if rng.percent(80) {
        rng.byte() % 2
    } else {
        rng.byte()
    };
    let slots = if rng.percent(85) {
        rng.byte() % 5
    } else {
        rng.byte() % 8
    };
    let wake_up = rng.byte() & 0x08;
    let ignored = if rng.percent(10) {
        rng.byte() & 0xF0
    } else {
        0
    };
    [0x05, family, ignored | wake_up | slots]
}

fn some_attrib(rng: &mut Rng, tag: usize) -> String {
    let mut line = attrib(serial(tag), some_cid(rng) | rng.pick(&[0, 0, 0xF0]));
    if rng.percent(20) {
        let inf: [u8; 5] = rng.bytes();
        line.push_str(&hex(&inf[..rng.below(6)]));
    }
    line
}

fn halt(rng: &mut Rng, tag: usize) -> String {
    let [s0, s1, s2, s3] = if rng.percent(90) {
        serial(tag)
    } else {
        rng.bytes()
    };
    send(&[0x50, s0, s1, s2, s3])
}

/// READ, WRITE, LOCK, CHECK PASSWORD, DESELECT, COUNT, or a nibble that is none of them.
fn some_command(rng: &mut Rng) -> String {
    let code = match rng.below(100) {
        0..35 => 0x4,
        35..60 => 0x3,
        60..68 => 0x2,
        68..80 => 0x6,
        80..83 => 0xA,
        83..97 => 0xE,
        _ => rng.byte() >> 4,
    };
    let data = match code {
        0x6 => some_password(rng),
        0x2 => [
            0,
            0,
            0,
            0,
            rng.byte() & rng.byte() & rng.byte(),
            0,
            0,
            1 << rng.below(8),
        ],
        _ => rng.bytes(),
    };
    let address = if rng.percent(50) {
        rng.byte() % 8
    } else {
        rng.byte()
    };
    command(code, some_cid(rng), address, data)
}

/// One byte or more, up to `most`.
fn some_bytes(rng: &mut Rng, most: usize) -> Vec<u8> {
    (0..1 + rng.below(most)).map(|_| rng.byte()).collect()
}

/// Any bytes, or a body whose check bytes are right, or off by a bit, or swapped.
fn raw(rng: &mut Rng) -> String {
    if rng.percent(40) {
        return format!("raw,{}", hex(&some_bytes(rng, 16)));
    }
    let mut frame = match rng.below(3) {
        0 => request(rng).to_vec(),
        1 => vec![rng.byte() & 0xF0 | 5],
        _ => some_bytes(rng, 14),
    };
    let [low, high] = check_bytes::<Tabled>(&frame);
    match rng.below(4) {
        0 => frame.extend([high, low]),
        _ => frame.extend([low, high]),
    }
    if rng.percent(30) {
        let i = rng.below(frame.len());
        frame[i] ^= 1 << rng.below(8);
    }
    format!("raw,{}", hex(&frame))
}
