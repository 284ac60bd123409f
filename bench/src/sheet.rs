//! The lines of a sheet, and what they say.

use crate::ears::Ears;
use crate::frames::Page;
use crate::message::Message;
use crate::refusal::Refusal;

const LINE_MOST: usize = 79;

pub enum Line {
    Pump {
        draw: u16,
    },
    Gauge {
        draw: u16,
    },
    Page {
        tag: usize,
        page: usize,
        bytes: Page,
    },
    Call(Call),
}

pub enum Call {
    On,
    Off,
    Place(usize),
    Lift(usize),
    Frame(Message),
    Stock,
}

/// A line parted at its commas.
pub struct Fields<'a> {
    /// Its first five fields; no line has more than four.
    fields: [&'a [u8]; 5],
    count: usize,
}

impl<'a> Fields<'a> {
    /// Cuts the first line off, up to an LF among the first 80 bytes, and parts its fields on the way.
    pub fn cut_line(text: &'a [u8]) -> Result<(Fields<'a>, &'a [u8]), Refusal> {
        let mut line = Fields {
            fields: [&[]; 5],
            count: 0,
        };
        let mut start = 0;
        let reach = &text[..text.len().min(LINE_MOST + 1)];
        for (at, &byte) in reach.iter().enumerate() {
            // digits and letters stand above both
            if byte <= b',' && (byte == b',' || byte == b'\n') {
                if let Some(field) = line.fields.get_mut(line.count) {
                    *field = &text[start..at];
                    line.count += 1;
                }
                start = at + 1;
                if byte == b'\n' {
                    return Ok((line, &text[start..]));
                }
            }
        }
        Err(Refusal::LineTooLong)
    }

    /// What a line says: a known word, then as many fields as it has, each in its form.
    pub fn read<E: Ears>(&self) -> Result<Line, Refusal> {
        let call = match self.fields[..self.count] {
            [b"send", body] => Call::Frame(sealed_bytes::<E>(body)?),
            [b"raw", frame] => {
                let (bytes, len) = bytes(frame)?;
                Call::Frame(Message::new(bytes, len))
            }
            [b"on"] => Call::On,
            [b"off"] => Call::Off,
            [b"stock"] => Call::Stock,
            [b"place", tag] => Call::Place(number(tag)?),
            [b"lift", tag] => Call::Lift(number(tag)?),
            [b"tag", kind, draw] => return read_tag(kind, draw),
            [b"page", tag, page, bytes] => {
                return Ok(Line::Page {
                    tag: number(tag)?,
                    page: number(page)?,
                    bytes: page_bytes(bytes)?,
                });
            }
            [
                b"tag" | b"page" | b"on" | b"off" | b"stock" | b"place" | b"lift" | b"send"
                | b"raw",
                ..,
            ] => return Err(Refusal::FieldCount),
            _ => return Err(Refusal::UnknownWord),
        };
        Ok(Line::Call(call))
    }
}

fn read_tag(kind: &[u8], draw: &[u8]) -> Result<Line, Refusal> {
    match kind {
        b"pump" => Ok(Line::Pump {
            draw: draw_number(draw)?,
        }),
        b"gauge" => Ok(Line::Gauge {
            draw: draw_number(draw)?,
        }),
        _ => Err(Refusal::FieldForm),
    }
}

/// One to three decimal digits without leading zeros.
fn number(field: &[u8]) -> Result<usize, Refusal> {
    let digit = |byte: u8| match byte {
        b'0'..=b'9' => Ok(usize::from(byte - b'0')),
        _ => Err(Refusal::FieldForm),
    };
    match *field {
        [a] => digit(a),
        [b'1'..=b'9', ..] if field.len() <= 3 => field
            .iter()
            .try_fold(0, |value, &byte| Ok(10 * value + digit(byte)?)),
        _ => Err(Refusal::FieldForm),
    }
}

/// The value of a lower-case hex digit, NO_DIGIT for any other byte.
static DIGITS: [u8; 256] = {
    let mut digits = [NO_DIGIT; 256];
    let mut value = 0;
    while value < 16 {
        digits[b"0123456789abcdef"[value] as usize] = value as u8;
        value += 1;
    }
    digits
};

const NO_DIGIT: u8 = 0x10;

/// One to 16 bytes as lower-case hex pairs, and how many they are.
fn bytes(field: &[u8]) -> Result<([u8; 16], usize), Refusal> {
    let (pairs, rest) = field.as_chunks();
    if !rest.is_empty() || !(1..=16).contains(&pairs.len()) {
        return Err(Refusal::FieldForm);
    }
    let mut bytes = [0; 16];
    let mut seen = 0;
    for (byte, &[high, low]) in bytes.iter_mut().zip(pairs) {
        let (high, low) = (DIGITS[usize::from(high)], DIGITS[usize::from(low)]);
        seen |= high | low;
        *byte = high << 4 | low;
    }
    if seen >= NO_DIGIT {
        return Err(Refusal::FieldForm);
    }
    Ok((bytes, pairs.len()))
}

/// One to 14 bytes, and check bytes behind them.
fn sealed_bytes<E: Ears>(field: &[u8]) -> Result<Message, Refusal> {
    match bytes(field)? {
        (bytes, len @ ..=14) => Ok(Message::new(bytes, len).seal::<E>()),
        _ => Err(Refusal::FieldForm),
    }
}

fn page_bytes(field: &[u8]) -> Result<Page, Refusal> {
    match bytes(field)? {
        ([page @ .., _, _, _, _, _, _, _, _], 8) => Ok(page),
        _ => Err(Refusal::FieldForm),
    }
}

/// Four hex digits, the high one first.
fn draw_number(field: &[u8]) -> Result<u16, Refusal> {
    match bytes(field)? {
        ([high, low, ..], 2) => Ok(u16::from_be_bytes([high, low])),
        _ => Err(Refusal::FieldForm),
    }
}
