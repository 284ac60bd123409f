//! What tags say to a frame, and what a reader hears of it.

use crate::ears::Ears;
use crate::frames::Page;
use crate::message::Message;

/// What one tag says.
#[derive(Clone, Copy)]
pub enum Said {
    /// ATQB, the answer to a request, with serial number and application data.
    Answer([u8; 8]),
    /// The card number after ATTRIB, or 0 after HLTB.
    Byte(u8),
    /// A page that was asked for, behind the command's first byte and its own number.
    Page { head: u8, number: u8, page: Page },
    /// A data command is acknowledged by 0 or refused by a code, behind its first byte.
    Status { head: u8, status: u8 },
}

impl Said {
    /// Its bytes, with check bytes.
    fn message<E: Ears>(self) -> Message {
        match self {
            Said::Answer(memory) => {
                let mut body = [0x50, 0, 0, 0, 0, 0, 0, 0, 0, 0x00, 0x00, 0x41];
                body[1..9].copy_from_slice(&memory);
                Message::sealed::<E, _>(body)
            }
            Said::Byte(byte) => Message::sealed::<E, _>([byte]),
            Said::Page { head, number, page } => {
                let mut body = [head, number, 0, 0, 0, 0, 0, 0, 0, 0];
                body[2..].copy_from_slice(&page);
                Message::sealed::<E, _>(body)
            }
            Said::Status { head, status } => Message::sealed::<E, _>([head, status]),
        }
    }
}

/// What a reader hears after a frame.
pub enum Sound {
    Silence,
    Reply(Message),
    Clash(usize),
}

/// How many tags have answered, and what the last of them said.
#[derive(Default)]
pub struct Replies {
    count: usize,
    last: Option<Said>,
}

impl Replies {
    pub fn add(&mut self, said: Option<Said>) {
        if said.is_some() {
            self.count += 1;
            self.last = said;
        }
    }

    /// A reply is put into bytes where it was the only one.
    pub fn sound<E: Ears>(&self) -> Sound {
        match (self.count, self.last) {
            (1, Some(said)) => Sound::Reply(said.message::<E>()),
            (0, _) | (_, None) => Sound::Silence,
            (count, _) => Sound::Clash(count),
        }
    }
}
