//! The frames that a tag can hear.

use crate::link::State;

pub type Serial = [u8; 4];

pub type Page = [u8; 8];

/// The data commands.
#[derive(Clone, Copy, PartialEq, Eq, Debug)]
pub enum Op {
    Read,
    Write,
    Lock,
    CheckPassword,
    Deselect,
    Count,
}

impl Op {
    fn of(nibble: u8) -> Option<Op> {
        match nibble {
            0x4 => Some(Op::Read),
            0x3 => Some(Op::Write),
            0x2 => Some(Op::Lock),
            0x6 => Some(Op::CheckPassword),
            0xA => Some(Op::Deselect),
            0xE => Some(Op::Count),
            _ => None,
        }
    }
}

#[derive(Clone, Copy, Debug)]
pub enum Frame<'a> {
    /// REQB, or WUPB where `wake_up` is set.
    Request {
        family: u8,
        wake_up: bool,
        slots: u8,
    },
    SlotMarker {
        slot: u8,
    },
    Attrib {
        serial: Serial,
        cid: u8,
    },
    Halt {
        serial: Serial,
    },
    Command(Command<'a>),
}

#[derive(Clone, Copy, Debug)]
pub struct Command<'a> {
    pub op: Op,
    /// The first byte, which replies repeat.
    pub head: u8,
    pub address: u8,
    pub data: &'a Page,
}

impl Frame<'_> {
    /// The one state in which this frame is heard. A request is heard in several.
    pub fn listeners(&self) -> Option<State> {
        match self {
            Frame::Request { .. } => None,
            Frame::SlotMarker { slot } => Some(State::requested(*slot)),
            Frame::Attrib { .. } | Frame::Halt { .. } => Some(State::DECLARED),
            Frame::Command(command) => Some(State::active(command.cid())),
        }
    }
}

impl Command<'_> {
    pub fn cid(&self) -> u8 {
        self.head & 0x0F
    }

    pub fn page(&self) -> u8 {
        self.address % 32
    }
}

/// Takes the body of a sound frame apart by its first byte and its length.
pub fn read_body(body: &[u8]) -> Option<Frame<'_>> {
    match *body {
        [0x05, family, param] => Some(Frame::Request {
            family,
            wake_up: param & 0x08 != 0,
            slots: slots_of(param & 0x07)?,
        }),
        [marker] if marker >> 4 > 0 && marker & 0x0F == 5 => Some(Frame::SlotMarker {
            slot: (marker >> 4) + 1,
        }),
        [0x1D, s0, s1, s2, s3, _, _, _, param4, ref inf @ ..] if inf.len() <= 5 => {
            Some(Frame::Attrib {
                serial: [s0, s1, s2, s3],
                cid: param4 & 0x0F,
            })
        }
        [0x50, s0, s1, s2, s3] => Some(Frame::Halt {
            serial: [s0, s1, s2, s3],
        }),
        [head, address, ref data @ ..] => Some(Frame::Command(Command {
            op: Op::of(head >> 4)?,
            head,
            address,
            data: data.try_into().ok()?,
        })),
        _ => None,
    }
}

fn slots_of(code: u8) -> Option<u8> {
    (code <= 4).then(|| 1 << code)
}
