//! A tag: the link that every kind has, over what its kind has for itself.

use crate::frames::{Command, Frame, Op, Page, Serial};
use crate::link::{Link, State};
use crate::replies::Said;

/// Why a tag refuses a data command.
#[derive(Clone, Copy)]
pub enum Nack {
    /// The page is locked.
    Locked = 0x11,
    /// The page cannot be used so, or the counter has reached its end.
    Invalid = 0x21,
    /// The tag is not open, or the password was wrong.
    NotOpen = 0x41,
}

/// What a data command does where no kind refuses it.
pub enum Done {
    Read(Page),
    Acknowledged,
}

/// What a kind of tag has beside its link.
pub trait Kind {
    fn pages(&self) -> &[Page];

    /// Obeys a data command other than DESELECT. Nothing where this kind does not hear it.
    fn obey(&mut self, command: &Command) -> Option<Result<Done, Nack>>;

    fn lose_power(&mut self) {}
}

pub struct Tag<K> {
    pub link: Link,
    placed: bool,
    pub kind: K,
}

impl<K: Kind> Tag<K> {
    pub fn new(draw: u16, kind: K) -> Tag<K> {
        Tag {
            link: Link::new(draw),
            placed: true,
            kind,
        }
    }

    /// The field goes on or off. A tag that is not on the tray is off in either.
    pub fn set_field(&mut self, on: bool) {
        if self.placed {
            self.set_power(on);
        }
    }

    pub fn set_placed(&mut self, placed: bool, field: bool) {
        if field && placed != self.placed {
            self.set_power(placed);
        }
        self.placed = placed;
    }

    fn set_power(&mut self, on: bool) {
        if on {
            self.link.gain_power();
        } else {
            self.link.lose_power();
            self.kind.lose_power();
        }
    }

    /// Hears a frame, and answers. A tag that is off hears nothing.
    #[inline(always)]
    pub fn hear(&mut self, frame: &Frame) -> Option<Said> {
        match *frame {
            Frame::Request {
                family,
                wake_up,
                slots,
            } => self
                .link
                .request(family, wake_up, slots)
                .then(|| self.answer()),
            Frame::SlotMarker { slot } if self.link.state == State::requested(slot) => {
                self.link.state = State::DECLARED;
                Some(self.answer())
            }
            Frame::Attrib { serial, cid } if self.is_declared(serial) => {
                self.link.state = State::active(cid);
                Some(Said::Byte(cid))
            }
            Frame::Halt { serial } if self.is_declared(serial) => {
                self.link.state = State::HALTED;
                Some(Said::Byte(0x00))
            }
            Frame::Command(ref command) if self.link.state == State::active(command.cid()) => {
                self.obey(command)
            }
            _ => None,
        }
    }

    fn is_declared(&self, serial: Serial) -> bool {
        self.link.state == State::DECLARED && self.kind.pages()[0][..4] == serial
    }

    fn answer(&self) -> Said {
        let pages = self.kind.pages();
        let mut memory = [0; 8];
        memory[..4].copy_from_slice(&pages[0][..4]);
        memory[4..].copy_from_slice(&pages[1][..4]);
        Said::Answer(memory)
    }

    fn obey(&mut self, command: &Command) -> Option<Said> {
        let head = command.head;
        let outcome = if command.op == Op::Deselect {
            self.link.state = State::HALTED;
            Ok(Done::Acknowledged)
        } else {
            self.kind.obey(command)?
        };
        Some(match outcome {
            Ok(Done::Read(page)) => Said::Page {
                head,
                number: command.page(),
                page,
            },
            Ok(Done::Acknowledged) => Said::Status { head, status: 0x00 },
            Err(nack) => Said::Status {
                head,
                status: nack as u8,
            },
        })
    }
}
