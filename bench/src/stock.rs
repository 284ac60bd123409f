//! Taking stock: which tags are there, found out by frames alone.

use crate::ears::{Ears, sound_body};
use crate::frames::Serial;
use crate::message::Message;
use crate::replies::Sound;
use crate::tray::Tray;

const ROUNDS: usize = 8;

#[derive(Default)]
pub struct Stock {
    pub frames: usize,
    pub rounds: usize,
    /// Clashed slots of the last round.
    pub clashes: usize,
    pub serials: Vec<Serial>,
}

impl Stock {
    /// Up to eight rounds; a round of silent slots is the last.
    pub fn take<E: Ears>(tray: &mut Tray) -> Stock {
        let mut stock = Stock::default();
        while stock.rounds < ROUNDS && stock.take_round::<E>(tray) {}
        stock
    }

    /// One round of sixteen slots; answers whether any tag was heard.
    fn take_round<E: Ears>(&mut self, tray: &mut Tray) -> bool {
        let wake_up = self.rounds == 0;
        self.rounds += 1;
        self.clashes = 0;
        let mut heard = false;
        for slot in 1..=16 {
            heard |= self.take_slot::<E>(tray, slot_frame::<E>(slot, wake_up));
        }
        heard
    }

    /// A tag that answers alone is listed and halted. Answers whether any tag was heard.
    fn take_slot<E: Ears>(&mut self, tray: &mut Tray, frame: Message) -> bool {
        self.frames += 1;
        match tray.send::<E>(frame.as_slice()) {
            Sound::Silence => return false,
            Sound::Clash(_) => self.clashes += 1,
            Sound::Reply(reply) => {
                if let Some(serial) = answering_serial::<E>(reply.as_slice()) {
                    self.frames += 1;
                    tray.send::<E>(halt_frame::<E>(serial).as_slice());
                    if !self.serials.contains(&serial) {
                        self.serials.push(serial);
                    }
                }
            }
        }
        true
    }
}

/// The request for sixteen slots belongs to the first of them, markers to the others.
fn slot_frame<E: Ears>(slot: u8, wake_up: bool) -> Message {
    match (slot, wake_up) {
        (1, true) => Message::sealed::<E, _>([0x05, 0x00, 0x0C]),
        (1, false) => Message::sealed::<E, _>([0x05, 0x00, 0x04]),
        _ => Message::sealed::<E, _>([(slot - 1) << 4 | 5]),
    }
}

fn halt_frame<E: Ears>([s0, s1, s2, s3]: Serial) -> Message {
    Message::sealed::<E, _>([0x50, s0, s1, s2, s3])
}

/// The serial number in a sound answer to a request.
fn answering_serial<E: Ears>(reply: &[u8]) -> Option<Serial> {
    match *sound_body::<E>(reply)? {
        [0x50, s0, s1, s2, s3, _, _, _, _, _, _, _] => Some([s0, s1, s2, s3]),
        _ => None,
    }
}
