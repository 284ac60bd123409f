//! Up to 16 bytes on the air: a frame or a reply.

use crate::ears::{Ears, check_bytes};

#[derive(Clone, Copy)]
pub struct Message {
    bytes: [u8; 16],
    len: usize,
}

impl Message {
    pub fn new(bytes: [u8; 16], len: usize) -> Message {
        Message { bytes, len }
    }

    /// A body of up to 14 bytes, with its check bytes behind it.
    pub fn sealed<E: Ears, const N: usize>(body: [u8; N]) -> Message {
        let mut bytes = [0; 16];
        bytes[..N].copy_from_slice(&body);
        Message::new(bytes, N).seal::<E>()
    }

    /// The same of a body that is a message already.
    pub fn seal<E: Ears>(mut self) -> Message {
        let check = check_bytes::<E>(self.as_slice());
        self.bytes[self.len..][..2].copy_from_slice(&check);
        self.len += 2;
        self
    }

    pub fn as_slice(&self) -> &[u8] {
        &self.bytes[..self.len]
    }
}
