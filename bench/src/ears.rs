//! How frames reach the tags: all in which the two variants differ.

use crate::crc::{START, fold_bits, fold_table};
use crate::frames::{Frame, read_body};
use crate::replies::Replies;
use crate::tags::{Kind, Tag};

pub trait Ears {
    /// What a row is handed while a frame is on the air.
    type OnAir<'a>;

    /// A byte enters the register of the check bytes.
    fn fold(reg: u16, byte: u8) -> u16;

    /// A frame is put on the air, once for the whole tray.
    fn put_on_air(frame: &[u8]) -> Self::OnAir<'_>;

    /// The tags of a row hear it, each in its place, and what they say joins the replies.
    fn tell_row<K: Kind>(on_air: &Self::OnAir<'_>, row: &mut [Tag<K>], replies: &mut Replies);
}

/// Every tag reads the raw frame for itself, with check bytes worked out bit by bit.
pub struct Bitwise;

impl Ears for Bitwise {
    type OnAir<'a> = &'a [u8];

    fn fold(reg: u16, byte: u8) -> u16 {
        fold_bits(reg, byte)
    }

    fn put_on_air(frame: &[u8]) -> &[u8] {
        frame
    }

    fn tell_row<K: Kind>(on_air: &&[u8], row: &mut [Tag<K>], replies: &mut Replies) {
        for tag in row {
            if let Some(frame) = read_frame::<Bitwise>(on_air) {
                replies.add(tag.hear(&frame));
            }
        }
    }
}

/// A frame is read once, with a table for the check bytes, and the tags are handed what stands in it: all of them a
/// request, and of other frames those in the one state in which they are heard.
pub struct Tabled;

impl Ears for Tabled {
    type OnAir<'a> = Option<Frame<'a>>;

    fn fold(reg: u16, byte: u8) -> u16 {
        fold_table(reg, byte)
    }

    fn put_on_air(frame: &[u8]) -> Option<Frame<'_>> {
        read_frame::<Tabled>(frame)
    }

    fn tell_row<K: Kind>(on_air: &Option<Frame>, row: &mut [Tag<K>], replies: &mut Replies) {
        let Some(frame) = on_air else { return };
        match frame.listeners() {
            Some(state) => {
                for tag in row.iter_mut().filter(|tag| tag.link.state == state) {
                    replies.add(tag.hear(frame));
                }
            }
            None => {
                for tag in row {
                    replies.add(tag.hear(frame));
                }
            }
        }
    }
}

/// The check bytes of a body, in the order in which they are sent.
pub fn check_bytes<E: Ears>(body: &[u8]) -> [u8; 2] {
    let reg = body.iter().fold(START, |reg, &byte| E::fold(reg, byte));
    (!reg).to_le_bytes()
}

/// The body of a sound frame: one with three bytes or more, the last two being the check bytes of the rest.
pub fn sound_body<E: Ears>(frame: &[u8]) -> Option<&[u8]> {
    let (body, check) = frame.split_last_chunk()?;
    (!body.is_empty() && *check == check_bytes::<E>(body)).then_some(body)
}

fn read_frame<E: Ears>(frame: &[u8]) -> Option<Frame<'_>> {
    read_body(sound_body::<E>(frame)?)
}
