//! The tray: pump tags in front, gauges behind, and the field.

use crate::ears::Ears;
use crate::frames::Page;
use crate::gauge::Gauge;
use crate::pump::Pump;
use crate::refusal::Refusal;
use crate::replies::{Replies, Sound};
use crate::tags::{Kind, Tag};

/// The longest row; the back row's numbers start here.
const ROW: usize = 32;

#[derive(Default)]
pub struct Tray {
    front: Vec<Tag<Pump>>,
    back: Vec<Tag<Gauge>>,
    field: bool,
}

impl Tray {
    pub fn add_pump(&mut self, draw: u16) {
        self.front.push(Tag::new(draw, Pump::default()));
    }

    pub fn add_gauge(&mut self, draw: u16) {
        self.back.push(Tag::new(draw, Gauge::default()));
    }

    pub fn set_page(&mut self, tag: usize, page: usize, bytes: Page) -> Result<(), Refusal> {
        if tag < ROW {
            let tag = self.front.get_mut(tag).ok_or(Refusal::NoSuchPage)?;
            tag.kind.set_page(page, bytes)
        } else {
            let tag = self.back.get_mut(tag - ROW).ok_or(Refusal::NoSuchPage)?;
            tag.kind.set_page(page, bytes)
        }
    }

    /// Asked by every call: rows of 32 tags or fewer?
    pub fn check_rows(&self) -> Result<(), Refusal> {
        if self.front.len() > ROW || self.back.len() > ROW {
            return Err(Refusal::RowTooLong);
        }
        Ok(())
    }

    pub fn set_field(&mut self, on: bool) {
        if on != self.field {
            self.field = on;
            self.front.iter_mut().for_each(|tag| tag.set_field(on));
            self.back.iter_mut().for_each(|tag| tag.set_field(on));
        }
    }

    pub fn set_placed(&mut self, tag: usize, placed: bool) -> Result<(), Refusal> {
        fn set<K: Kind>(
            tag: Option<&mut Tag<K>>,
            placed: bool,
            field: bool,
        ) -> Result<(), Refusal> {
            tag.ok_or(Refusal::NoSuchTag)?.set_placed(placed, field);
            Ok(())
        }
        if tag < ROW {
            set(self.front.get_mut(tag), placed, self.field)
        } else {
            set(self.back.get_mut(tag - ROW), placed, self.field)
        }
    }

    /// Every tag with power hears the frame; the others are off and hear nothing.
    pub fn send<E: Ears>(&mut self, frame: &[u8]) -> Sound {
        let mut replies = Replies::default();
        if self.field {
            let on_air = E::put_on_air(frame);
            E::tell_row(&on_air, &mut self.front, &mut replies);
            E::tell_row(&on_air, &mut self.back, &mut replies);
        }
        replies.sound::<E>()
    }
}
