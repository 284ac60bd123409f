//! A sheet is run, and what it prints.

use crate::ears::Ears;
use crate::refusal::{Refusal, Stop};
use crate::replies::Sound;
use crate::sheet::{Call, Fields, Line};
use crate::stock::Stock;
use crate::text::Text;
use crate::tray::Tray;

const SHEET_MOST: usize = 65536;

/// Runs a sheet. Answers all that it prints, and why it stopped before its end, if it did.
pub fn run_sheet<E: Ears>(sheet: &[u8]) -> (Text, Option<Stop>) {
    let mut run = Run::default();
    let stop = run.lines::<E>(sheet).err();
    if let Some(Stop { line, why }) = stop {
        run.text.numbers(line, b"refused", &[why as usize]);
    }
    (run.text, stop)
}

#[derive(Default)]
struct Run {
    tray: Tray,
    /// A call was made, so that no more tags may be named.
    calling: bool,
    text: Text,
}

impl Run {
    fn lines<E: Ears>(&mut self, sheet: &[u8]) -> Result<(), Stop> {
        if sheet.len() > SHEET_MOST {
            return Err(Stop {
                line: 0,
                why: Refusal::SheetTooLong,
            });
        }
        let mut rest = sheet;
        let mut line = 0;
        while !rest.is_empty() {
            line += 1;
            rest = self
                .first_line::<E>(line, rest)
                .map_err(|why| Stop { line, why })?;
        }
        Ok(())
    }

    /// Does the first line of a text, and answers the rest.
    fn first_line<'a, E: Ears>(
        &mut self,
        number: usize,
        text: &'a [u8],
    ) -> Result<&'a [u8], Refusal> {
        let (line, rest) = Fields::cut_line(text)?;
        match line.read::<E>()? {
            Line::Call(call) => {
                self.calling = true;
                self.tray.check_rows()?;
                self.call::<E>(number, call)?;
            }
            _ if self.calling => return Err(Refusal::TagAfterCall),
            Line::Pump { draw } => self.tray.add_pump(draw),
            Line::Gauge { draw } => self.tray.add_gauge(draw),
            Line::Page { tag, page, bytes } => self.tray.set_page(tag, page, bytes)?,
        }
        Ok(rest)
    }

    fn call<E: Ears>(&mut self, number: usize, call: Call) -> Result<(), Refusal> {
        match call {
            Call::On => self.tray.set_field(true),
            Call::Off => self.tray.set_field(false),
            Call::Place(tag) => self.tray.set_placed(tag, true)?,
            Call::Lift(tag) => self.tray.set_placed(tag, false)?,
            Call::Frame(frame) => {
                let sound = self.tray.send::<E>(frame.as_slice());
                self.print_sound(number, sound);
                return Ok(());
            }
            Call::Stock => {
                let stock = Stock::take::<E>(&mut self.tray);
                self.print_stock(number, &stock);
                return Ok(());
            }
        }
        self.text.numbers(number, b"ok", &[]);
        Ok(())
    }

    fn print_sound(&mut self, number: usize, sound: Sound) {
        match sound {
            Sound::Silence => self.text.numbers(number, b"none", &[]),
            Sound::Reply(reply) => self.text.bytes(number, b"reply", reply.as_slice()),
            Sound::Clash(count) => self.text.numbers(number, b"clash", &[count]),
        }
    }

    fn print_stock(&mut self, number: usize, stock: &Stock) {
        let figures = [stock.frames, stock.rounds, stock.clashes];
        self.text.numbers(number, b"stock", &figures);
        for serial in &stock.serials {
            self.text.bytes(number, b"serial", serial);
        }
    }
}
