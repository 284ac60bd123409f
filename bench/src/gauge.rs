//! The gauge tag: two pages that anyone may read.

use crate::frames::{Command, Op, Page};
use crate::refusal::Refusal;
use crate::tags::{Done, Kind, Nack};

#[derive(Default)]
pub struct Gauge {
    pages: [Page; 2],
}

impl Gauge {
    /// Sets a page of a tag that is not in use yet.
    pub fn set_page(&mut self, n: usize, page: Page) -> Result<(), Refusal> {
        *self.pages.get_mut(n).ok_or(Refusal::NoSuchPage)? = page;
        if self.pages[0][4..] != [0; 4] {
            return Err(Refusal::ImageLockBits);
        }
        Ok(())
    }
}

impl Kind for Gauge {
    fn pages(&self) -> &[Page] {
        &self.pages
    }

    fn obey(&mut self, command: &Command) -> Option<Result<Done, Nack>> {
        if command.op != Op::Read {
            return None;
        }
        let page = self.pages.get(usize::from(command.page()));
        Some(page.copied().map(Done::Read).ok_or(Nack::Invalid))
    }
}
