//! The pump tag: 32 pages, lock bits, a password and a counter.

use crate::frames::{Command, Op, Page};
use crate::refusal::Refusal;
use crate::tags::{Done, Kind, Nack};

const LOCK_PAGE: usize = 0;
const COUNT_PAGE: usize = 2;
const PASSWORD_PAGE: usize = 3;

const LAST_COUNT: u16 = 0x8000;

#[derive(Default)]
pub struct Pump {
    open: bool,
    pages: [Page; 32],
}

impl Pump {
    /// Sets a page of a tag that is not in use yet.
    pub fn set_page(&mut self, n: usize, page: Page) -> Result<(), Refusal> {
        *self.pages.get_mut(n).ok_or(Refusal::NoSuchPage)? = page;
        if self.is_locked(LOCK_PAGE) {
            return Err(Refusal::ImageLockBits);
        }
        if self.counter() > LAST_COUNT {
            return Err(Refusal::ImageCounter);
        }
        Ok(())
    }

    fn is_locked(&self, page: usize) -> bool {
        self.pages[LOCK_PAGE][4 + page / 8] >> (page % 8) & 1 == 1
    }

    fn counter(&self) -> u16 {
        let [.., low, high] = self.pages[COUNT_PAGE];
        u16::from_le_bytes([low, high])
    }

    fn read(&self, page: usize) -> Result<Done, Nack> {
        match page {
            PASSWORD_PAGE => Err(Nack::Invalid),
            _ if page > PASSWORD_PAGE && !self.open => Err(Nack::NotOpen),
            _ => Ok(Done::Read(self.pages[page])),
        }
    }

    fn write(&mut self, page: usize, data: &Page) -> Result<Done, Nack> {
        self.check_open()?;
        if page == LOCK_PAGE || page == COUNT_PAGE {
            return Err(Nack::Invalid);
        }
        if self.is_locked(page) {
            return Err(Nack::Locked);
        }
        self.pages[page] = *data;
        Ok(Done::Acknowledged)
    }

    /// Sets lock bits, except that of the lock bits' own page.
    fn lock(&mut self, data: &Page) -> Result<Done, Nack> {
        self.check_open()?;
        let page = &mut self.pages[LOCK_PAGE];
        page[4] |= data[4] & !1;
        for i in 5..8 {
            page[i] |= data[i];
        }
        Ok(Done::Acknowledged)
    }

    /// All ones open nothing; a check that fails closes the tag.
    fn check_password(&mut self, data: &Page) -> Result<Done, Nack> {
        self.open = *data != [0xFF; 8] && *data == self.pages[PASSWORD_PAGE];
        self.check_open()?;
        Ok(Done::Acknowledged)
    }

    fn count(&mut self, data: &Page) -> Result<Done, Nack> {
        self.check_open()?;
        if self.is_locked(COUNT_PAGE) {
            return Err(Nack::Locked);
        }
        let counter = self.counter();
        if counter >= LAST_COUNT {
            return Err(Nack::Invalid);
        }
        let (signature, count) = self.pages[COUNT_PAGE].split_at_mut(6);
        signature.copy_from_slice(&data[..6]);
        count.copy_from_slice(&(counter + 1).to_le_bytes());
        Ok(Done::Acknowledged)
    }

    fn check_open(&self) -> Result<(), Nack> {
        if self.open {
            Ok(())
        } else {
            Err(Nack::NotOpen)
        }
    }
}

impl Kind for Pump {
    fn pages(&self) -> &[Page] {
        &self.pages
    }

    fn obey(&mut self, command: &Command) -> Option<Result<Done, Nack>> {
        let page = usize::from(command.page());
        Some(match command.op {
            Op::Read => self.read(page),
            Op::Write => self.write(page, command.data),
            Op::Lock => self.lock(command.data),
            Op::CheckPassword => self.check_password(command.data),
            Op::Count => self.count(command.data),
            Op::Deselect => return None,
        })
    }

    fn lose_power(&mut self) {
        self.open = false;
    }
}
