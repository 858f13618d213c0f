// Erased from crates/example_pages/src/log.rt: do not edit.
//! A log of pages.
#[allow(unused_imports)]
use crate::rattle_std::prelude::*;

use crate::erased::lru_caches::{BlockDevice, FileError, HashedFileDevice};
use crate::programs::example_pages::disk::Disk;
use crate::programs::example_pages::page::{Header, PAGE, Page, header_of};

/// The log begins with the pages of the transactions since the last checkpoint, in order. Pages of earlier transactions
/// may follow.

pub struct Log<'a> {
    device: HashedFileDevice<Disk<'a>, PAGE>,
    next: u64,
}

impl<'a> Log<'a> {
    pub fn new(file: Disk<'a>, len: u64) -> Self {
        Log { device: HashedFileDevice::new(file, len), next: 0 }
    }

    pub fn len(&self) -> u64 {
        self.device.len()
    }

    pub fn has_room_for(&self, pages: usize) -> bool {
        self.next.saturating_add(pages as u64) <= self.device.len()
    }

    /// Goes back to the front of the log. Each old page stays until a new page overwrites it.
    pub fn restart(&mut self) {
        self.next = 0;
    }

    fn write(&mut self, n: u64, page: &Page) -> Result<(), FileError> {
        if !self.device.has(n) || !self.device.is_usable() {
            return Err(FileError::File);
        }
        self.device.write(n, page)
    }

    fn sync(&mut self) -> Result<(), FileError> {
        if !self.device.is_usable() {
            return Err(FileError::File);
        }
        self.device.sync()
    }

    pub fn format(&mut self) -> Result<(), FileError> {
        for n in 0..self.device.len() {
            self.write(n, &[0; PAGE])?;
        }
        self.sync()
    }

    pub fn append(&mut self, pages: &[Page]) -> Result<(), FileError> {
        for page in pages {
            self.write(self.next, page)?;
            self.next = self.next.saturating_add(1);
        }
        self.sync()
    }

    /// Returns a page of the log, or `None` if it is torn.
    pub fn read(&mut self, n: u64) -> Result<Option<Page>, FileError> {
        if !self.device.has(n) || !self.device.is_usable() {
            return Err(FileError::File);
        }
        match self.device.read(n) {
            Ok(page) => Ok(Some(page)),
            Err(FileError::Damaged) => Ok(None),
            Err(error) => Err(error),
        }
    }

    fn header(&mut self, n: u64) -> Result<Option<Header>, FileError> {
        if !self.device.has(n) {
            return Ok(None);
        }
        match self.read(n)? {
            Some(page) => Ok(Some(header_of(&page))),
            None => Ok(None),
        }
    }

    /// Returns the greatest transaction number on the pages of the log.
    pub fn newest(&mut self) -> Result<u64, FileError> {
        let mut newest = 0;
        for n in 0..self.device.len() {
            if let Some(header) = self.header(n)? {
                newest = header.transaction.max(newest);
            }
        }
        Ok(newest)
    }

    /// Returns the number of pages of the whole transaction that begins at page n, if there is one.
    pub fn transaction_at(&mut self, n: u64) -> Result<Option<u64>, FileError> {
        let Some(first) = self.header(n)? else {
            return Ok(None);
        };
        if first.transaction == 0 || first.count > self.device.len() {
            return Ok(None);
        }
        for place in 0..first.count {
            match self.header(n.saturating_add(place))? {
                Some(header) if header.transaction == first.transaction && header.place == place => {}
                _ => return Ok(None),
            }
        }
        Ok(Some(first.count))
    }

    pub fn into_file(self) -> Disk<'a> {
        let Log { device, next: _ } = self;
        device.into_file()
    }
}
