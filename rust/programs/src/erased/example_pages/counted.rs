// Erased from crates/example_pages/src/counted.rt: do not edit.
#[allow(unused_imports)]
use crate::rattle_std::prelude::*;

use crate::erased::lru_caches::BlockDevice;

pub struct Counted<D> {
    device: D,
    writes: u64,
}

impl<D> Counted<D> {
    pub fn new(device: D) -> Counted<D> {
        Counted { device, writes: 0 }
    }

    pub fn writes(&self) -> u64 {
        self.writes
    }

    pub fn into_inner(self) -> D {
        let Counted { device, writes: _ } = self;
        device
    }
}

impl<B, D: BlockDevice<B>> BlockDevice<B> for Counted<D> {
    type Error = D::Error;

    type Seen = D::Seen;

    fn has(&self, n: u64) -> bool {
        self.device.has(n)
    }

    fn is_usable(&self) -> bool {
        self.device.is_usable()
    }

    fn read(&mut self, n: u64) -> Result<B, D::Error> {
        self.device.read(n)
    }

    fn write(&mut self, n: u64, block: &B) -> Result<(), D::Error> {
        self.writes = self.writes.saturating_add(1);
        self.device.write(n, block)
    }

    fn sync(&mut self) -> Result<(), D::Error> {
        self.device.sync()
    }
}
