// Erased from crates/example_pages/src/trial.rt: do not edit.
//! Crashes of a store.
#[allow(unused_imports)]
use crate::rattle_std::prelude::*;

use crate::programs::example_pages::disk::{CrashFile, Disk, Power};
use crate::programs::example_pages::page::{PAGE, RECORDS, Record};
use crate::programs::example_pages::store::{Sizes, Store, StoreError};
use crate::programs::test_helpers::Random;
use crate::rattle_std::alloc::Global;

/// Sizes so small that the cache evicts, and that the log is full after a few transactions.
const SIZES: Sizes = Sizes { pages: 4, log: 8, cache: 2 };

/// The number of records that the trial changes: three in each page. One of the three lies across two sectors.
const USED: u64 = 12;

fn id_of(n: u64) -> u64 {
    (n / 3).wrapping_mul(RECORDS).wrapping_add((n % 3).wrapping_mul(31))
}

/// A number greater than the number of calls between two crashes.
const CALLS: u64 = 150;

type Files<'a> = (Disk<'a>, Disk<'a>);

#[derive(Clone, Copy, Default)]
pub struct Counts {
    pub crashes: u64,
    pub commits: u64,
    /// The number of interrupted commits that took place. `dropped` counts the interrupted commits that did not take
    /// place.
    pub kept: u64,
    pub dropped: u64,
    pub torn: u64,
    /// The number of crashes after which the recovery failed, a committed record was missing, or only a part of a
    /// transaction was there.
    pub lost: u64,
}

struct Model {
    records: Vec<Record>,
    pending: Vec<(u64, Record)>,
}

impl Model {
    fn commit(&mut self) {
        for (n, shown) in self.records.iter_mut().enumerate() {
            for (id, record) in self.pending.iter() {
                if *id == id_of(n as u64) {
                    *shown = *record;
                }
            }
        }
        self.pending.clear();
    }

    fn begin(&mut self, random: &mut Random) -> Result<(), StoreError> {
        self.pending.clear();
        for _ in 0..=random.below(3) {
            let id = id_of(random.below(USED));
            let record = [(random.next() & 255) as u8; 64];
            self.pending.push((id, record)).map_err(|_| StoreError::Memory)?;
        }
        Ok(())
    }

    fn is_shown(&self, store: &mut Store) -> bool {
        for (n, record) in self.records.iter().enumerate() {
            match store.get(id_of(n as u64)) {
                Ok(found) => {
                    if found != *record {
                        return false;
                    }
                }
                Err(_) => return false,
            }
        }
        true
    }
}

fn open<'a>(alloc: Global, files: Files<'a>) -> Store<'a> {
    Store::new(alloc, files.0, files.1, SIZES)
}

fn work(
    alloc: Global,
    store: &mut Store,
    model: &mut Model,
    random: &mut Random,
    counts: &mut Counts,
) -> Result<(), StoreError> {
    store.recover()?;
    for _ in 0..8u32 {
        model.begin(random)?;
        store.commit(alloc, model.pending.as_slice())?;
        model.commit();
        counts.commits = counts.commits.saturating_add(1);
        if random.below(4) == 0 {
            store.checkpoint()?;
        }
    }
    Ok(())
}

fn crash<'a>(store: Store<'a>, random: &mut Random) -> Files<'a> {
    let (mut pages, mut log) = store.into_files();
    pages.crash(random);
    log.crash(random);
    (pages, log)
}

/// Recovers the store. Compares its records with the committed records. If they differ, adds the interrupted
/// transaction to the committed records, and compares again.
fn check(store: &mut Store, model: &mut Model, counts: &mut Counts) {
    match store.recover() {
        Ok(recovered) => counts.torn = counts.torn.saturating_add(recovered.torn),
        Err(_) => {
            counts.lost = counts.lost.saturating_add(1);
            return;
        }
    }
    if model.is_shown(store) {
        counts.dropped = counts.dropped.saturating_add(!model.pending.is_empty() as u64);
        model.pending.clear();
        return;
    }
    model.commit();
    if model.is_shown(store) {
        counts.kept = counts.kept.saturating_add(1);
    } else {
        counts.lost = counts.lost.saturating_add(1);
    }
}

/// Crashes a store `count` times. Crash n comes after n % `CALLS` calls on the files, or after the last call if there
/// are fewer calls. Half of the time, crashes the store again in the recovery.
pub fn crashes(alloc: Global, count: u64) -> Result<Counts, StoreError> {
    let power = Power::new();
    let mut random = Random::new(1);
    let mut counts = Counts::default();
    let mut model = Model { records: vec![in alloc; [0; 64]; USED as usize]?, pending: Vec::new(alloc) };
    let pages = CrashFile::new(alloc, PAGE * 4, &power)?;
    let log = CrashFile::new(alloc, PAGE * 8, &power)?;
    let mut store = open(alloc, (Disk::Crash(pages), Disk::Crash(log)));
    let _ = store.format();
    for n in 0..count {
        power.set(n % CALLS);
        let _ = store.recover();
        let _ = work(alloc, &mut store, &mut model, &mut random, &mut counts);
        store = open(alloc, crash(store, &mut random));
        if random.below(2) == 0 {
            power.set(random.below(60));
            let _ = store.recover();
            store = open(alloc, crash(store, &mut random));
        }
        power.set(u64::MAX);
        check(&mut store, &mut model, &mut counts);
        counts.crashes = counts.crashes.saturating_add(1);
    }
    let _ = store.into_files();
    Ok(counts)
}
