//! The counts of tenants and of a page cache, compared with plain counts.

use jeerdurian::ByCost;
use jeerdurian::caches::{Counts, FileDevice, PageCache};
use jeerdurian::tenants::{Counting, TenantCache, TenantError};
use std::collections::BTreeMap;

type Tenants = TenantCache<u64, u64, u64, Counting<ByCost>>;

/// The next random number below `n` of a generator.
fn next(state: &mut u64, n: u64) -> u64 {
    *state = state.wrapping_mul(6364136223846793005).wrapping_add(1442695040888963407);
    (*state >> 33) % n
}

/// A tenant: its budget, its entries, newest first, and its counts.
#[derive(Default)]
struct Plain {
    budget: u64,
    list: Vec<(u64, u64)>,
    counts: Counts,
}

impl Plain {
    fn take(&mut self, key: u64) -> Option<(u64, u64)> {
        let place = self.list.iter().position(|entry| entry.0 == key)?;
        Some(self.list.remove(place))
    }

    fn get(&mut self, key: u64) -> Option<u64> {
        let found = self.take(key);
        self.list.splice(..0, found);
        self.counts.hits += u64::from(found.is_some());
        self.counts.misses += u64::from(found.is_none());
        Some(found?.1)
    }

    fn put(&mut self, key: u64, cost: u64) -> bool {
        self.take(key);
        if cost > self.budget {
            self.counts.rejections += 1;
            return false;
        }
        self.list.insert(0, (key, cost));
        self.counts.insertions += 1;
        while self.list.iter().map(|entry| entry.1).sum::<u64>() > self.budget {
            self.list.pop();
            self.counts.evictions += 1;
        }
        true
    }

    fn get_or_put(&mut self, key: u64, cost: u64) -> Option<u64> {
        let found = self.get(key);
        found.or_else(|| self.put(key, cost).then_some(cost))
    }

    /// Takes out the oldest entries without counting them.
    fn trim(&mut self) {
        while self.list.iter().map(|entry| entry.1).sum::<u64>() > self.budget {
            self.list.pop();
        }
    }
}

/// Makes one call on the cache and on the plain tenants.
fn call(cache: &mut Tenants, tenants: &mut BTreeMap<u64, Plain>, [kind, name, key, cost]: [u64; 4]) {
    let Some(own) = tenants.get_mut(&name) else {
        assert_eq!(cache.get_counted(&name, &key), Err(TenantError::NotOpen));
        assert_eq!(cache.put_counted(&name, key, cost), Err(TenantError::NotOpen));
        assert_eq!(cache.get_or_put_counted(&name, key, || unreachable!()), Err(TenantError::NotOpen));
        assert_eq!([cache.counts(&name), cache.take_counts(&name)], [Err(TenantError::NotOpen); 2]);
        assert_eq!(cache.set_counts(&name, Counts::default()), Err(TenantError::NotOpen));
        assert_eq!(cache.open(name, 60), Ok(()));
        tenants.insert(name, Plain { budget: 60, ..Plain::default() });
        return;
    };
    match kind {
        0..=29 => assert_eq!(cache.get_counted(&name, &key).map(|it| it.copied()), Ok(own.get(key))),
        30..=59 => assert_eq!(cache.put_counted(&name, key, cost), Ok(own.put(key, cost))),
        60..=79 => {
            let (mut made, misses) = (0, own.counts.misses);
            let got = cache.get_or_put_counted(&name, key, || {
                made += 1;
                cost
            });
            assert_eq!(got.map(|it| it.copied()), Ok(own.get_or_put(key, cost)));
            assert_eq!(made, own.counts.misses - misses);
        }
        80..=89 => assert_eq!(cache.remove(&name, &key), Ok(own.take(key).map(|entry| entry.1))),
        90..=92 => assert_eq!(cache.take_counts(&name), Ok(std::mem::take(&mut own.counts))),
        93 => {
            own.counts.misses = u64::MAX - 1;
            assert_eq!(cache.set_counts(&name, own.counts), Ok(()));
            (0..3).for_each(|_| assert_eq!(cache.get_counted(&name, &(key + 100)), Ok(None)));
            own.counts.misses = u64::MAX;
            assert_eq!(cache.take_counts(&name), Ok(std::mem::take(&mut own.counts)));
        }
        94..=95 => {
            own.budget = 30 + cost;
            own.trim();
            assert_eq!(cache.set_budget(&name, own.budget), Ok(()));
        }
        96 => {
            own.list.clear();
            assert_eq!(cache.clear(&name), Ok(()));
        }
        97 => {
            assert_eq!(cache.close(&name), Ok(own.list.len()));
            tenants.remove(&name);
        }
        _ => {
            let counts = own.counts;
            assert_eq!(cache.get(&name, &key).map(|it| it.copied()), Ok(own.get(key)));
            own.counts = counts;
        }
    }
}

#[test]
fn counts_of_tenants_are_plain_counts() {
    let (mut state, mut cache, mut tenants) = (5, Tenants::new(), BTreeMap::new());
    let mut total = 0;
    for _ in 0..100_000 {
        let random = [100, 8, 40, 70].map(|n| next(&mut state, n));
        call(&mut cache, &mut tenants, random);
        assert_eq!(cache.total_budget(), tenants.values().map(|own| u128::from(own.budget)).sum());
        for (name, own) in &tenants {
            assert_eq!(cache.counts(name), Ok(own.counts));
            assert_eq!(cache.entries(name), Ok(own.list.len()));
            total += own.counts.evictions;
        }
    }
    assert!(total > 100_000);
}

/// The counts of many tenants, and of a put that evicts many entries.
#[test]
fn counts_of_many_tenants_and_entries() {
    let mut cache = Tenants::new();
    for name in 0..3000 {
        assert_eq!(cache.open(name, 2), Ok(()));
        (0..name % 5).for_each(|key| assert_eq!(cache.put_counted(&name, key, 1), Ok(true)));
    }
    for name in 0..3000 {
        let counts = Counts { insertions: name % 5, evictions: (name % 5).saturating_sub(2), ..Counts::default() };
        assert_eq!([cache.take_counts(&name), cache.take_counts(&name)], [Ok(counts), Ok(Counts::default())]);
    }
    assert_eq!((cache.total_cost(), cache.total_budget()), (600 * (1 + 2 + 2 + 2), 6000));
    assert_eq!(cache.set_budget(&7, 6000), Ok(()));
    (0..6000).for_each(|key| assert_eq!(cache.put_counted(&7, key, 1), Ok(true)));
    assert_eq!(cache.put_counted(&7, 6000, 5500), Ok(true));
    assert_eq!(cache.counts(&7), Ok(Counts { insertions: 6001, evictions: 5500, ..Counts::default() }));
    assert_eq!(cache.get_counted(&7, &0), Ok(None));
    assert_eq!(cache.get_counted(&7, &5999), Ok(Some(&1)));
    assert_eq!(cache.get_or_put_counted(&7, 5998, || unreachable!()), Ok(Some(&1)));
    assert_eq!(cache.get_or_put_counted(&7, 0, || 300), Ok(Some(&300)));
    let counts = Counts { hits: 2, misses: 2, insertions: 6002, evictions: 5800, ..Counts::default() };
    assert_eq!(cache.counts(&7), Ok(counts));
}

/// Each count stops at the greatest number. Calls that do not count leave the counts unchanged, also if they fail.
#[test]
fn counts_stop() {
    let mut cache = Tenants::new();
    assert_eq!((cache.open(1, 60), cache.set_total_limit(Some(60))), (Ok(()), Ok(())));
    (0..60).for_each(|key| assert_eq!(cache.put(&1, key, 1), Ok(true)));
    let most = u64::MAX;
    let counts = Counts { hits: most, misses: most, insertions: most, rejections: most, evictions: most };
    assert_eq!((cache.set_counts(&1, counts), cache.counts(&1)), (Ok(()), Ok(counts)));
    assert_eq!(cache.get_counted(&1, &0), Ok(Some(&1)));
    assert_eq!(cache.get_counted(&1, &60), Ok(None));
    assert_eq!([cache.put_counted(&1, 60, 1), cache.put_counted(&1, 61, 61)], [Ok(true), Ok(false)]);
    let full = cache.put_full(&1, 61, 61, |_, _| unreachable!()).unwrap();
    assert_eq!((full.kept, full.unkept), (false, Some(61)));
    assert_eq!((cache.set_budget(&1, 61), cache.total_budget()), (Err(TenantError::OverTotal), 60));
    assert_eq!((cache.counts(&1), cache.entries(&1)), (Ok(counts), Ok(60)));
}

/// A closure that panics leaves the tenant and its counts.
#[test]
fn a_closure_that_panics_counts_nothing() {
    let mut cache = Tenants::new();
    assert_eq!((cache.open(1, 60), cache.put_counted(&1, 7, 60)), (Ok(()), Ok(true)));
    let counts = cache.counts(&1);
    let panics = || std::panic::resume_unwind(Box::new(()));
    let call = std::panic::AssertUnwindSafe(|| cache.get_or_put_counted(&1, 8, panics).is_ok());
    assert!(std::panic::catch_unwind(call).is_err());
    assert_eq!((cache.counts(&1), cache.peek(&1, &7)), (counts, Ok(Some(&60))));
}

/// A cache evicted exactly the pages that were read into it and are no longer cached.
#[test]
fn evictions_of_a_page_cache_are_plain_counts() {
    for (capacity, blocks) in [(20, 100), (6000, 20_000)] {
        let file = std::io::Cursor::new(vec![0; 4 * blocks as usize]);
        let (mut state, mut cache) = (5, PageCache::new(FileDevice::<_, 4>::new(file, blocks), capacity));
        for _ in 0..100_000 {
            let (kind, n) = (next(&mut state, 4), next(&mut state, blocks + 1));
            match kind {
                0 => _ = cache.write(n, [7; 4]),
                1 => _ = cache.pin(n).map(|()| cache.unpin(n)),
                _ => _ = cache.read(n),
            }
            assert_eq!(cache.misses(), cache.evictions() + cache.len() as u64);
        }
        assert!(cache.len() == capacity && cache.evictions() > 10_000);
        cache.discard();
    }
}
