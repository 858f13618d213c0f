//! A `ByteTenants`, compared with maps. All its memory, as the allocator counts it, stays within the limit between calls.

mod refusing;

use jeerdurian::tenants::{ByteTenants, TenantError};
use jeerdurian::{ByBytes, LruMap, More, OwnedBytes, UnlimitedCompact};
use refusing::{held, refused};
use std::collections::BTreeMap;

/// Random numbers below a bound.
fn below(state: &mut u64, n: u64) -> u64 {
    *state = state.wrapping_mul(6364136223846793005).wrapping_add(1442695040888963407);
    (*state >> 33) % n
}

fn text(state: &mut u64, n: u64, more: u64) -> String {
    let mut text = format!("{}", below(state, n));
    text.reserve(below(state, more) as usize);
    text
}

#[test]
fn memory_stays_within_the_limit_between_calls() {
    const LIMIT: u64 = 200_000;
    let mut state = 7;
    let base = held();
    let mut bytes: ByteTenants<String, String, String> = ByteTenants::new(LIMIT);
    let (mut most, mut over) = (0, 0);
    for call in 0..300_000 {
        let name = text(&mut state, 40, 30);
        match below(&mut state, 1000) {
            0..20 => {
                let limit = below(&mut state, 20_000);
                over += (bytes.open(name, limit) == Err(TenantError::OverTotal)) as u64;
            }
            20..25 => drop(bytes.close(&name)),
            25..600 => drop(bytes.put(&name, text(&mut state, 200, 50), text(&mut state, 9, 300))),
            600..900 => drop(bytes.get(&name, &text(&mut state, 200, 1)).is_ok()),
            _ => drop(bytes.remove(&name, &text(&mut state, 200, 1))),
        }
        let taken = held() - base;
        assert!(taken <= LIMIT as i64, "call {call}: {taken} bytes");
        most = most.max(taken);
    }
    assert!(over > 100 && most > LIMIT as i64 / 2, "{over} refusals, {most} bytes");
    drop(bytes);
    assert_eq!(held(), base);
}

type Bytes = ByteTenants<String, String, String>;
type Own = LruMap<String, String, ByBytes>;

const SEEDS: [u64; 4] = [1, 2, 3, 4];

/// Copies a text, with its capacity.
fn copy(text: &String) -> String {
    let mut copy = String::with_capacity(text.capacity());
    copy.push_str(text);
    copy
}

/// Makes a call on the tenants and on plain maps, and compares what they return.
fn serve(bytes: &mut Bytes, maps: &mut BTreeMap<String, Own>, state: &mut u64) {
    let (name, key) = (text(state, 9, 30), text(state, 200, 50));
    let own = maps.get_mut(&name);
    let left = bytes.left();
    match (below(state, 1000), own) {
        (0..20, own) => {
            let (limit, owned) = (below(state, 20_000), name.owned_bytes());
            let opened = bytes.open(copy(&name), limit);
            match own {
                Some(_) => assert_eq!(opened, Err(TenantError::AlreadyOpen)),
                None if limit + owned > left => assert_eq!(opened, Err(TenantError::OverTotal)),
                // The limit may not permit the tenant in a larger table, which may have grown nevertheless.
                None => assert!(matches!(opened, Ok(()) | Err(TenantError::Memory))),
            }
            assert!(matches!(opened, Ok(()) | Err(TenantError::Memory)) || bytes.left() == left);
            _ = opened.map(|()| maps.insert(name, LruMap::with_seed(ByBytes::new(limit), SEEDS)));
        }
        (20..25, own) => {
            assert_eq!(bytes.close(&name), own.map(|own| own.len()).ok_or(TenantError::NotOpen));
            let freed = maps.remove_entry(&name).map(|(name, own)| name.owned_bytes() + own.limiter().limit());
            assert_eq!(bytes.left(), left + freed.unwrap_or(0));
        }
        (_, None) => {
            assert_eq!(bytes.put(&name, copy(&key), String::new()), Err(TenantError::NotOpen));
            assert_eq!(bytes.get(&name, &key), Err(TenantError::NotOpen));
            assert_eq!(bytes.peek(&name, &key), Err(TenantError::NotOpen));
            assert_eq!(bytes.remove(&name, &key), Err(TenantError::NotOpen));
        }
        (25..600, Some(own)) => {
            let value = text(state, 9, 300);
            assert_eq!(bytes.put(&name, copy(&key), copy(&value)), Ok(own.insert(key, value)));
        }
        (600..800, Some(own)) => assert_eq!(bytes.get(&name, &key), Ok(own.get(&key).map(|it| &*it))),
        (800..900, Some(own)) => assert_eq!(bytes.peek(&name, &key), Ok(own.peek(&key))),
        (_, Some(own)) => assert_eq!(bytes.remove(&name, &key), Ok(own.remove(&key))),
    }
}

#[test]
fn tenants_are_maps() {
    let hasher = *Own::with_seed(ByBytes::new(0), SEEDS).hasher();
    let (mut state, mut bytes, mut maps) = (7, Bytes::with_hasher(hasher, 100_000), BTreeMap::new());
    for _ in 0..100_000 {
        serve(&mut bytes, &mut maps, &mut state);
        assert_eq!((bytes.len(), bytes.is_empty(), bytes.limit()), (maps.len(), maps.is_empty(), 100_000));
    }
}

/// The table of n tenants is as large as the table of a map of n entries. Calls succeed for any number of tenants.
#[test]
fn many_tenants() {
    const LIMIT: u64 = 1 << 30;
    let mut bytes: ByteTenants<u64, u64, u64> = ByteTenants::new(LIMIT);
    let mut table: LruMap<u64, LruMap<u64, u64, ByBytes>, UnlimitedCompact> = LruMap::new(UnlimitedCompact);
    for n in 0..5000 {
        assert_eq!((bytes.open(n, 1000), bytes.put(&n, 1, n)), (Ok(()), Ok(true)));
        assert!(table.insert(n, LruMap::new(ByBytes::new(0))));
        assert_eq!(bytes.left(), LIMIT - 1000 * (n + 1) - table.memory_usage() as u64);
    }
    assert_eq!(format!("{bytes:?}"), "ByteTenants { len: 5000, .. }");
    assert!((0..5000).all(|n| bytes.get(&n, &1) == Ok(Some(&n)) && bytes.peek(&n, &1) == Ok(Some(&n))));
    assert!((0..4000).all(|n| bytes.remove(&n, &1) == Ok(Some(n)) && bytes.close(&n) == Ok(0)));
    assert!((4000..5000).all(|n| bytes.close(&n) == Ok(1)));
}

#[test]
fn many_entries_of_a_tenant() {
    let base = held();
    let mut bytes: ByteTenants<u64, u64, u64> = ByteTenants::new(1 << 30);
    assert_eq!(bytes.open(1, 1 << 29), Ok(()));
    assert!((0..50_000).all(|n| bytes.put(&1, n, n) == Ok(true)));
    assert!((0..50_000).all(|n| bytes.peek(&1, &n) == Ok(Some(&n))));
    assert!((0..20_000).all(|n| bytes.remove(&1, &n) == Ok(Some(n))));
    assert_eq!(bytes.close(&1), Ok(30_000));
    drop(bytes);
    assert_eq!(held(), base);
}

/// A tenant with the bytes of its name fits exactly what is left.
#[test]
fn a_name_takes_its_bytes() {
    let (mut bytes, name) = (Bytes::new(20_000), "b".repeat(100));
    assert_eq!(bytes.open(String::new(), 100), Ok(()));
    let most = bytes.left() - name.owned_bytes();
    assert_eq!(bytes.open(copy(&name), most + 1), Err(TenantError::OverTotal));
    assert_eq!((bytes.open(name, most), bytes.left()), (Ok(()), 0));
}

/// If a request for memory is refused, the call returns `Memory`, and the tenants stay.
#[test]
fn refused_memory() {
    let mut bytes: ByteTenants<u64, u64, u64> = ByteTenants::new(4000);
    assert_eq!(refused(1, || bytes.open(1, 500)), (Err(TenantError::Memory), true));
    assert_eq!((bytes.len(), bytes.left(), bytes.open(1, 500)), (0, 4000, Ok(())));
    assert_eq!(refused(1, || bytes.put(&1, 7, 2)), (Err(TenantError::Memory), true));
    assert_eq!((bytes.put(&1, 7, 2), bytes.get(&1, &7)), (Ok(true), Ok(Some(&2))));
}
