//! A pool of tenants, compared with plain lists after each call. The total stays within the limit, and each key is
//! dropped once.

use jeerdurian::tenants::{TenantError, TenantPool};
use std::borrow::Borrow;
use std::cell::Cell;
use std::hash::{Hash, Hasher};

const LIMIT: u64 = 40;

thread_local! {
    /// How many keys live.
    static LIVE: Cell<usize> = const { Cell::new(0) };
}

/// A key that knows whether it lives.
struct Key(Box<u64>);

impl Key {
    fn new(number: u64) -> Self {
        LIVE.set(LIVE.get() + 1);
        Key(Box::new(number))
    }
}

impl Drop for Key {
    fn drop(&mut self) {
        LIVE.set(LIVE.get() - 1);
    }
}

impl PartialEq for Key {
    fn eq(&self, other: &Self) -> bool {
        self.0 == other.0
    }
}

impl Eq for Key {}

impl Hash for Key {
    fn hash<H: Hasher>(&self, state: &mut H) {
        self.0.hash(state);
    }
}

impl Borrow<u64> for Key {
    fn borrow(&self) -> &u64 {
        &self.0
    }
}

type Pool = TenantPool<u64, Key, u64>;

/// A tenant: its name, its share, and its keys with their costs, newest first.
struct Tenant(u64, u64, Vec<(u64, u64)>);

impl Tenant {
    fn cost(&self) -> u64 {
        self.2.iter().map(|entry| entry.1).sum()
    }

    fn excess(&self) -> u64 {
        self.cost().saturating_sub(self.1)
    }
}

fn find(tenants: &mut [Tenant], name: u64) -> Option<&mut Tenant> {
    tenants.iter_mut().find(|tenant| tenant.0 == name)
}

/// Evicts from the lists as the pool did. In a tie, tries each tenant that lost its oldest entry. Returns whether the
/// lists then equal the pool.
fn settles(tenants: &mut [Tenant], pool: &Pool) -> bool {
    if tenants.iter().map(Tenant::cost).sum::<u64>() <= LIMIT {
        return tenants.iter().all(|tenant| pool.cost(&tenant.0) == Ok(tenant.cost()))
            && LIVE.get() == tenants.iter().map(|tenant| tenant.2.len()).sum::<usize>();
    }
    let most = tenants.iter().map(Tenant::excess).max().unwrap();
    for at in 0..tenants.len() {
        let Tenant(name, _, list) = &tenants[at];
        let is_gone = list.last().is_some_and(|oldest| pool.contains(name, &oldest.0) == Ok(false));
        if tenants[at].excess() == most && is_gone {
            let oldest = tenants[at].2.pop().unwrap();
            if settles(tenants, pool) {
                return true;
            }
            tenants[at].2.push(oldest);
        }
    }
    false
}

fn put(tenants: &mut [Tenant], pool: &mut Pool, name: u64, key: u64, cost: u64) {
    let kept = pool.put(&name, Key::new(key), cost);
    let Some(tenant) = find(tenants, name) else {
        assert_eq!(kept, Err(TenantError::NotOpen));
        return;
    };
    tenant.2.retain(|entry| entry.0 != key);
    if cost <= LIMIT {
        tenant.2.insert(0, (key, cost));
        while tenant.cost() > LIMIT {
            tenant.2.pop();
        }
    }
    assert!(settles(tenants, pool));
    let there = find(tenants, name).is_some_and(|tenant| tenant.2.iter().any(|entry| entry.0 == key));
    assert_eq!(kept, Ok(there));
}

/// Each call on a tenant that is not open returns `NotOpen`.
fn is_not_open(pool: &mut Pool, name: u64, n: u64) {
    let no = TenantError::NotOpen;
    assert_eq!(pool.get(&name, &n), Err(no));
    assert_eq!((pool.peek(&name, &n), pool.contains(&name, &n)), (Err(no), Err(no)));
    assert_eq!((pool.cost(&name), pool.share(&name), pool.remove(&name, &n)), (Err(no), Err(no), Err(no)));
}

fn call(tenants: &mut Vec<Tenant>, pool: &mut Pool, kind: u64, name: u64, n: u64) {
    match kind {
        0 => {
            let shares: u64 = tenants.iter().map(|tenant| tenant.1).sum();
            let opened = pool.open(name, n % 16);
            match find(tenants, name) {
                Some(_) => assert_eq!(opened, Err(TenantError::AlreadyOpen)),
                None if shares + n % 16 > LIMIT => assert_eq!(opened, Err(TenantError::OverTotal)),
                None => {
                    assert_eq!(opened, Ok(()));
                    tenants.push(Tenant(name, n % 16, Vec::new()));
                }
            }
        }
        1 if n < 4 => {
            let len = find(tenants, name).map(|tenant| tenant.2.len()).ok_or(TenantError::NotOpen);
            assert_eq!(pool.close(&name), len);
            tenants.retain(|tenant| tenant.0 != name);
        }
        2..=4 => {
            if let Some(Tenant(_, _, list)) = find(tenants, name) {
                let at = list.iter().position(|entry| entry.0 == n);
                assert_eq!(pool.get(&name, &n), Ok(at.map(|at| &list[at].1)));
                if let Some(at) = at {
                    list[..=at].rotate_right(1);
                }
            }
        }
        5 => {
            if let Some(Tenant(_, _, list)) = find(tenants, name) {
                let at = list.iter().position(|entry| entry.0 == n);
                assert_eq!(pool.remove(&name, &n), Ok(at.map(|at| list.remove(at).1)));
            }
        }
        _ => put(tenants, pool, name, n, (n * 7 + kind) % 13 * (1 + n / 29 * 4)),
    }
}

/// The next random number below `n` of a generator.
fn next(state: &mut u64, n: u64) -> u64 {
    *state = state.wrapping_mul(6364136223846793005).wrapping_add(1442695040888963407);
    (*state >> 33) % n
}

#[test]
fn pools_are_lists() {
    let (mut state, mut pool, mut tenants) = (1, Pool::new(LIMIT), Vec::new());
    for _ in 0..100_000 {
        let (kind, name, n) = (next(&mut state, 12), next(&mut state, 5), next(&mut state, 30));
        if find(&mut tenants, name).is_none() {
            is_not_open(&mut pool, name, n);
        }
        call(&mut tenants, &mut pool, kind, name, n);
        assert_eq!(LIVE.get(), tenants.iter().map(|tenant| tenant.2.len()).sum::<usize>());
        assert!(pool.total_cost() <= LIMIT.into() && pool.len() == tenants.len());
        for Tenant(name, share, list) in &tenants {
            let cost = list.iter().map(|entry| entry.1).sum();
            assert_eq!((pool.share(name), pool.cost(name)), (Ok(*share), Ok(cost)));
            assert!(list.iter().all(|(key, cost)| pool.peek(name, key) == Ok(Some(cost))));
        }
    }
    drop(pool);
    assert_eq!(LIVE.get(), 0);
}

/// The pool finds the tenant furthest above its share among many, and the total is the sum of the costs.
#[test]
fn pools_of_many_tenants() {
    let mut pool: TenantPool<u64, u64, u64> = TenantPool::new(6000);
    for name in 0..3000 {
        assert_eq!(pool.open(name, if name == 1500 { 0 } else { 2 }), Ok(()));
        (0..2).for_each(|key| assert_eq!(pool.put(&name, key, 1), Ok(true)));
    }
    assert_eq!((pool.put(&7, 2, 1), pool.cost(&1500), pool.contains(&1500, &0)), (Ok(true), Ok(1), Ok(false)));
    assert_eq!(format!("{pool:?}"), "TenantPool { len: 3000, .. }");
    for name in 0..3000 {
        assert_eq!(pool.total_cost(), 6000 - u128::from(name));
        assert_eq!(pool.get(&name, &1), Ok(Some(&1)));
        assert_eq!(pool.peek(&name, &1), Ok(Some(&1)));
        assert_eq!(pool.remove(&name, &1), Ok(Some(1)));
    }
    (0..3000).for_each(|name| assert_eq!(pool.close(&name), Ok(1 + (name == 7) as usize - (name == 1500) as usize)));
    assert_eq!((pool.total_cost(), pool.open(1, 6000)), (0, Ok(())));
}
