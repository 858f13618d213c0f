//! Keys whose `==` and `Hash` return anything, limiters that do anything, callbacks and drops that panic at random, and
//! forgotten iterators: the map stays whole, and nothing is dropped twice or used after its drop. Also a report to a
//! writer that returns wrong counts.

mod common;

use common::{Item, Key, Limit, Map, Seed, Value, any, assert_is_map, told, world};
use jeerdurian::{Limiter, More, trace};

/// Makes a random call.
fn call<P: Default + Clone + 'static, N>(map: &mut Map<P, N>, kind: u64, n: u64)
where
    Limit<N>: for<'a> Limiter<Key<P>, Value<P>, KeyToInsert<'a> = Key<P>>,
{
    match kind {
        0..=29 => _ = map.insert(Item::new(n), Item::new(n)),
        30..=39 => _ = map.get(&Seed(n)).map(|it| it.number += 1),
        40..=44 => _ = map.peek(&Seed(n)),
        45..=54 => _ = map.remove(&Seed(n)),
        55..=62 => _ = map.get_or_insert(Seed(n), || Item::new(n)).map(|it| it.number),
        63..=66 => _ = map.pop_oldest(),
        67..=69 => _ = map.pop_newest(),
        70..=71 => map.iter_mut().for_each(|(_, it)| it.number ^= 1),
        72 => _ = map.drain().nth(3),
        73 => std::mem::forget(map.drain()),
        74 => _ = map.iter_mut().next(),
        75 => lend_all(map),
        76 => map.clear(),
        77 => map.retain(|_, _| any(3) != 1),
        78 => map.retain_with(|_, _| any(3) != 1, |_, _| {}),
        79 => _ = map.insert_full(Item::new(n), Item::new(n), |_, _| {}),
        80 => _ = map.update(Item::new(n), Item::new(n)),
        81 => _ = (map.promote(&Seed(n)), map.demote(&Seed(n + 1))),
        82 => map.limiter_mut().most = n as usize,
        83 => map.trim(),
        84 => _ = map.shrink_to_fit(),
        85 => _ = map.try_reserve(n as usize),
        86 => _ = map.set_limiter(Limit::new(n as usize + 20, usize::MAX)),
        87 => _ = map.clone(),
        88 => *map = map.clone(),
        89 => _ = map.remove_entry(&Seed(n)),
        90 => _ = map.pop_oldest_if(|_, _| any(2) == 1),
        91 => _ = map.find_entry(&Seed(n)).map(|it| it.remove()),
        92 => _ = map.find_entry(&Seed(n)).map(|mut it| (*it.get_mut() = Item::new(n), it.promote(), it.demote())),
        93 => _ = map.find_entry_by_hash(n << 57, |_, _| any(2) == 0).map(|it| it.remove_entry()),
        _ => _ = map.get_index(n as usize),
    }
}

/// Lends all values at once, from both ends, and writes to each.
fn lend_all<P: Default + Clone + 'static, N>(map: &mut Map<P, N>)
where
    Limit<N>: Limiter<Key<P>, Value<P>>,
{
    let mut lent = Vec::new();
    let mut walk = map.iter_mut();
    while let Some(it) = walk.next() {
        lent.push(it);
        lent.extend(walk.next_back());
    }
    lent.iter_mut().for_each(|(key, value)| value.number = key.number);
}

/// Makes, uses and drops a map. Nothing leaks unless a callback panics or something is forgotten.
fn life<P: Default + Clone + 'static, N>(seed: u64, lies: bool, panics: u64)
where
    Limit<N>: for<'a> Limiter<Key<P>, Value<P>, KeyToInsert<'a> = Key<P>>,
{
    world(|it| *it = Default::default());
    let mut next = common::numbers(seed);
    let (most, bytes) = (next(60) as usize, if next(3) == 0 { 3000 } else { usize::MAX });
    let mut map = Map::<P, N>::with_hasher(Limit::new(most, bytes), common::Builder);
    for _ in 0..400 {
        let (kind, n) = (next(100), next(80));
        world(|it| (it.lies, it.panics) = (if lies { seed + kind + n + 1 } else { 0 }, panics));
        if lies && panics > 0 {
            world(|it| it.lies = next(u64::MAX) | 1);
        }
        told(|| call(&mut map, kind, n));
        world(|it| (it.lies, it.panics) = (0, 0));
        assert_is_map(&map);
        if panics == 0 {
            assert_eq!(world(|it| it.live.len()), 2 * map.len(), "seed {seed}, call {kind}");
        }
    }
    drop(map);
    if panics == 0 {
        assert_eq!(world(|it| it.live.len()), 0, "seed {seed}");
    }
}

#[repr(align(64))]
#[derive(Default, Clone)]
struct Wide;

#[repr(align(4096))]
#[derive(Default, Clone)]
struct Page;

#[derive(Clone)]
struct Large(#[allow(dead_code)] [u8; 4096]);

impl Default for Large {
    fn default() -> Self {
        Large([7; 4096])
    }
}

fn lives(lies: bool, panics: u64) {
    std::panic::set_hook(Box::new(|_| {}));
    for seed in 0..60 {
        life::<(), u8>(seed, lies, panics);
        life::<[u8; 3], u16>(seed, lies, panics);
        life::<String, u32>(seed, lies, panics);
        life::<Wide, usize>(seed, lies, panics);
    }
    for seed in 0..6 {
        life::<Page, u8>(seed, lies, panics);
        life::<Large, u32>(seed, lies, panics);
    }
}

#[test]
fn lawful_callbacks() {
    lives(false, 0);
}

#[test]
fn lying_callbacks() {
    lives(true, 0);
}

#[test]
fn panicking_and_lying_callbacks() {
    lives(true, 30);
}

/// A writer that returns more bytes than it got.
struct Boaster;

impl std::io::Write for Boaster {
    fn write(&mut self, bytes: &[u8]) -> std::io::Result<usize> {
        Ok(bytes.len() + 1)
    }

    fn flush(&mut self) -> std::io::Result<()> {
        Ok(())
    }
}

#[test]
fn a_writer_that_says_too_much() {
    assert!(std::panic::catch_unwind(|| trace::report(b"2\na\n".as_slice(), Boaster)).is_err());
}

/// Takes one byte in each second call, and is interrupted in the others.
struct Interrupted(Vec<u8>, bool);

impl std::io::Write for Interrupted {
    fn write(&mut self, bytes: &[u8]) -> std::io::Result<usize> {
        self.1 = !self.1;
        if self.1 {
            return Err(std::io::ErrorKind::Interrupted.into());
        }
        self.0.extend(&bytes[..1]);
        Ok(1)
    }

    fn flush(&mut self) -> std::io::Result<()> {
        Ok(())
    }
}

#[test]
fn an_interrupted_writer_gets_the_whole_report() {
    let sizes: Vec<String> = (0..1000).map(|size| size.to_string()).collect();
    let trace = format!("{}\na\nb\na\n", sizes.join(" "));
    let (mut whole, mut slow) = (Vec::new(), Interrupted(Vec::new(), false));
    trace::report(trace.as_bytes(), &mut whole).unwrap();
    trace::report(trace.as_bytes(), &mut slow).unwrap();
    assert!(whole.len() > 10_000 && slow.0 == whole);
}
