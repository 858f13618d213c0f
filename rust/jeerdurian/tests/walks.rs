//! Tests each iterator from both ends, and its `len`.

use jeerdurian::{LruMap, More, UnlimitedCompact};

/// Returns the `len` and the item of each step. The bits of `turns` say whether a step is from the front or the back.
fn walk<I: ExactSizeIterator + DoubleEndedIterator>(mut it: I, turns: u64) -> Vec<(usize, Option<I::Item>)> {
    let steps = it.len() as u64 + 2;
    (0..steps).map(|n| (it.len(), if turns >> (n % 64) & 1 == 0 { it.next() } else { it.next_back() })).collect()
}

#[test]
fn iterators_are_those_of_a_list() {
    for n in [0, 1, 2, 3, 50, 6000u64] {
        let mut map = LruMap::new(UnlimitedCompact);
        (0..n).for_each(|key| assert!(map.insert(key, key + 1)));
        // The promotion of the newest entry is only noted.
        assert_eq!(map.get(&(n / 2)).is_some(), n > 0);
        let mut list: Vec<(u64, u64)> = map.iter().map(|(key, value)| (*key, *value)).collect();
        for turns in [0, u64::MAX, 0x5555_5555_5555_5555, 0xcccc_cccc_cccc_cccc, 0x1f0_7c3a] {
            assert_eq!(walk(map.iter(), turns), walk(list.iter().map(|it| (&it.0, &it.1)), turns));
            assert_eq!(walk(map.keys(), turns), walk(list.iter().map(|it| &it.0), turns));
            assert_eq!(walk(map.values(), turns), walk(list.iter().map(|it| &it.1), turns));
            assert_eq!(walk(map.iter_mut(), turns), walk(list.iter_mut().map(|it| (&it.0, &mut it.1)), turns));
            assert_eq!(walk(map.clone().drain(), turns), walk(list.clone().into_iter(), turns));
            assert_eq!(walk(map.clone().into_iter(), turns), walk(list.clone().into_iter(), turns));
        }
        for (newer, older) in list.iter().zip(list.iter().skip(1)) {
            assert_eq!(map.peek_older(&newer.0), Some((&older.0, &older.1)));
            assert_eq!(map.peek_newer(&older.0), Some((&newer.0, &newer.1)));
        }
    }
}
