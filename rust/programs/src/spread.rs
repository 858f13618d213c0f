//! How evenly the hashes of regular keys fall on the groups and the tags of a table.
//!
//! If the hashes were random, the number of keys in each of `places` places would have the mean `keys / places` and the
//! variance `keys * (places - 1) / places / places`. Each number must be at most six standard deviations above the
//! mean.

use crate::erased::lru_limits::RandomState;
use crate::programs::test_helpers::Random;
use crate::rattle_std::hash::{BuildHasher, HashBy, Hasher};

fn is_even(counts: &[u64]) -> bool {
    let (places, keys) = (counts.len() as u64, counts.iter().sum::<u64>());
    counts.iter().all(|count| {
        let above = (count * places).saturating_sub(keys);
        above * above <= keys * (places - 1) * 36
    })
}

fn are_even(state: &RandomState, groups: usize, keys: impl Iterator<Item = u64>) -> bool {
    let (mut by_group, mut by_tag) = (vec![0; groups], [0; 128]);
    for key in keys {
        let hash = state.hash_by(key);
        by_group[hash as usize / 16 % groups] += 1;
        by_tag[(hash >> 57) as usize] += 1;
    }
    is_even(&by_group) && is_even(&by_tag)
}

const STRIDES: [u64; 11] = [1, 3, 10, 24, 128, 1000, 16_384, 1 << 32, 1 << 50, 0x1_0000_0001, 0x9e37_79b9_7f4a_7c15];

/// 14,336 keys are the most that a table of 16,384 buckets holds.
#[test]
fn of_regular_keys() {
    for seeds in [[1, 2, 3, 4], [11, 22, 33, 44]] {
        let state = RandomState::with_seeds(seeds);
        let mut random = Random::new(1);
        assert!(are_even(&state, 1024, (0..14_336).map(|_| random.next())));
        for stride in STRIDES {
            assert!(are_even(&state, 1024, (0..14_336).map(|i: u64| i.wrapping_mul(stride))), "{stride}");
        }
        for base in [0, u64::MAX, 0x0123_4567_89ab_cdef] {
            let turned = (0..64).flat_map(|i| (0..=i).map(move |j| base ^ (1 << i) ^ if i == j { 0 } else { 1 << j }));
            assert!(are_even(&state, 256, std::iter::once(base).chain(turned)), "{base}");
        }
    }
}

/// Zeros of each length up to 20, and other seeds, give distinct hashes.
#[test]
fn of_lengths_and_seeds() {
    let mut hashes: Vec<_> = (0..25usize)
        .map(|n| {
            let mut seeds = [1, 2, 3, 4];
            if n > 20 {
                seeds[n - 21] = 9;
            }
            let mut hasher = RandomState::with_seeds(seeds).build_hasher();
            hasher.write(&[0; 20][..n.min(20)]);
            hasher.finish()
        })
        .collect();
    hashes.sort_unstable();
    hashes.dedup();
    assert_eq!(hashes.len(), 25);
}
