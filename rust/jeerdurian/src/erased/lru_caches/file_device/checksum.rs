// Erased from crates/lru_caches/src/file_device/checksum.rt: do not edit.
#[allow(unused_imports)]
use crate::rattle_std::prelude::*;

use crate::erased::lru_caches::file_device::FileError;
use crate::erased::lru_limits::RandomState;
use crate::rattle_std::hash::{BuildHasher, Hasher};

fn put_at_end(block: &mut [u8], number: u64) {
    let at = block.len() - 8;
    (*at_mut!(block, at..)).copy_from_slice(&number.to_le_bytes());
}

fn hash_of(bytes: &[u8]) -> u64 {
    let mut hasher = RandomState::with_seeds([1, 2, 3, 4]).build_hasher();
    hasher.write(bytes);
    hasher.finish()
}

pub(super) fn with_checksum<const N: usize>(block: &[u8; N], n: u64) -> [u8; N] {
    let mut copy = *block;
    put_at_end(&mut copy, n);
    let hash = hash_of(&copy);
    put_at_end(&mut copy, hash);
    copy
}

pub(super) fn checked<const N: usize>(read: Result<[u8; N], FileError>, n: u64) -> Result<[u8; N], FileError> {
    let block = read?;
    if with_checksum(&block, n) == block { Ok(block) } else { Err(FileError::Damaged) }
}
