// Erased from crates/ordered_table/src/linked/moves.rt: do not edit.
//! Moves all entries of a `LinkedTable` into a table of another size, or rehashes them.

#[allow(unused_imports)]
use crate::rattle_std::prelude::*;

use crate::erased::group_table::{LinkType, Table};
use crate::erased::lru_limits::KeyHasher;
use crate::erased::ordered_table::linked::{Entry, LinkedTable};
use crate::rattle_std::alloc::AllocError;
use crate::rattle_std::hash::{BuildHasher, Hash};

impl<K: Eq + Hash, V, N: LinkType> LinkedTable<K, V, N> {
    pub(crate) fn move_to<S: KeyHasher<K>>(&mut self, buckets: usize, hasher: &S) -> Result<(), AllocError> {
        let links = renumber_entries(&mut self.chain.table, buckets, hasher)?;
        self.chain.rewrite(links.as_slice());
        Ok(())
    }
}

fn renumber_entries<K: Eq + Hash, V, N: LinkType, S: BuildHasher>(
    table: &mut Table<Entry<K, V, N>>,
    buckets: usize,
    hasher: &S,
) -> Result<Vec<N>, AllocError> {
    if buckets == table.buckets() {
        table.rehash(|entry| hasher.hash_by(&entry.key))
    } else {
        table.relocate(buckets, |entry| hasher.hash_by(&entry.key))
    }
}
