// Erased from crates/ordered_table/src/linked/place.rt: do not edit.
#[allow(unused_imports)]
use crate::rattle_std::prelude::*;

use crate::erased::group_table::LinkType;
use crate::erased::ordered_table::linked::{Entry, LinkedTable};

impl<K, V, N: LinkType> LinkedTable<K, V, N> {
    #[inline(always)]
    pub(crate) fn place(&mut self, hash: u64, pair: (K, V)) {
        let first = self.chain.newest;
        let b = self.chain.table.place(hash, newest_entry(pair, first));
        self.chain.link_placed(b, first);
    }

    pub(crate) fn try_place(&mut self, hash: u64, pair: (K, V)) -> Result<(), (K, V)> {
        let first = self.chain.newest;
        match self.chain.table.try_place(hash, newest_entry(pair, first)) {
            Ok(b) => {
                self.chain.link_placed(b, first);
                Ok(())
            }
            Err(entry) => Err((entry.key, entry.value)),
        }
    }
}

#[inline]
fn newest_entry<K, V, N: LinkType>(pair: (K, V), first: N) -> Entry<K, V, N> {
    let (key, value) = pair;
    Entry { key, value, newer: N::MAX, older: first }
}
