// Erased from crates/ordered_table/src/linked/copy.rt: do not edit.
#[allow(unused_imports)]
use crate::rattle_std::prelude::*;

use crate::erased::group_table::LinkType;
use crate::erased::ordered_table::linked::chain::Chain;
use crate::erased::ordered_table::linked::{Entry, LinkedTable};
use crate::rattle_std::alloc::AllocError;

impl<K, V, N: LinkType> LinkedTable<K, V, N> {
    pub(crate) fn copy(&self) -> Result<Self, AllocError>
    where
        K: TryClone,
        V: TryClone,
    {
        let table = self.chain.table.clone_with(|entry| -> Result<Entry<K, V, N>, AllocError> {
            Ok(Entry {
                key: entry.key.try_clone()?,
                value: entry.value.try_clone()?,
                newer: entry.newer,
                older: entry.older,
            })
        })?;
        Ok(LinkedTable { chain: Chain { table, newest: self.chain.newest, oldest: self.chain.oldest } })
    }
}
