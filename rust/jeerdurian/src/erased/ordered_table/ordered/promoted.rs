// Erased from crates/ordered_table/src/ordered/promoted.rt: do not edit.
//! The order of a table with a pending promotion. The bucket `promoted`, if any, counts as the newest, but may still be
//! elsewhere in the links.

#[allow(unused_imports)]
use crate::rattle_std::prelude::*;

use crate::erased::group_table::LinkType;
use crate::erased::ordered_table::linked::LinkedTable;

#[inline]
pub(crate) fn newest<K, V, N: LinkType>(table: &LinkedTable<K, V, N>, promoted: Option<usize>) -> usize {
    match promoted {
        Some(b) => b,
        None => table.newest(),
    }
}

#[inline]
pub(crate) fn oldest<K, V, N: LinkType>(table: &LinkedTable<K, V, N>, promoted: Option<usize>) -> usize {
    let b = table.oldest();
    match promoted {
        // In the links, the promoted bucket is the last, so the bucket before it, if any, is the oldest.
        Some(p) if p == b => {
            if table.newest() == p {
                p
            } else {
                table.newer_unless_first(p)
            }
        }
        _ => b,
    }
}

#[inline]
pub(crate) fn older_unless_last<K, V, N: LinkType>(
    table: &LinkedTable<K, V, N>,
    promoted: Option<usize>,
    b: usize,
) -> usize {
    match promoted {
        None => table.older_unless_last(b),
        Some(p) => {
            let next = if b == p { table.newest() } else { table.older_unless_last(b) };
            if next == p { table.older_unless_last(p) } else { next }
        }
    }
}

#[inline]
pub(crate) fn newer_unless_first<K, V, N: LinkType>(
    table: &LinkedTable<K, V, N>,
    promoted: Option<usize>,
    b: usize,
) -> usize {
    match promoted {
        None => table.newer_unless_first(b),
        Some(p) => {
            if table.newest() == b {
                return p;
            }
            let next = table.newer_unless_first(b);
            if next == p && table.newest() != p { table.newer_unless_first(p) } else { next }
        }
    }
}

#[inline(always)]
pub(crate) fn settle<K, V, N: LinkType>(table: &mut LinkedTable<K, V, N>, promoted: &mut Option<usize>) {
    if let Some(b) = *promoted {
        *promoted = None;
        table.promote(b);
    }
}
