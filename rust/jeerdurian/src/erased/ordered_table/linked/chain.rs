// Erased from crates/ordered_table/src/linked/chain.rt: do not edit.
//! `Chain`: a table whose entries have links to their neighbours. A promotion or demotion writes at most four entries.

#[allow(unused_imports)]
use crate::rattle_std::prelude::*;

use crate::erased::group_table::{LinkType, Table};
use crate::erased::ordered_table::linked::Entry;

// A table with links to its newest and its oldest entry. Both links are `MAX` if there are no entries.

pub(crate) struct Chain<K, V, N> {
    pub(crate) table: Table<Entry<K, V, N>>,
    pub(crate) newest: N,
    pub(crate) oldest: N,
}

impl<K, V, N: LinkType> Chain<K, V, N> {
    #[inline]
    pub(crate) fn unlink(&mut self, b: usize) {
        let entry = self.table.get(b);
        let (newer, older) = (entry.newer, entry.older);
        self.close_gap(newer, older, false);
    }

    #[inline]
    pub(crate) fn close_gap(&mut self, newer: N, older: N, last: bool) {
        if last {
            self.set_older(newer, N::MAX);
            self.oldest = newer;
        } else {
            self.set_older(newer, older);
            self.set_newer(older, newer);
        }
    }

    // Returns whether the link leads to a bucket. Compares it with the number of buckets, not with `MAX`, to save an
    // instruction.
    #[inline]
    pub(crate) fn leads(&self, link: N) -> bool {
        self.table.has_bucket(link.into_usize())
    }

    #[inline]
    pub(crate) fn link_newest(&mut self, b: usize) {
        let first = self.newest;
        let link = N::from_usize(b);
        set_links(&mut self.table, b, N::MAX, first);
        write_newer(&mut self.table, first, link);
        self.newest = link;
    }

    pub(crate) fn link_oldest(&mut self, b: usize) {
        let last = self.oldest;
        let link = N::from_usize(b);
        set_links(&mut self.table, b, last, N::MAX);
        write_older(&mut self.table, last, link);
        self.oldest = link;
    }

    // Puts a bucket in front of this chain. The entry in the bucket already has its links: `newer` is `MAX`, and
    // `older` is `first`.
    #[inline]
    pub(crate) fn link_placed(&mut self, b: usize, first: N) {
        let link = N::from_usize(b);
        self.set_newer(first, link);
        self.newest = link;
    }

    #[inline]
    fn set_newer(&mut self, at: N, to: N) {
        if self.leads(at) {
            write_newer(&mut self.table, at, to);
        } else {
            self.oldest = to;
        }
    }

    #[inline]
    fn set_older(&mut self, at: N, to: N) {
        if self.leads(at) {
            write_older(&mut self.table, at, to);
        } else {
            self.newest = to;
        }
    }

    // Rewrites the links of the moved entries, and the two ends. For each old bucket that was full, `links` contains
    // the new bucket.
    pub(crate) fn rewrite(&mut self, links: &[N]) {
        for old in 0..links.len() {
            let moved = (*at!(links, old));
            if !is_max(moved) {
                move_links(&mut self.table, moved.into_usize(), links);
            }
        }
        self.newest = moved_link(links, self.newest);
        self.oldest = moved_link(links, self.oldest);
    }
}

#[inline]
fn write_newer<K, V, N: LinkType>(table: &mut Table<Entry<K, V, N>>, at: N, to: N) {
    table.get_mut(at.into_usize()).newer = to;
}

#[inline]
fn write_older<K, V, N: LinkType>(table: &mut Table<Entry<K, V, N>>, at: N, to: N) {
    table.get_mut(at.into_usize()).older = to;
}

#[inline]
fn set_links<K, V, N: LinkType>(table: &mut Table<Entry<K, V, N>>, b: usize, newer: N, older: N) {
    let entry = table.get_mut(b);
    entry.newer = newer;
    entry.older = older;
}

#[inline]
fn move_links<K, V, N: LinkType>(table: &mut Table<Entry<K, V, N>>, b: usize, links: &[N]) {
    let entry = table.get_mut(b);
    entry.newer = moved_link(links, entry.newer);
    entry.older = moved_link(links, entry.older);
}

#[inline]
fn moved_link<N: LinkType>(links: &[N], link: N) -> N {
    if is_max(link) { link } else { (*at!(links, link.into_usize())) }
}

#[inline]
fn is_max<N: LinkType>(link: N) -> bool {
    link.into_usize() == N::MAX.into_usize()
}
