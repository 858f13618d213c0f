// Erased from crates/schnellru_tests/src/found.rt: do not edit.
//! Callers that search for an entry once, and then write, promote or remove it.

#[allow(unused_imports)]
use crate::rattle_std::prelude::*;

use crate::erased::schnellru::LruMap;

fn refresh(map: &mut LruMap<String, u64>, text: &str, value: u64) -> bool {
    match map.find_entry(&text) {
        Some(mut entry) => {
            *entry.get_mut() = value;
            entry.promote();
            true
        }
        None => false,
    }
}

fn take_below(map: &mut LruMap<String, u64>, text: &str, least: u64) -> Option<(String, u64)> {
    let mut entry = map.find_entry(&text)?;
    if *entry.get() < least {
        return Some(entry.remove_entry());
    }
    entry.promote();
    None
}

fn put_last(map: &mut LruMap<String, u64>, text: &str, value: u64) -> bool {
    match map.find_entry(&text) {
        Some(mut entry) => {
            entry.demote();
            let place = entry.into_mut();
            *place = value;
            true
        }
        None => false,
    }
}
