// Erased from crates/schnellru_tests/src/walks.rt: do not edit.
//! Tests the texts and the numbers of errors, and the debug texts of maps.
#[allow(unused_imports)]
use crate::rattle_std::prelude::*;

use crate::erased::schnellru::{ByCost, GetOrInsertError, LruMap, ReserveError};
use crate::programs::test_helpers::check;
use crate::programs::test_maps::{insert_all, map_of};
use crate::rattle_std::alloc::Global;

type Map = LruMap<u64, u64, ByCost>;

fn is_printed(alloc: Global, map: &Map) -> bool {
    let failed: GetOrInsertError<u8> = GetOrInsertError::Caller(1);
    let memory: GetOrInsertError<u8> = GetOrInsertError::Memory;
    let mut walk = map.iter();
    walk.next();
    let large = ReserveError::TooLarge;
    let refused = ReserveError::Refused;
    match format!(in alloc; "{map:?} {walk:?} {failed}, {memory}; {large}, {refused}") {
        Ok(text) => {
            text.as_str()
                == "LruMap { len: 3, .. } [(2, 20), (1, 10)] the closure failed: 1, out of memory; \
                too large, the limiter refused the larger table"
        }
        Err(_) => false,
    }
}

#[test]
fn texts_and_numbers() {
    let run = |rt: HostRuntime| -> () {
        let mut map = map_of(rt.alloc(), ByCost::new(100));
        let is_filled = insert_all(&mut map, 1..=3).is_ok();
        check!(rt; is_filled & is_printed(rt.alloc(), &map));
        check!(rt; (ReserveError::TooLarge as u8, ReserveError::Refused as u8) == (1, 2));
        check!(rt; ReserveError::Memory as u8 == 3);
    };
    run(HostRuntime).passes();
}
