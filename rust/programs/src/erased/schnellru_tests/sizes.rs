// Erased from crates/schnellru_tests/src/sizes.rt: do not edit.
#[allow(unused_imports)]
use crate::rattle_std::prelude::*;

use crate::erased::schnellru::{LruMap, UnlimitedCompact};
use crate::programs::test_helpers::check;

type Page = [u8; 4096];

fn page(n: u8) -> Page {
    [n; 4096]
}

#[test]
fn keys_and_values_of_4_kib() {
    let run = |rt: HostRuntime| -> () {
        let mut map: LruMap<Page, Page, UnlimitedCompact> =
            LruMap::new(rt.alloc(), UnlimitedCompact, [1, 2, 3, 4], 8208);
        for n in 1..=15u8 {
            check!(rt; map.insert(page(n), page(n.wrapping_add(100))) == Ok(true));
        }
    };
    run(HostRuntime).passes();
}
