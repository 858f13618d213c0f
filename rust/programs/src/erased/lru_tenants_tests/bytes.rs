// Erased from crates/lru_tenants_tests/src/bytes.rt: do not edit.
//! A cache of pages for many hosts.

#[allow(unused_imports)]
use crate::rattle_std::prelude::*;

use crate::erased::lru_tenants::{ByteTenants, TenantError};
use crate::programs::lru_tenants_tests::callers::page_of;
use crate::programs::test_helpers::{all, check};
use crate::rattle_std::test::Fail;

type Pages = ByteTenants<String, String, String>;

/// Returns how many pages were cached already.
fn serve(pages: &mut Pages, host: &str, paths: Vec<String>) -> Result<u64, TenantError> {
    let mut hits = 0u64;
    for path in paths {
        if pages.get(&host, &path)?.is_some() {
            hits = hits.wrapping_add(1);
            continue;
        }
        let page = page_of(&path)?;
        pages.put(&host, path, page)?;
    }
    Ok(hits)
}

/// Serves a host. Whatever `serve` returns, the cache takes at most its limit. This covers the table of hosts, and each
/// host's name, table, paths and pages.
fn serve_within(pages: &mut Pages, host: &str, paths: Vec<String>) -> Result<u64, TenantError> {
    let served = serve(pages, host, paths);
    // Shows the prover the clause `within` of `len`.
    let _len = pages.len();
    served
}

#[test]
fn of_pages() {
    let run = |rt: HostRuntime| -> Result<(), Fail> {
        let alloc = rt.alloc();
        let mut pages: Pages = ByteTenants::new(alloc, [1, 2, 3, 4], 8192);
        let paths = vec![in alloc;
            String::from_str(alloc, "/1")?,
            String::from_str(alloc, "/2")?,
        ]?;
        let again = vec![in alloc;
            String::from_str(alloc, "/2")?,
            String::from_str(alloc, "/3")?,
        ]?;
        let held = all!(
            pages.open(String::from_str(alloc, "a")?, 2048) == Ok(()),
            pages.open(String::from_str(alloc, "b")?, 8192) == Err(TenantError::OverTotal),
            serve_within(&mut pages, "a", paths) == Ok(0),
            serve_within(&mut pages, "a", again) == Ok(1)
        );
        check!(rt; held && pages.len() == 1);
        Ok(())
    };
    run(HostRuntime).passes();
}
