// Erased from crates/lru_tenants/src/call.rt: do not edit.
#[allow(unused_imports)]
use crate::rattle_std::prelude::*;

use crate::erased::lru_tenants::error::TenantError;

/// A call that `run_tenants` can carry out.
#[derive(Debug)]
pub enum TenantCall<N, K, V> {
    Open(N, u64),
    Put(N, K, V),
    Get(N, K),
    Cost(N),
    Close(N),
}

/// The answer to a [`TenantCall`].
#[derive(Debug, PartialEq)]
pub enum TenantAnswer<V> {
    Opened(Result<(), TenantError>),
    Put(Result<bool, TenantError>),
    Got(Result<Option<V>, TenantError>),
    Cost(Result<u64, TenantError>),
    Closed(Result<usize, TenantError>),
}
