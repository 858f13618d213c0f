//! The crates of the workspace, erased: written by `python3 rust/erase`.

#[allow(dropping_copy_types, unused, clippy::all)]
pub(crate) mod example_pages;
#[allow(dropping_copy_types, unused, clippy::all)]
pub(crate) mod example_responses;
#[cfg(test)]
#[allow(dropping_copy_types, unused, clippy::all)]
pub(crate) mod group_table_tests;
#[cfg(test)]
#[allow(dropping_copy_types, unused, clippy::all)]
pub(crate) mod lru_caches_tests;
#[cfg(test)]
#[allow(dropping_copy_types, unused, clippy::all)]
pub(crate) mod lru_limits_tests;
#[allow(dropping_copy_types, unused, clippy::all)]
pub(crate) mod lru_replay;
#[cfg(test)]
#[allow(dropping_copy_types, unused, clippy::all)]
pub(crate) mod lru_replay_tests;
#[cfg(test)]
#[allow(dropping_copy_types, unused, clippy::all)]
pub(crate) mod lru_tenants_tests;
#[cfg(test)]
#[allow(dropping_copy_types, unused, clippy::all)]
pub(crate) mod lru_trace_tests;
#[allow(dropping_copy_types, unused, clippy::all)]
pub(crate) mod replay;
#[allow(dropping_copy_types, unused, clippy::all)]
pub(crate) mod rows;
#[cfg(test)]
#[allow(dropping_copy_types, unused, clippy::all)]
pub(crate) mod schnellru_tests;
#[allow(dropping_copy_types, unused, clippy::all)]
pub(crate) mod test_helpers;
#[allow(dropping_copy_types, unused, clippy::all)]
pub(crate) mod test_maps;
#[allow(dropping_copy_types, unused, clippy::all)]
pub(crate) mod trace;
