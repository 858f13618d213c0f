//! The crates of the workspace, erased: written by `python3 rust/erase`.

#[allow(dropping_copy_types, unused, clippy::all)]
pub(crate) mod group_table;
#[cfg(feature = "std")]
#[allow(dropping_copy_types, unused, clippy::all)]
pub(crate) mod lru_caches;
#[allow(dropping_copy_types, unused, clippy::all)]
pub(crate) mod lru_limits;
#[allow(dropping_copy_types, unused, clippy::all)]
pub(crate) mod lru_model;
#[cfg(feature = "std")]
#[allow(dropping_copy_types, unused, clippy::all)]
pub(crate) mod lru_tenants;
#[allow(dropping_copy_types, unused, clippy::all)]
pub(crate) mod lru_theory;
#[cfg(feature = "std")]
#[allow(dropping_copy_types, unused, clippy::all)]
pub(crate) mod lru_trace;
#[allow(dropping_copy_types, unused, clippy::all)]
pub(crate) mod ordered_table;
#[allow(dropping_copy_types, unused, clippy::all)]
pub(crate) mod schnellru;
