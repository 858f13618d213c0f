//! Re-exports all of `jeerdurian::hashlink`, so that Cargo.toml can rename this package to `hashlink`.
#![no_std]
pub use jeerdurian::hashlink::*;
