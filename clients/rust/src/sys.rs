//! The functions of the library, as functions that are safe to call. No other module of the crate has unsafe code.

pub mod cluster;
pub mod script;
