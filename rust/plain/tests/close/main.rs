//! Request A12: closing a stream that broke off.

#[path = "../common/mod.rs"]
mod common;
mod refused;
mod starts;
mod tail;
mod walk;
