//! Issue 29: how the lookup comes to its answer.

#[path = "../common/mod.rs"]
mod common;
#[path = "../common/cowd.rs"]
mod cowd;
mod entries;
#[path = "../common/faulty.rs"]
mod faulty;
#[path = "../common/laid.rs"]
mod laid;
mod outside;
#[path = "../common/parts.rs"]
mod parts;
mod refused;
#[path = "../common/versions.rs"]
mod versions;
mod ways;
