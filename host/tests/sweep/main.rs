//! The run over columns and the command `sweep`, held to the witness (`cedarlash::paper`) and to what 01 writes down.

mod api;
mod batches;
mod calls;
mod command;
mod example;
mod files;
mod listing;
#[path = "../../src/bin/differential/make.rs"]
mod make;
#[path = "../../src/bin/differential/rng.rs"]
mod rng;
// The calls themselves, for what their memory holds afterwards.
#[allow(dead_code, unused_imports)]
#[path = "../../src/raw.rs"]
mod raw;

// The names by which `raw` knows them.
use cedarlash::Base;
#[cfg(feature = "library")]
use cedarlash::Listing;
