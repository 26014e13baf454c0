//! The Rust side of the comparison: Shuttle's unchanged `batch_semaphore.rs` and `clock.rs`, run over
//! stand-ins for the rest of the crate and driven by semtrace scripts.

pub mod bench;
pub mod broken;
pub mod compare;
pub mod generator;
pub mod known;
pub mod machine;
pub mod observed;
pub mod printed;
pub mod random;
pub mod refusals;
pub mod rows;
pub mod sample;
pub mod script;
pub mod semtrace;
pub mod situations;
pub mod soak;
pub mod state;
pub mod step;
pub mod tell;

// The stand-ins with the two unchanged files among them, as the build laid them out.
include!(concat!(env!("OUT_DIR"), "/engine_module.rs"));

// The unchanged files name these at the crate's root.
pub use engine::{annotations, backtrace_enabled, current, events, future, runtime, sync_types};

// Never compiled from here: only so that `cargo fmt` finds the stand-ins, which the build copies.
#[cfg(rustfmt)]
#[path = "standins/future/batch_semaphore/reading.rs"]
mod reading;
#[cfg(rustfmt)]
mod standins;

/// The deliberate fault that this build carries, if any. See `faults/`.
pub fn fault() -> Option<&'static str> {
    Some(env!("ORACLE_FAULT_NAME")).filter(|name| !name.is_empty())
}
