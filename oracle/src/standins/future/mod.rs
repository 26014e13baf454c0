//! Stand-in for Shuttle's `future`, around the unchanged `batch_semaphore.rs`.

#[rustfmt::skip] // laid here by the build
pub mod batch_semaphore;

/// Blocking on a future belongs to parking, which document 01 leaves out; no step gets here.
pub fn block_on<F: std::future::Future>(_future: F) -> F::Output {
    unreachable!("no step blocks on a future")
}
