pub mod execution;
pub mod task;
pub mod thread;
