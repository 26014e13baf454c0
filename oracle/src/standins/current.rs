//! Stand-in for Shuttle's `current`, which is not in the text given.

use crate::runtime::execution::ExecutionState;
use crate::runtime::task::clock::VectorClock;

/// The clock of the task that runs. Written from document 01 ("clock of its maker when made", "the
/// actor's clock").
pub fn clock() -> VectorClock {
    ExecutionState::with(|state| state.current().clock.clone())
}
