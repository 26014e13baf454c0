//! Stand-in for Shuttle's `runtime::thread`: a scheduling point is noted, and the same task goes on.
//! Other tasks act in steps of their own (document 01, "What must change shape").

use crate::events::{record, Event, Place};
use crate::runtime::execution::ExecutionState;

/// After `switch` of runtime/thread/continuation.rs, lines 467-477, where `maybe_yield` and `suspend`
/// hand over to the scheduler.
pub fn switch() {
    point(Place::Switch);
}

/// After `switch_if_not_stopping` of runtime/thread/continuation.rs, lines 485-489, which calls
/// `switch`. Kept apart from it, because the drop of a request asks about the two points by itself.
pub fn switch_if_not_stopping() {
    if !ExecutionState::should_stop() {
        point(Place::SwitchIfNotStopping);
    }
}

fn point(place: Place) {
    if cfg!(feature = "unobserved") {
        return;
    }
    let tasks = ExecutionState::with(|state| state.tasks().to_vec());
    record(Event::Point { place, tasks });
}
