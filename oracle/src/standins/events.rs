//! What the source told the stand-ins during a step, in order.

use crate::runtime::task::{Task, TaskId};
use std::cell::RefCell;

#[derive(Clone, Debug)]
pub enum Event {
    /// A scheduling point, with the tasks as they stood when it came.
    Point {
        place: Place,
        tasks: Vec<Task>,
    },
    Closed,
    Released {
        count: usize,
    },
    TookAtOnce {
        count: usize,
    },
    TookAfterWaiting {
        task: TaskId,
        count: usize,
    },
    Waits {
        count: usize,
    },
    Tried {
        count: usize,
        success: bool,
    },
}

/// Which of the two calls brought a scheduling point.
#[derive(Clone, Copy, Debug, PartialEq, Eq)]
pub enum Place {
    /// `thread::switch`
    Switch,
    /// `thread::switch_if_not_stopping`, which only the drop of a request uses
    SwitchIfNotStopping,
}

thread_local! {
    static EVENTS: RefCell<Vec<Event>> = const { RefCell::new(Vec::new()) };
}

/// Under the feature `unobserved` nobody listens, as where the source's speed is measured.
pub fn record(event: Event) {
    if cfg!(feature = "unobserved") {
        return;
    }
    EVENTS.with(|events| events.borrow_mut().push(event));
}

/// The events since the last call.
pub fn take() -> Vec<Event> {
    EVENTS.with(RefCell::take)
}
