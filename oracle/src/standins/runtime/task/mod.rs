//! Stand-in for Shuttle's `runtime::task`: of a task, what document 01 takes over.

use crate::backtrace_enabled;
use crate::runtime::task::clock::VectorClock;
use std::backtrace::Backtrace;
use std::fmt::Debug;
use std::task::Waker;

#[rustfmt::skip] // laid here by the build
#[allow(clippy::new_without_default)] // the text is not ours to change
pub mod clock;
pub mod waker;
use waker::make_waker;

// Taken: runtime/task/mod.rs 52-52
pub const DEFAULT_INLINE_TASKS: usize = 16;

/// The fields of runtime/task/mod.rs, lines 321-380, that the functions below touch.
#[derive(Debug)]
pub struct Task {
    pub(super) id: TaskId,
    pub(super) state: TaskState,
    pub park_state: ParkState,
    /// The task's future; none of the tasks here runs one.
    pub future: Option<()>,
    pub clock: VectorClock,
    woken: bool,
    pub backtrace: Option<Backtrace>,
}

impl Task {
    /// As in `Task::new`, runtime/task/mod.rs, lines 412-432: Runnable and not woken.
    pub(super) fn new(id: TaskId, clock: VectorClock) -> Self {
        // Taken: runtime/task/mod.rs 398-399
        #[cfg(all(any(test, feature = "vector-clocks"), not(feature = "bench-no-vector-clocks")))]
        assert!(id.0 < clock.time.len());
        Self {
            id,
            state: TaskState::Runnable,
            park_state: ParkState::default(),
            future: None,
            clock,
            woken: false,
            backtrace: None,
        }
    }

    /// For the oracle's reading of the state.
    pub fn state(&self) -> TaskState {
        self.state
    }

    /// For the oracle's reading of the state.
    pub fn woken(&self) -> bool {
        self.woken
    }

    // Taken: runtime/task/mod.rs 580-583
    /// Returns the identifier of this task.
    pub fn id(&self) -> TaskId {
        self.id
    }

    // Taken: runtime/task/mod.rs 609-611
    pub fn finished(&self) -> bool {
        self.state == TaskState::Finished
    }

    // Taken: runtime/task/mod.rs 629-664
    pub fn waker(&self) -> Waker {
        // A task's waker is just the task's id (see `make_waker`), so there's nothing to keep.
        make_waker(self.id)
    }

    /// Block the current thread. If `allow_spurious_wakeups` is true, then the scheduler is
    /// permitted to spuriously wake up the thread (though it will still not count as a live thread
    /// for deadlock detection purposes for as long as it remains blocked).
    pub fn block(&mut self, allow_spurious_wakeups: bool) {
        self.backtrace = if backtrace_enabled() {
            Some(Backtrace::force_capture())
        } else {
            None
        };

        assert!(self.state != TaskState::Finished);
        self.state = TaskState::Blocked { allow_spurious_wakeups };
    }

    pub fn sleep(&mut self) {
        assert!(self.state != TaskState::Finished);
        self.state = TaskState::Sleeping;
    }

    pub fn unblock(&mut self) {
        // Note we don't assert the task is blocked here. For example, a task invoking its own waker
        // will not be blocked when this is called.
        assert!(self.state != TaskState::Finished);
        self.state = TaskState::Runnable;

        // When a task gets unblocked, it's definitely no longer blocked in a call to `park`. This
        // is necessary to do here because a parked task could be spuriously woken up outside of the
        // `unpark` path. If it later becomes blocked by something else, we don't want a later
        // `unpark` to be able to unblock the task.
        self.park_state.blocked_in_park = false;
    }

    // Taken: runtime/task/mod.rs 666-671
    pub fn finish(&mut self) {
        assert!(self.state != TaskState::Finished);
        self.state = TaskState::Finished;
        // Only an unfinished task is ever torn down (see `FutureSlot`).
        self.future = None;
    }

    // Taken: runtime/task/mod.rs 688-707
    /// Potentially put this task to sleep after it was polled by the executor, unless someone has
    /// called its waker first.
    ///
    /// A synchronous Task should never call this, because we want threads to be enabled-by-default
    /// to avoid bugs where Shuttle incorrectly omits a potential execution.
    pub fn sleep_unless_woken(&mut self) {
        let was_woken = std::mem::replace(&mut self.woken, false);
        if !was_woken {
            self.sleep();
        }
    }

    /// Remember that our waker has been called, and so we should not block the next time the
    /// executor tries to put us to sleep.
    pub(super) fn wake(&mut self) {
        self.woken = true;
        if self.state == TaskState::Sleeping {
            self.unblock();
        }
    }
}

/// A copy for the record of a scheduling point; a backtrace cannot be copied, and there is none.
impl Clone for Task {
    fn clone(&self) -> Self {
        let mut copy = Self::new(self.id, self.clock.clone());
        (copy.state, copy.woken) = (self.state, self.woken);
        copy
    }
}

// Taken: runtime/task/mod.rs 865-875
#[derive(PartialEq, Eq, Clone, Copy, Debug)]
pub enum TaskState {
    /// Available to be scheduled
    Runnable,
    /// Blocked in a synchronization operation
    Blocked { allow_spurious_wakeups: bool },
    /// A `Future` that returned `Pending` is waiting to be woken up
    Sleeping,
    /// Task has finished
    Finished,
}

/// The one field of runtime/task/mod.rs, lines 878-891, that `unblock` writes. Parking is left out.
#[derive(PartialEq, Eq, Clone, Copy, Debug, Default)]
pub struct ParkState {
    pub blocked_in_park: bool,
}

// Taken: runtime/task/mod.rs 893-896
/// A `TaskId` is a unique identifier for a task. `TaskId`s are never reused within a single
/// execution.
#[derive(PartialEq, Eq, Hash, Clone, Copy, PartialOrd, Ord)]
pub struct TaskId(pub(super) usize);

/// Without the labels of runtime/task/mod.rs, lines 898-907.
impl Debug for TaskId {
    fn fmt(&self, f: &mut std::fmt::Formatter<'_>) -> std::fmt::Result {
        f.debug_tuple("TaskId").field(&self.0).finish()
    }
}

// Taken: runtime/task/mod.rs 915-925
impl From<usize> for TaskId {
    fn from(id: usize) -> Self {
        TaskId(id)
    }
}

impl From<TaskId> for usize {
    fn from(tid: TaskId) -> usize {
        tid.0
    }
}
