//! Stand-in for Shuttle's `runtime::task::waker`, which is not in the text given. Written from
//! document 01 ("waking sets the mark and unblocks a Sleeping task", which is `Task::wake`) and from
//! what the source says of it: a task's waker is just the task's id (runtime/task/mod.rs 630), and
//! waking a finished task's waker is a no-op (future/batch_semaphore.rs 418).

use super::TaskId;
use crate::runtime::execution::ExecutionState;
use std::sync::Arc;
use std::task::{Wake, Waker};

struct TaskWaker(TaskId);

impl Wake for TaskWaker {
    fn wake(self: Arc<Self>) {
        self.wake_by_ref();
    }

    fn wake_by_ref(self: &Arc<Self>) {
        ExecutionState::with(|state| {
            let task = state.get_mut(self.0);
            if !task.finished() {
                task.wake();
            }
        });
    }
}

pub fn make_waker(id: TaskId) -> Waker {
    Waker::from(Arc::new(TaskWaker(id)))
}
