//! Stand-in for Shuttle's `runtime::execution`: the tasks, and which of them runs.

use crate::runtime::task::clock::VectorClock;
use crate::runtime::task::{Task, TaskId};
use crate::runtime::thread;
use crate::sync_types::{ResourceSignature, ResourceType};
use std::cell::RefCell;
use std::rc::Rc;

thread_local! {
    static INSTALLED: RefCell<Option<Rc<RefCell<ExecutionState>>>> = const { RefCell::new(None) };
}

/// In the place of `scoped_thread_local!` (runtime/execution.rs, lines 31-33), with the same two calls.
struct ScopedState;

static EXECUTION_STATE: ScopedState = ScopedState;

impl ScopedState {
    fn is_set(&self) -> bool {
        INSTALLED.with_borrow(Option::is_some)
    }

    fn with<T>(&self, f: impl FnOnce(&RefCell<ExecutionState>) -> T) -> T {
        let state = INSTALLED.with_borrow(Clone::clone).expect("the state is set");
        f(&state)
    }
}

/// The fields of runtime/execution.rs, lines 446-517, that the functions below touch.
pub struct ExecutionState {
    tasks: Vec<Task>,
    current_task: ScheduledTask,
}

// Taken: runtime/execution.rs 525-531
#[derive(Debug, PartialEq, Eq, Clone, Copy)]
enum ScheduledTask {
    None,         // no task has ever been scheduled
    Some(TaskId), // this task is running
    Stopped,      // the scheduler asked us to stop running
    Finished,     // all tasks have finished running
}

impl ScheduledTask {
    // Taken: runtime/execution.rs 534-539
    fn id(&self) -> Option<TaskId> {
        match self {
            ScheduledTask::Some(tid) => Some(*tid),
            _ => None,
        }
    }
}

// Taken: runtime/execution.rs 774-781
/// Error type for when an `ExecutionState::with` fails
#[derive(Debug, Clone, Copy, Eq, PartialEq, Hash)]
pub enum ExecutionStateBorrowError {
    /// `ExecutionState` is currently not set
    NotSet,
    /// We are trying to borrow `ExecutionState` while it is already borrowed
    AlreadyBorrowed,
}

/// What the driver does in the place of the executor.
impl ExecutionState {
    /// Begin a run with one task for each clock.
    pub fn install(clocks: Vec<VectorClock>) {
        let task = |(id, clock)| Task::new(TaskId(id), clock);
        let state = Self {
            tasks: clocks.into_iter().enumerate().map(task).collect(),
            current_task: ScheduledTask::None,
        };
        INSTALLED.set(Some(Rc::new(RefCell::new(state))));
    }

    pub fn uninstall() {
        INSTALLED.set(None);
    }

    /// From now on `task` is the one that runs.
    pub fn run_as(task: TaskId) {
        Self::with(|state| state.current_task = ScheduledTask::Some(task));
    }

    pub fn tasks(&self) -> &[Task] {
        &self.tasks
    }

    /// Of runtime/execution.rs, lines 2004-2019, the part that concerns the task itself.
    pub fn finish_current_task(&mut self) {
        self.current_mut().finish();
    }
}

impl ExecutionState {
    // Taken: runtime/execution.rs 815-835
    /// Invoke a closure with access to the current execution state. Library code uses this to gain
    /// access to the state of the execution to influence scheduling (e.g. to register a task as
    /// blocked).
    #[inline]
    #[track_caller]
    pub fn with<F, T>(f: F) -> T
    where
        F: FnOnce(&mut ExecutionState) -> T,
    {
        Self::try_with(f).unwrap_or_else(|e| {
            eprintln!("`ExecutionState::try_with` failed with error: {e:?}");
            eprintln!(
                "Backtrace for `with`: {:#?}",
                std::backtrace::Backtrace::force_capture()
            );
            match e {
                ExecutionStateBorrowError::AlreadyBorrowed => panic!("`ExecutionState::with` panicked because `ExecutionState` is already borrowed."),
                ExecutionStateBorrowError::NotSet => panic!("`ExecutionState::with` panicked because `ExecutionState` is not set. Are you accessing a Shuttle primitive outside of a Shuttle test?"),
            }
        })
    }

    // Taken: runtime/execution.rs 837-844
    /// Like `with`, but returns None instead of panicking if there is no current ExecutionState or
    /// if the current ExecutionState is already borrowed.
    #[inline]
    #[track_caller]
    pub fn try_with<F, T>(f: F) -> Result<T, ExecutionStateBorrowError>
    where
        F: FnOnce(&mut ExecutionState) -> T,
    {
        // Left out: the tracing of lines 845-861.
        // Taken: runtime/execution.rs 862-873
        if EXECUTION_STATE.is_set() {
            EXECUTION_STATE.with(|cell| {
                if let Ok(mut state) = cell.try_borrow_mut() {
                    Ok(f(&mut state))
                } else {
                    Err(ExecutionStateBorrowError::AlreadyBorrowed)
                }
            })
        } else {
            Err(ExecutionStateBorrowError::NotSet)
        }
    }

    // Taken: runtime/execution.rs 875-878
    /// A shortcut to get the current task ID
    pub fn me() -> TaskId {
        Self::with(|s| s.current().id())
    }

    /// Of runtime/execution.rs, lines 946-983, what concerns the new task's number and clock.
    pub fn spawn_main_thread() -> TaskId {
        // Taken: runtime/execution.rs 952-952
        let mut clock = VectorClock::new();
        Self::with(|state| {
            // Taken: runtime/execution.rs 956-956
            let task_id = TaskId(state.tasks.len());
            // Taken: runtime/execution.rs 961-961
            clock.extend(task_id); // and extend it with an entry for the new thread
            let task = Task::new(task_id, clock);
            // Taken: runtime/execution.rs 977-979
            state.add_task(task);

            task_id
        })
    }

    /// Of runtime/execution.rs, lines 989-1030, the point, and what concerns the new task's number and clock.
    pub fn spawn_future() -> TaskId {
        // Taken: runtime/execution.rs 998-998
        thread::switch();
        Self::with(|state| {
            // Taken: runtime/execution.rs 1003-1003
            let task_id = TaskId(state.tasks.len());
            // Taken: runtime/execution.rs 1008-1009
            let clock = state.increment_clock_mut(); // Increment the parent's clock
            clock.extend(task_id); // and extend it with an entry for the new task
            let task = Task::new(
                task_id,
                // Taken: runtime/execution.rs 1016-1016
                clock.clone(),
            );
            // Taken: runtime/execution.rs 1024-1026
            state.add_task(task);

            task_id
        })
    }

    /// Of runtime/execution.rs, lines 1034-1076, the point, and what concerns the new task's number and clock.
    pub fn spawn_thread(mut initial_clock: Option<VectorClock>) -> TaskId {
        // Taken: runtime/execution.rs 1041-1041
        thread::switch();
        Self::with(|state| {
            // Taken: runtime/execution.rs 1044-1044
            let task_id = TaskId(state.tasks.len());
            // Taken: runtime/execution.rs 1049-1056
            let clock = if let Some(ref mut clock) = initial_clock {
                clock
            } else {
                // Inherit the clock of the parent thread (which spawned this task)
                state.increment_clock_mut()
            };
            clock.extend(task_id); // and extend it with an entry for the new thread
            let clock = clock.clone();
            let task = Task::new(task_id, clock);
            // Taken: runtime/execution.rs 1070-1072
            state.add_task(task);

            task_id
        })
    }

    // Taken: runtime/execution.rs 1916-1918
    pub fn should_stop() -> bool {
        Self::try_with(|s| s.is_abandoned()).unwrap_or(true)
    }

    /// Of runtime/execution.rs, lines 1921-1929, the case that no teardown is under way.
    fn is_abandoned(&self) -> bool {
        // Taken: runtime/execution.rs 1925-1926
        assert_ne!(self.current_task, ScheduledTask::Finished);
        self.current_task == ScheduledTask::Stopped
    }

    // Taken: runtime/execution.rs 1979-1993
    pub fn current(&self) -> &Task {
        self.get(self.current_task.id().expect("there is no current task"))
    }

    pub fn current_mut(&mut self) -> &mut Task {
        self.get_mut(self.current_task.id().expect("there is no current task"))
    }

    pub fn try_current(&self) -> Option<&Task> {
        self.try_get(self.current_task.id()?)
    }

    pub fn get(&self, id: TaskId) -> &Task {
        self.try_get(id).unwrap()
    }

    /// Of runtime/execution.rs, lines 1995-2001, without the list of live tasks.
    fn add_task(&mut self, task: Task) {
        // Taken: runtime/execution.rs 2000-2000
        self.tasks.push(task);
    }

    // Taken: runtime/execution.rs 2021-2027
    pub fn get_mut(&mut self, id: TaskId) -> &mut Task {
        self.tasks.get_mut(id.0).unwrap()
    }

    pub fn try_get(&self, id: TaskId) -> Option<&Task> {
        self.tasks.get(id.0)
    }

    /// In the place of runtime/execution.rs, lines 2042-2045: signatures decide nothing.
    pub fn new_resource_signature(resource_type: ResourceType) -> ResourceSignature {
        ResourceSignature::new_const(resource_type)
    }

    // Taken: runtime/execution.rs 2065-2084
    /// Increment the current thread's clock entry and update its clock with the one provided.
    pub fn update_clock(&mut self, clock: &VectorClock) {
        let task = self.current_mut();
        task.clock.increment(task.id);
        task.clock.update(clock);
    }

    /// Increment the current thread's clock and return a shared reference to it
    pub fn increment_clock(&mut self) -> &VectorClock {
        let task = self.current_mut();
        task.clock.increment(task.id);
        &task.clock
    }

    /// Increment the current thread's clock and return a mutable reference to it
    pub fn increment_clock_mut(&mut self) -> &mut VectorClock {
        let task = self.current_mut();
        task.clock.increment(task.id);
        &mut task.clock
    }
}
