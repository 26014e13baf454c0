//! The whole state, as document 01 lists it: plain data, and how a task and a request are read out of the Rust.

pub use crate::future::batch_semaphore::reading::Kind;
use crate::future::batch_semaphore::reading::RequestReading;
use crate::runtime::task::{self, clock::VectorClock, TaskState};

/// As many entries as there are tasks.
pub type Clock = Vec<u32>;

#[derive(Clone, Debug, PartialEq, Eq)]
pub struct State {
    pub strictly_fair: bool,
    pub closed: bool,
    pub stock: usize,
    /// Size and clock of each batch, or not yet set up.
    pub batches: Option<Vec<(usize, Clock)>>,
    pub last_acquire: Clock,
    /// Slots.
    pub queue: Vec<usize>,
    pub reserved: Option<usize>,
    pub tasks: Vec<Task>,
    pub slots: Vec<Option<Request>>,
}

#[derive(Clone, Debug, PartialEq, Eq)]
pub struct Task {
    pub run: Run,
    pub woken: bool,
    pub clock: Clock,
}

#[derive(Clone, Copy, Debug, PartialEq, Eq)]
pub enum Run {
    Runnable,
    Blocked,
    Sleeping,
    Finished,
}

#[derive(Clone, Debug, PartialEq, Eq)]
pub struct Request {
    pub asked: usize,
    pub least: usize,
    pub kind: Kind,
    pub reserving: bool,
    pub clock: Clock,
    pub task: usize,
    pub queued: bool,
    pub holding: bool,
    pub completed: bool,
    pub polled: bool,
}

impl Task {
    /// The tasks as the stand-ins have them.
    pub fn read_all(tasks: &[task::Task]) -> Vec<Self> {
        tasks.iter().map(|task| Self::read(task, tasks.len())).collect()
    }

    fn read(task: &task::Task, tasks: usize) -> Self {
        Self {
            run: match task.state() {
                TaskState::Runnable => Run::Runnable,
                TaskState::Blocked { .. } => Run::Blocked,
                TaskState::Sleeping => Run::Sleeping,
                TaskState::Finished => Run::Finished,
            },
            woken: task.woken(),
            clock: widened(&task.clock, tasks),
        }
    }
}

impl Request {
    /// A request as the Rust has it, with its maker, whom the Rust forgets, among so many tasks.
    pub fn read(reading: &RequestReading, maker: usize, tasks: usize) -> Self {
        Self {
            asked: reading.asked,
            least: reading.least,
            kind: reading.kind,
            reserving: reading.reserving,
            clock: widened(&reading.clock, tasks),
            task: reading.waiting_task.map_or(maker, usize::from),
            queued: reading.queued,
            holding: reading.holding,
            completed: reading.completed,
            polled: reading.polled,
        }
    }
}

/// The Rust's clocks grow when they meet longer ones, and a spawned task's starts with the entries up to its own;
/// the rules' are all as wide as there are tasks.
pub fn widened(clock: &VectorClock, tasks: usize) -> Clock {
    assert!(
        clock.len() <= tasks,
        "no clock has an entry for a task that is not there"
    );
    let mut entries = clock.to_vec();
    entries.resize(tasks, 0);
    entries
}

impl State {
    /// The request in a slot in use.
    pub fn request(&self, slot: usize) -> &Request {
        self.slots[slot].as_ref().expect("the slot is in use")
    }

    pub fn in_use(&self, slot: u32) -> Option<&Request> {
        self.slots.get(slot as usize)?.as_ref()
    }

    pub fn finished(&self, task: usize) -> bool {
        self.tasks[task].run == Run::Finished
    }

    pub fn runnable(&self, task: usize) -> bool {
        self.tasks[task].run == Run::Runnable
    }

    pub fn available(&self) -> usize {
        if self.reserved.is_some() {
            0
        } else {
            self.stock
        }
    }
}
