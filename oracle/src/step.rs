//! The steps of document 01, as a script names them.

/// Document 01's sizes.
pub const MOST_TASKS: usize = 16;
pub const SLOTS: usize = 32;
pub const MOST_BATCHES: usize = 64;
pub const LARGEST: usize = u32::MAX as usize;

/// What a fresh state is given: a script's first line.
#[derive(Clone, Debug, PartialEq, Eq)]
pub struct Fresh {
    pub strictly_fair: bool,
    pub stock: u32,
    /// The task that makes the semaphore by `new`; none for `const_new`.
    pub maker: Option<u32>,
    pub tasks: u32,
    /// The starting clocks row by row; if not given, task 0 spawns the rest.
    pub clocks: Option<Vec<u32>>,
}

impl Fresh {
    /// Refusal 12. No script meets its clause on the clocks: a line with too few or too many is bad.
    pub fn is_refused(&self) -> bool {
        let tasks = self.tasks as usize;
        let clocks_fit = |clocks: &Vec<u32>| clocks.len() == tasks * tasks;
        !(1..=MOST_TASKS).contains(&tasks)
            || !self.clocks.as_ref().is_none_or(clocks_fit)
            || self.maker.is_some_and(|maker| maker >= self.tasks)
    }
}

/// A step and its acting task, with the numbers as they stand in the script.
#[derive(Clone, Copy, Debug, PartialEq, Eq)]
pub struct Step {
    pub actor: u32,
    pub act: Act,
}

#[derive(Clone, Copy, Debug, PartialEq, Eq)]
pub enum Act {
    Request { asked: u32 },
    Bypassable { asked: u32 },
    Reserving { least: u32, asked: u32 },
    Upgrade { held: u32, wanted: u32 },
    Poll { slot: u32 },
    Try { asked: u32 },
    TryUpgrade { held: u32, wanted: u32 },
    Release { count: u32 },
    Drop { slot: u32 },
    Close,
    Sleep,
    Finish,
}

/// What an accepted step gave back.
#[derive(Clone, Debug, PartialEq, Eq)]
pub struct Outcome {
    pub answer: Answer,
    pub grants: Vec<Grant>,
    pub points: Points,
}

#[derive(Clone, Copy, Debug, PartialEq, Eq)]
pub enum Answer {
    Done,
    Granted,
    Pending,
    Closed,
    NoPermits,
    Slot(usize),
}

/// One taking of permits.
#[derive(Clone, Copy, Debug, PartialEq, Eq)]
pub struct Grant {
    pub to: Taker,
    pub count: usize,
    /// The task that joined the batches' clocks.
    pub task: usize,
}

#[derive(Clone, Copy, Debug, PartialEq, Eq)]
pub enum Taker {
    Slot(usize),
    Try,
}

/// Whether scheduling points came.
#[derive(Clone, Copy, Debug, PartialEq, Eq)]
pub enum Points {
    /// The step has no question.
    NotAsked,
    One(bool),
    /// A drop's two questions.
    Two(bool, bool),
}
