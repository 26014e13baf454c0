//! Runs steps on the real semaphore and its real requests, and reads the whole state out of them.

use crate::events;
use crate::future::batch_semaphore::reading::RequestReading;
use crate::future::batch_semaphore::{Acquire, BatchSemaphore, Fairness, TryAcquireError};
use crate::observed;
use crate::refusals::refusal;
use crate::runtime::execution::ExecutionState;
use crate::runtime::task::clock::VectorClock;
use crate::runtime::task::TaskId;
use crate::state::{widened, Request, State, Task};
use crate::step::{Act, Answer, Fresh, Outcome, Step, SLOTS};
use std::future::Future;
use std::pin::Pin;
use std::task::{Context, Poll};

pub struct Machine<'a> {
    semaphore: &'a BatchSemaphore,
    slots: [Option<Held<'a>>; SLOTS],
}

/// A request in its slot.
struct Held<'a> {
    acquire: Acquire<'a>,
    /// The Rust remembers no maker; it is the request's task until a Pending poll.
    maker: usize,
}

/// Run `body` on a fresh state that document 01 accepts.
pub fn with_machine<T>(fresh: &Fresh, body: impl FnOnce(&mut Machine<'_>) -> T) -> T {
    assert!(!fresh.is_refused(), "a refused fresh state is never made");
    start_tasks(fresh);
    let fairness = if fresh.strictly_fair {
        Fairness::StrictlyFair
    } else {
        Fairness::Unfair
    };
    let semaphore = match fresh.maker {
        Some(maker) => {
            ExecutionState::run_as(TaskId::from(maker as usize));
            BatchSemaphore::new(fresh.stock as usize, fairness)
        }
        None => BatchSemaphore::const_new(fresh.stock as usize, fairness),
    };
    events::take();
    let result = body(&mut Machine {
        semaphore: &semaphore,
        slots: [const { None }; SLOTS],
    });
    ExecutionState::uninstall();
    result
}

/// The tasks with the clocks given, or task 0 and the others as it spawns them. It spawns threads and futures in
/// turn: the source has a function for each, and the clocks do not differ by that.
fn start_tasks(fresh: &Fresh) {
    let tasks = fresh.tasks as usize;
    if let Some(entries) = &fresh.clocks {
        return ExecutionState::install(entries.chunks(tasks).map(VectorClock::from).collect());
    }
    ExecutionState::install(vec![]);
    let main = ExecutionState::spawn_main_thread();
    ExecutionState::run_as(main);
    for task in 1..tasks {
        match task % 2 {
            1 => ExecutionState::spawn_thread(None),
            _ => ExecutionState::spawn_future(),
        };
    }
}

impl Machine<'_> {
    /// Take a step, or say by which number it is refused; then nothing has happened.
    pub fn step(&mut self, step: &Step) -> Result<Outcome, u8> {
        let before = self.state();
        if let Some(number) = refusal(&before, step) {
            return Err(number);
        }
        let actor = step.actor as usize;
        ExecutionState::run_as(TaskId::from(actor));
        let answer = self.act(actor, step.act);
        let events = events::take();
        let after = self.state();
        Ok(Outcome {
            answer,
            grants: observed::grants(&before, step, &events, &after),
            points: observed::points(&before, step, &events),
        })
    }

    /// Take a step that is accepted, and observe nothing: for the measurement of speed.
    pub fn take(&mut self, step: &Step) -> Answer {
        let actor = step.actor as usize;
        ExecutionState::run_as(TaskId::from(actor));
        self.act(actor, step.act)
    }

    fn act(&mut self, actor: usize, act: Act) -> Answer {
        let semaphore = self.semaphore;
        match act {
            Act::Request { asked } => return self.keep(actor, semaphore.acquire(asked as usize)),
            Act::Bypassable { asked } => return self.keep(actor, semaphore.acquire_bypassable(asked as usize)),
            Act::Reserving { least, asked } => {
                return self.keep(actor, semaphore.acquire_reserving(least as usize, asked as usize));
            }
            Act::Upgrade { held, wanted } => {
                return self.keep(actor, semaphore.upgrade(held as usize, wanted as usize));
            }
            Act::Poll { slot } => return self.poll(slot as usize),
            Act::Try { asked } => return answer_of_try(semaphore.try_acquire(asked as usize)),
            Act::TryUpgrade { held, wanted } => {
                return answer_of_try(semaphore.try_upgrade(held as usize, wanted as usize));
            }
            Act::Release { count } => semaphore.release(count as usize),
            Act::Drop { slot } => drop(self.slots[slot as usize].take()),
            Act::Close => semaphore.close(),
            Act::Sleep => ExecutionState::with(|state| state.current_mut().sleep_unless_woken()),
            Act::Finish => ExecutionState::with(|state| state.finish_current_task()),
        }
        Answer::Done
    }

    fn poll(&mut self, slot: usize) -> Answer {
        let held = self.slots[slot].as_mut().expect("a polled slot is in use");
        let waker = ExecutionState::with(|state| state.current().waker());
        match Pin::new(&mut held.acquire).poll(&mut Context::from_waker(&waker)) {
            Poll::Pending => Answer::Pending,
            Poll::Ready(Ok(())) => Answer::Granted,
            Poll::Ready(Err(_)) => Answer::Closed,
        }
    }

    /// The permits that the semaphore itself says are available.
    pub fn available(&self) -> usize {
        self.semaphore.available_permits()
    }

    /// Whether the semaphore itself says that it is closed.
    pub fn is_closed(&self) -> bool {
        self.semaphore.is_closed()
    }

    pub fn state(&self) -> State {
        let tasks = ExecutionState::with(|state| Task::read_all(state.tasks()));
        let wide = |clock: &VectorClock| widened(clock, tasks.len());
        let batch = |(size, clock): &(usize, VectorClock)| (*size, wide(clock));

        let semaphore = self.semaphore.reading();
        let reading = |slot: &Option<Held<'_>>| slot.as_ref().map(|held| held.acquire.reading());
        let requests: Vec<Option<RequestReading>> = self.slots.iter().map(reading).collect();
        let slot_of = |waiter| {
            let is_it = |request: &Option<RequestReading>| request.as_ref().is_some_and(|r| r.waiter == Some(waiter));
            requests
                .iter()
                .position(is_it)
                .expect("a waiter belongs to a slot in use")
        };
        State {
            strictly_fair: semaphore.strictly_fair,
            closed: semaphore.closed,
            stock: semaphore.stock,
            batches: semaphore.batches.map(|all| all.iter().map(batch).collect()),
            last_acquire: wide(&semaphore.last_acquire),
            queue: semaphore.queue.into_iter().map(slot_of).collect(),
            reserved: semaphore.reservation.map(slot_of),
            slots: self
                .slots
                .iter()
                .zip(&requests)
                .map(|(slot, reading)| Some(Request::read(reading.as_ref()?, slot.as_ref()?.maker, tasks.len())))
                .collect(),
            tasks,
        }
    }
}

impl<'a> Machine<'a> {
    /// A new request takes the lowest free slot.
    fn keep(&mut self, maker: usize, acquire: Acquire<'a>) -> Answer {
        let slot = self.slots.iter().position(Option::is_none).expect("a slot is free");
        self.slots[slot] = Some(Held { acquire, maker });
        Answer::Slot(slot)
    }
}

/// The end of a script is no step: what is left is forgotten, so that no request is dropped.
impl Drop for Machine<'_> {
    fn drop(&mut self) {
        for slot in &mut self.slots {
            std::mem::forget(slot.take());
        }
    }
}

fn answer_of_try(result: Result<(), TryAcquireError>) -> Answer {
    match result {
        Ok(()) => Answer::Granted,
        Err(TryAcquireError::Closed) => Answer::Closed,
        Err(TryAcquireError::NoPermits) => Answer::NoPermits,
    }
}
