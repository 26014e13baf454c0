//! What a semaphore and its requests hold, read from their private fields and changing nothing. The
//! build compiles this as a module inside `batch_semaphore`, after that file's unchanged text.

use super::{Acquire, BatchSemaphore, Fairness, Priority, Waiter};
use crate::runtime::task::{clock::VectorClock, TaskId};
use std::sync::Arc;

/// Tells waiters apart: the queue and the reservation name a request by its waiter.
#[derive(Clone, Copy, Debug, PartialEq, Eq)]
pub struct WaiterIdentity(*const Waiter);

#[derive(Clone, Copy, Debug, PartialEq, Eq)]
pub enum Kind {
    Back,
    Bypassable,
    Front,
}

pub struct SemaphoreReading {
    pub strictly_fair: bool,
    pub closed: bool,
    pub stock: usize,
    pub batches: Option<Vec<(usize, VectorClock)>>,
    pub last_acquire: VectorClock,
    pub queue: Vec<WaiterIdentity>,
    pub reservation: Option<WaiterIdentity>,
}

pub struct RequestReading {
    pub asked: usize,
    pub least: usize,
    pub kind: Kind,
    pub reserving: bool,
    pub clock: VectorClock,
    /// The task of the last Pending poll.
    pub waiting_task: Option<TaskId>,
    pub queued: bool,
    pub holding: bool,
    pub completed: bool,
    pub polled: bool,
    pub waiter: Option<WaiterIdentity>,
}

impl BatchSemaphore {
    pub fn reading(&self) -> SemaphoreReading {
        let state = self.state.borrow();
        let permits = &state.permits_available;
        SemaphoreReading {
            strictly_fair: self.fairness == Fairness::StrictlyFair,
            closed: state.closed,
            stock: permits.num_available,
            batches: permits.permit_clocks.as_ref().map(|all| all.iter().cloned().collect()),
            last_acquire: permits.last_acquire.clone(),
            queue: state.waiters.iter().map(identity).collect(),
            reservation: state.reservation.as_ref().map(identity),
        }
    }
}

impl Acquire<'_> {
    pub fn reading(&self) -> RequestReading {
        if let Some(waiter) = &self.waiter {
            self.assert_same(waiter);
        }
        RequestReading {
            asked: self.num_permits,
            least: self.min_permits(),
            kind: match self.priority {
                Priority::Back => Kind::Back,
                Priority::Bypassable => Kind::Bypassable,
                Priority::Front => Kind::Front,
            },
            reserving: self.reserve_at.is_some(),
            clock: self.clock.clone(),
            waiting_task: self.waiter.as_ref().map(|waiter| waiter.task_id()),
            queued: self.is_queued(),
            holding: self.has_permits(),
            completed: self.completed,
            polled: !self.never_polled,
            waiter: self.waiter.as_ref().map(identity),
        }
    }

    /// A request that waits has its numbers twice, here and in the part that the queue sees. One
    /// request of the rules stands for both, so they must agree.
    fn assert_same(&self, waiter: &Waiter) {
        assert_eq!(self.num_permits, waiter.num_permits, "asked");
        assert_eq!(self.min_permits(), waiter.min_permits, "least");
        assert_eq!(self.priority, waiter.priority, "kind");
        assert_eq!(self.clock, waiter.clock, "clock of the maker");
    }
}

fn identity(waiter: &Arc<Waiter>) -> WaiterIdentity {
    WaiterIdentity(Arc::as_ptr(waiter))
}
