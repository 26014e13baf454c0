//! Refusal 14: what document 01 calls a broken state. No run may reach one, so the oracle holds every
//! state of the Rust against it.

use crate::state::{Request, State};
use crate::step::{MOST_BATCHES, MOST_TASKS, SLOTS};

/// What is broken about a state, if anything is.
pub fn broken(state: &State) -> Option<&'static str> {
    let grounds = [
        ("too many tasks", state.tasks.len() > MOST_TASKS),
        ("the queue is too long", state.queue.len() > SLOTS),
        (
            "too many batches",
            state.batches.as_ref().is_some_and(|all| all.len() > MOST_BATCHES),
        ),
        (
            "the queue names a free slot",
            state.queue.iter().any(|slot| state.slots[*slot].is_none()),
        ),
        ("the queue names a slot twice", has_repeats(&state.queue)),
        ("queued marks differ from the queue", marks_differ(state)),
        (
            "the reservation is free, queued or not reserving",
            bad_reservation(state),
        ),
        (
            "a reserving request that 6 or 7 refuses",
            state.slots.iter().flatten().any(|r| bad_reserving(state, r)),
        ),
        (
            "a queued ask of 0",
            state.slots.iter().flatten().any(|r| r.queued && r.asked == 0),
        ),
        (
            "one that waits holds, has completed or names no task",
            bad_waiting(state),
        ),
        (
            "closed with a queue or reservation",
            state.closed && (!state.queue.is_empty() || state.reserved.is_some()),
        ),
        ("a batch of 0, or batches that do not add up", bad_batches(state)),
    ];
    grounds.into_iter().find(|(_, holds)| *holds).map(|(name, _)| name)
}

fn has_repeats(queue: &[usize]) -> bool {
    (1..queue.len()).any(|i| queue[..i].contains(&queue[i]))
}

fn marks_differ(state: &State) -> bool {
    let marked = |slot: usize| state.slots[slot].as_ref().is_some_and(|request| request.queued);
    (0..SLOTS).any(|slot| marked(slot) != state.queue.contains(&slot))
}

fn bad_reservation(state: &State) -> bool {
    let good = |request: &Request| !request.queued && request.reserving;
    state
        .reserved
        .is_some_and(|slot| !state.slots[slot].as_ref().is_some_and(good))
}

fn bad_reserving(state: &State, request: &Request) -> bool {
    request.reserving && (state.strictly_fair || request.asked == 0 || request.least > request.asked)
}

fn bad_waiting(state: &State) -> bool {
    let waits = |slot: usize, request: &Request| request.queued || state.reserved == Some(slot);
    let bad = |request: &Request| request.holding || request.completed || request.task >= state.tasks.len();
    let slots = state.slots.iter().enumerate();
    slots
        .filter_map(|(slot, request)| Some((slot, request.as_ref()?)))
        .any(|(slot, r)| waits(slot, r) && bad(r))
}

fn bad_batches(state: &State) -> bool {
    state.batches.as_ref().is_some_and(|all| {
        let sum: usize = all.iter().map(|(size, _)| size).sum();
        sum != state.stock || all.iter().any(|(size, _)| *size == 0)
    })
}
