//! Release, scan, wake the unfair and reblock: what becomes of those that wait.

use super::{Happening, Situation};
use crate::state::{Kind, Request, Run};
use crate::step::MOST_BATCHES;

pub const RELEASING: &[Situation] = &[
    ("release: 0", |h| h.did('L') && !h.released()),
    ("release: sets up, stock 0", |h| {
        h.released() && h.before.batches.is_none() && h.before.stock == 0
    }),
    ("release: sets up, stock positive", |h| {
        h.released() && h.before.batches.is_none() && h.before.stock > 0
    }),
    ("release: on a closed semaphore", |h| {
        h.did('L') && h.released() && h.before.closed
    }),
    ("release: the last batch that fits", |h| {
        h.released()
            && h.before
                .batches
                .as_ref()
                .is_some_and(|all| all.len() + 1 == MOST_BATCHES)
    }),
    ("release: reaches the largest stock", |h| {
        h.released() && h.after.stock == u32::MAX as usize
    }),
    ("release: strict, nobody queued", |h| {
        h.released() && h.strict() && h.queue().is_empty()
    }),
    ("release: unfair, nobody queued", |h| {
        h.released() && !h.strict() && h.queue().is_empty()
    }),
];

pub const SCANNING: &[Situation] = &[
    ("scan: grants none", |h| {
        h.scans() && !h.queue().is_empty() && h.grants() == 0
    }),
    ("scan: grants one", |h| h.scans() && h.grants() == 1),
    ("scan: grants several", |h| h.scans() && h.grants() > 1),
    ("scan: passes a bypassable one and grants behind", |h| {
        let granted = |slot: &usize| h.after.slots[*slot].as_ref().is_some_and(|request| request.holding);
        let first = h.queue().iter().position(granted);
        let first_left = h.queue().iter().position(|slot| h.after.queue.contains(slot));
        h.scans() && first_left.is_some_and(|left| first.is_some_and(|granted| left < granted))
    }),
    ("scan: passes bypassable ones to the end", |h| {
        let bypassable = |slot: &usize| h.before.request(*slot).kind == Kind::Bypassable;
        h.scans() && !h.after.queue.is_empty() && h.after.queue.iter().all(bypassable)
    }),
    ("scan: ends before one that fits", |h| {
        h.scans()
            && h.after
                .queue
                .iter()
                .any(|slot| h.before.request(*slot).asked <= h.after.stock)
    }),
    ("scan: discards a finished task's request", |h| {
        h.scans() && h.discarded() > 0
    }),
    ("scan: discards one and grants another", |h| {
        h.scans() && h.discarded() > 0 && h.grants() > 0
    }),
    ("scan: leaves a finished task's request behind its end", |h| {
        h.scans()
            && h.after
                .queue
                .iter()
                .any(|slot| h.before.finished(h.before.request(*slot).task))
    }),
    ("scan: wakes a sleeper", |h| {
        h.scans() && h.some_task(|_, old, new| old.run == Run::Sleeping && new.run == Run::Runnable)
    }),
    ("scan: grants two requests of one task", |h| {
        let Ok(outcome) = h.result else { return false };
        let tasks: Vec<usize> = outcome.grants.iter().map(|grant| grant.task).collect();
        h.scans() && (1..tasks.len()).any(|i| tasks[..i].contains(&tasks[i]))
    }),
    ("scan: grants a request of the actor", |h| {
        let Ok(outcome) = h.result else { return false };
        h.scans() && outcome.grants.iter().any(|grant| grant.task == h.actor())
    }),
];

/// The reservation that a waking finds standing.
fn standing(h: &Happening<'_>) -> Option<usize> {
    let ended = h.polled().or(h.dropped()).map(|(slot, _)| slot);
    h.before
        .reserved
        .filter(|slot| h.wakes_unfair() && Some(*slot) != ended)
}

fn stale(h: &Happening<'_>) -> bool {
    standing(h).is_some_and(|slot| h.before.finished(h.before.request(slot).task))
}

fn stands(h: &Happening<'_>, fits: bool) -> bool {
    !stale(h) && standing(h).is_some_and(|slot| (h.before.request(slot).asked <= h.after.stock) == fits)
}

/// A waking that goes through the queue.
fn races(h: &Happening<'_>) -> bool {
    h.wakes_unfair() && (standing(h).is_none() || stale(h))
}

pub const WAKING: &[Situation] = &[
    ("wake: clears a finished task's reservation", stale),
    ("wake: clears a reservation and goes on to the queue", |h| {
        stale(h) && !h.queue().is_empty()
    }),
    ("wake: reservation stands, fits", |h| stands(h, true)),
    ("wake: reservation stands, short", |h| stands(h, false)),
    ("wake: reservation stands before a queue that would fit", |h| {
        !stale(h) && standing(h).is_some() && h.some_queued(|request| request.least <= h.after.stock)
    }),
    ("wake: some in the queue fit", |h| {
        races(h) && h.some_queued(|request| request.least <= h.after.stock)
    }),
    ("wake: some in the queue do not fit", |h| {
        races(h) && h.some_queued(|request| request.least > h.after.stock)
    }),
    ("wake: skips a finished task", |h| {
        races(h) && h.some_queued(|request| request.least <= h.after.stock && h.before.finished(request.task))
    }),
    ("wake: a blocked task", |h| {
        h.wakes_unfair() && h.some_task(|_, old, new| old.run == Run::Blocked && new.run == Run::Runnable)
    }),
    ("wake: a sleeping task", |h| {
        h.wakes_unfair() && h.some_task(|_, old, new| old.run == Run::Sleeping && new.run == Run::Runnable)
    }),
    ("wake: the actor itself", |h| {
        h.wakes_unfair() && h.some_task(|task, old, new| task == h.actor() && !old.woken && new.woken)
    }),
    ("wake: least fits and the ask does not", |h| {
        races(h) && h.some_queued(|request| request.least <= h.after.stock && request.asked > h.after.stock)
    }),
    ("wake: after a poll took what was reserved", |h| {
        h.did('P') && h.wakes_unfair() && !h.queue().is_empty()
    }),
];

pub const REBLOCKING: &[Situation] = &[
    ("reblock: nobody queued", |h| h.reblocks() && h.after.queue.is_empty()),
    ("reblock: blocks a runnable task", |h| {
        h.reblocks() && h.some_task(|_, old, new| old.run == Run::Runnable && new.run == Run::Blocked)
    }),
    ("reblock: blocks a sleeping task", |h| {
        h.reblocks() && h.some_task(|_, old, new| old.run == Run::Sleeping && new.run == Run::Blocked)
    }),
    ("reblock: keeps a woken mark", |h| {
        h.reblocks() && h.some_task(|_, _, new| new.run == Run::Blocked && new.woken)
    }),
    ("reblock: spares the actor", |h| {
        h.reblocks() && queued_after(h, |request| !can_progress(h, request) && request.task == h.actor())
    }),
    ("reblock: skips a finished task", |h| {
        h.reblocks() && queued_after(h, |request| !can_progress(h, request) && h.after.finished(request.task))
    }),
    ("reblock: leaves one that can progress", |h| {
        h.reblocks() && queued_after(h, |request| can_progress(h, request))
    }),
    ("reblock: leaves one whose least fits and whose ask does not", |h| {
        let between = |request: &Request| can_progress(h, request) && request.asked > h.after.stock;
        h.reblocks() && queued_after(h, |request| between(request) && request.task != h.actor())
    }),
    ("reblock: by a reservation, though its least fits", |h| {
        h.reserves() && queued_after(h, |request| request.least <= h.after.stock && request.task != h.actor())
    }),
    ("reblock: a task with another request that fits", |h| {
        let others = |task: usize| queued_after(h, |request| request.task == task && can_progress(h, request));
        h.reblocks() && h.some_task(|task, old, new| old.run != Run::Blocked && new.run == Run::Blocked && others(task))
    }),
];

fn queued_after(h: &Happening<'_>, wanted: impl Fn(&Request) -> bool) -> bool {
    h.after.queue.iter().any(|slot| wanted(h.after.request(*slot)))
}

fn can_progress(h: &Happening<'_>, request: &Request) -> bool {
    h.after.reserved.is_none() && request.least <= h.after.stock
}
