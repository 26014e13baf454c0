//! Drop, close, sleep and finish.

use super::{Happening, Situation};
use crate::state::{Request, Run};

/// Holds of the drop of a queued request on a strictly fair semaphore.
fn leaves(h: &Happening<'_>, first: bool, scans: bool) -> bool {
    let is_first = |slot| h.before.queue.first() == Some(&slot);
    h.strict()
        && h.scans() == scans
        && h.dropped()
            .is_some_and(|(slot, request)| request.queued && is_first(slot) == first)
}

fn dropped(h: &Happening<'_>, wanted: impl Fn(&Request) -> bool) -> bool {
    h.dropped().is_some_and(|(_, request)| wanted(request))
}

pub const DROPPING: &[Situation] = &[
    ("drop: never polled", |h| dropped(h, |request| !request.polled)),
    ("drop: completed with permits", |h| {
        dropped(h, |request| request.completed && request.holding)
    }),
    ("drop: completed as closed", |h| {
        dropped(h, |request| request.completed && !request.holding)
    }),
    ("drop: first in the queue, grants", |h| {
        leaves(h, true, true) && h.grants() > 0
    }),
    ("drop: first in the queue, grants none", |h| {
        leaves(h, true, true) && h.grants() == 0
    }),
    ("drop: behind a bypassable one, grants", |h| {
        leaves(h, false, true) && h.grants() > 0
    }),
    ("drop: behind a bypassable one, grants none", |h| {
        leaves(h, false, true) && h.grants() == 0
    }),
    ("drop: behind another, no scan", |h| leaves(h, false, false)),
    ("drop: no scan, though one that is left fits", |h| {
        leaves(h, false, false) && h.some_queued(|request| request.asked <= h.before.stock)
    }),
    ("drop: no scan, though the first is of a finished task", |h| {
        let first = h.before.queue.first().map(|slot| h.before.request(*slot).task);
        leaves(h, false, false) && first.is_some_and(|task| h.before.finished(task))
    }),
    ("drop: the only one queued", |h| {
        leaves(h, true, true) && h.queue().is_empty()
    }),
    ("drop: queued, unfair", |h| {
        !h.strict() && dropped(h, |request| request.queued)
    }),
    ("drop: queued, unfair, while another fits and is not woken", |h| {
        let fits = |request: &Request| request.least <= h.before.stock && !h.before.finished(request.task);
        let at_rest = |request: &Request| !(h.before.runnable(request.task) && h.before.tasks[request.task].woken);
        !h.strict()
            && h.before.reserved.is_none()
            && dropped(h, |request| request.queued)
            && h.some_queued(|request| fits(request) && at_rest(request))
    }),
    ("drop: has the reservation", |h| {
        h.dropped().is_some_and(|(slot, _)| h.has_reservation(slot))
    }),
    (
        "drop: has the reservation, wakes a request of least 0 at stock 0",
        |h| {
            h.before.stock == 0
                && h.dropped().is_some_and(|(slot, _)| h.has_reservation(slot))
                && h.some_queued(|request| request.least == 0)
        },
    ),
    ("drop: has the reservation, task finished", |h| {
        h.dropped()
            .is_some_and(|(slot, request)| h.has_reservation(slot) && h.before.finished(request.task))
    }),
    ("drop: releases, grants another", |h| {
        h.did('D') && h.released() && h.grants() > 0
    }),
    ("drop: releases, strict", |h| h.did('D') && h.released() && h.strict()),
    ("drop: releases as another task", |h| {
        h.released() && dropped(h, |request| request.task != h.actor())
    }),
    ("drop: releases on a closed semaphore", |h| {
        h.did('D') && h.released() && h.before.closed
    }),
    ("drop: left the queue ungranted", |h| {
        let idle = |request: &Request| request.polled && !request.queued && !request.holding && !request.completed;
        h.dropped()
            .is_some_and(|(slot, request)| idle(request) && !h.has_reservation(slot))
    }),
];

pub const CLOSING: &[Situation] = &[
    ("close: again", |h| h.did('C') && h.before.closed),
    ("close: nobody waits", |h| {
        h.did('C') && h.unclaimed() && h.before.queue.is_empty()
    }),
    ("close: empties the queue", |h| h.did('C') && !h.before.queue.is_empty()),
    ("close: ends the reservation", |h| {
        h.did('C') && h.before.reserved.is_some()
    }),
    ("close: queue and reservation", |h| {
        h.did('C') && h.before.reserved.is_some() && !h.before.queue.is_empty()
    }),
    ("close: skips a finished task", |h| {
        h.did('C') && h.some_queued(|request| h.before.finished(request.task))
    }),
    ("close: wakes a sleeping task", |h| {
        h.did('C') && h.some_task(|_, old, new| old.run == Run::Sleeping && new.run == Run::Runnable)
    }),
    ("close: wakes a blocked task", |h| {
        h.did('C') && h.some_task(|_, old, new| old.run == Run::Blocked && new.run == Run::Runnable)
    }),
    ("close: a grant not yet polled stays", |h| {
        h.did('C')
            && h.before
                .slots
                .iter()
                .flatten()
                .any(|request| request.holding && !request.completed)
    }),
];

pub const TASKS: &[Situation] = &[
    ("sleep: sleeps", |h| {
        h.did('Z') && h.after.tasks[h.actor()].run == Run::Sleeping
    }),
    ("sleep: woken, stays", |h| {
        h.did('Z') && h.after.tasks[h.actor()].run == Run::Runnable
    }),
    ("finish: plain", |h| h.did('F')),
    ("finish: woken", |h| h.did('F') && h.before.tasks[h.actor()].woken),
    ("finish: with a queued request", |h| {
        h.did('F') && h.some_queued(|request| request.task == h.actor())
    }),
    ("finish: with the reservation", |h| {
        h.did('F')
            && h.before
                .reserved
                .is_some_and(|slot| h.before.request(slot).task == h.actor())
    }),
    ("tasks: 1", |h| h.before.tasks.len() == 1),
    ("tasks: 16", |h| h.before.tasks.len() == 16),
    ("finish: with a grant not yet polled", |h| {
        let waits = |request: &Request| request.holding && !request.completed && request.task == h.actor();
        h.did('F') && h.before.slots.iter().flatten().any(waits)
    }),
];
