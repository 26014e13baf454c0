//! Poll, of reserving and of plain requests.

use super::{Happening, Situation};
use crate::state::{Kind, Request, Run};
use crate::step::Answer;

/// Holds of an open poll of a reserving request.
fn reserving(h: &Happening<'_>, wanted: impl Fn(usize, &Request) -> bool) -> bool {
    h.open_poll(true).is_some_and(|(slot, request)| wanted(slot, request))
}

fn has_it(h: &Happening<'_>, takes: bool) -> bool {
    reserving(h, |slot, request| {
        h.has_reservation(slot) && (request.asked <= h.before.stock) == takes
    })
}

fn another_has_it(h: &Happening<'_>, queued: bool) -> bool {
    reserving(h, |slot, request| {
        h.before.reserved.is_some() && !h.has_reservation(slot) && request.queued == queued
    })
}

/// An open poll of a reserving request while nobody has the reservation.
fn unreserved(h: &Happening<'_>, queued: bool, fits: impl Fn(&Request) -> bool) -> bool {
    reserving(h, |_, request| {
        h.before.reserved.is_none() && request.queued == queued && fits(request)
    })
}

pub const RESERVING: &[Situation] = &[
    ("poll reserving: has it, short", |h| has_it(h, false)),
    ("poll reserving: has it, takes", |h| has_it(h, true)),
    ("poll reserving: has it, takes, by another task than recorded", |h| {
        has_it(h, true) && reserving(h, |_, request| request.task != h.actor())
    }),
    ("poll reserving: has it, short, by another task than recorded", |h| {
        has_it(h, false) && reserving(h, |_, request| request.task != h.actor())
    }),
    (
        "poll reserving: has it, takes, and leaves a task unblocked that cannot progress",
        |h| {
            let stuck = |request: &Request| request.least > h.after.stock && request.task != h.actor();
            let runs = |request: &Request| !matches!(h.after.tasks[request.task].run, Run::Blocked | Run::Finished);
            has_it(h, true) && h.some_queued(|request| stuck(request) && runs(request))
        },
    ),
    ("poll reserving: has it though its task finished", |h| {
        reserving(h, |slot, request| {
            h.has_reservation(slot) && h.before.finished(request.task)
        })
    }),
    ("poll reserving: another has it, queues", |h| another_has_it(h, false)),
    ("poll reserving: another has it, already queued", |h| {
        another_has_it(h, true)
    }),
    ("poll reserving: below least, queues", |h| {
        unreserved(h, false, |request| request.least > h.before.stock)
    }),
    ("poll reserving: below least, already queued", |h| {
        unreserved(h, true, |request| request.least > h.before.stock)
    }),
    ("poll reserving: covers the ask", |h| {
        unreserved(h, false, |request| request.asked <= h.before.stock)
    }),
    ("poll reserving: covers the ask, leaves the queue", |h| {
        unreserved(h, true, |request| request.asked <= h.before.stock)
    }),
    ("poll reserving: reserves", |h| {
        h.reserves() && reserving(h, |_, request| !request.queued)
    }),
    ("poll reserving: reserves, leaves the queue", |h| {
        h.reserves() && reserving(h, |_, request| request.queued)
    }),
    ("poll reserving: reserves at stock 0", |h| {
        h.reserves() && h.before.stock == 0
    }),
    ("poll reserving: again after its reservation was cleared", |h| {
        reserving(h, |slot, request| {
            request.polled && !request.queued && !h.has_reservation(slot)
        })
    }),
];

/// Holds of an open poll of a plain request.
fn plain(h: &Happening<'_>, wanted: impl Fn(&Request) -> bool) -> bool {
    h.open_poll(false).is_some_and(|(_, request)| wanted(request))
}

fn queues(h: &Happening<'_>, kind: Kind) -> bool {
    plain(h, |request| !request.queued && request.kind == kind) && h.answered(Answer::Pending)
}

pub const PLAIN: &[Situation] = &[
    ("poll: holding", |h| {
        h.polled().is_some_and(|(_, request)| request.holding)
    }),
    ("poll: holding, by another task than recorded", |h| {
        h.polled()
            .is_some_and(|(_, request)| request.holding && request.task != h.actor())
    }),
    ("poll: holding, on a closed semaphore", |h| {
        h.before.closed && h.polled().is_some_and(|(_, request)| request.holding)
    }),
    ("poll: closed", |h| h.did('P') && h.answered(Answer::Closed)),
    ("poll: closed, ask of 0", |h| {
        h.answered(Answer::Closed) && h.polled().is_some_and(|(_, request)| request.asked == 0)
    }),
    ("poll: closed, reserving", |h| {
        h.answered(Answer::Closed) && h.polled().is_some_and(|(_, request)| request.reserving)
    }),
    ("poll plain: strict and queued", |h| {
        plain(h, |request| request.queued) && h.strict()
    }),
    ("poll plain: strict and queued, by another task than recorded", |h| {
        plain(h, |request| request.queued && request.task != h.actor()) && h.strict()
    }),
    ("poll plain: strict and queued Front", |h| {
        plain(h, |request| request.queued && request.kind == Kind::Front) && h.strict()
    }),
    ("poll plain: strict and queued Front, though it would fit", |h| {
        h.strict()
            && plain(h, |request| {
                request.queued && request.kind == Kind::Front && request.asked <= h.before.stock
            })
    }),
    ("poll plain: unfair and queued, still short", |h| {
        plain(h, |request| request.queued) && !h.strict() && h.answered(Answer::Pending)
    }),
    ("poll plain: takes", |h| {
        plain(h, |request| !request.queued) && h.answered(Answer::Granted)
    }),
    ("poll plain: takes, not its maker", |h| {
        plain(h, |request| request.task != h.actor()) && h.answered(Answer::Granted)
    }),
    ("poll plain: takes, leaves the queue", |h| {
        plain(h, |request| request.queued) && h.answered(Answer::Granted)
    }),
    ("poll plain: leaves the queue from its middle", |h| {
        let first = h.before.queue.first();
        h.answered(Answer::Granted)
            && h.open_poll(false)
                .is_some_and(|(slot, request)| request.queued && first != Some(&slot))
    }),
    ("poll plain: queues at the back", |h| queues(h, Kind::Back)),
    ("poll plain: queues bypassable", |h| queues(h, Kind::Bypassable)),
    ("poll plain: queues in front", |h| queues(h, Kind::Front)),
    ("poll plain: queues in front of others", |h| {
        queues(h, Kind::Front) && !h.before.queue.is_empty()
    }),
    ("poll plain: again after leaving the queue ungranted", |h| {
        plain(h, |request| request.polled && !request.queued)
    }),
    ("poll: Pending records another task", |h| {
        h.answered(Answer::Pending)
            && h.polled()
                .is_some_and(|(slot, old)| h.after.request(slot).task != old.task)
    }),
];
