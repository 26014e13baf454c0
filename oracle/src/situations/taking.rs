//! Make, taking, the direct rule, and the tries, which go straight by it.

use super::{Happening, Situation};
use crate::state::Kind;
use crate::step::{Act, Answer};

pub const MAKING: &[Situation] = &[
    ("make: A", |h| h.did('A')),
    ("make: B", |h| h.did('B')),
    ("make: R", |h| h.did('R')),
    ("make: U, strict", |h| h.did('U') && h.before.strictly_fair),
    ("make: U, unfair", |h| h.did('U') && !h.before.strictly_fair),
    ("make: ask of 0", |h| {
        h.result.is_ok() && matches!(h.step.act, Act::Request { asked: 0 } | Act::Bypassable { asked: 0 })
    }),
    ("make: into a slot freed below one in use", |h| {
        let Ok(Answer::Slot(slot)) = h.result.as_ref().map(|outcome| outcome.answer) else {
            return false;
        };
        h.before.slots[slot..].iter().any(Option::is_some)
    }),
    ("make: the last free slot", |h| h.answered(Answer::Slot(31))),
    ("make: on a closed semaphore", |h| {
        matches!(h.letter(), 'A' | 'B' | 'R' | 'U') && h.result.is_ok() && h.before.closed
    }),
];

pub const TAKING: &[Situation] = &[
    ("taking: sets up", |h| h.grants() > 0 && h.before.batches.is_none()),
    ("taking: part of a batch", |h| eats(h, 0, true)),
    ("taking: a whole batch", |h| eats(h, 1, false)),
    ("taking: one batch and part of the next", |h| eats(h, 1, true)),
    ("taking: several batches and part of the next", |h| {
        eats(h, 2, true) || eats(h, 3, true)
    }),
    ("taking: several whole batches", |h| {
        eats(h, 2, false) || eats(h, 3, false)
    }),
    ("taking: the taker learns of others", |h| {
        h.grants() > 0
            && h.some_task(|task, old, new| (0..new.clock.len()).any(|i| i != task && old.clock[i] < new.clock[i]))
    }),
    ("taking: last-acquire rises", |h| {
        h.before.last_acquire != h.after.last_acquire
    }),
];

/// Whether a poll or a try ate so many whole batches, and `part` of one more.
fn eats(h: &Happening<'_>, whole: usize, part: bool) -> bool {
    let (Some(before), Some(after)) = (&h.before.batches, &h.after.batches) else {
        return false;
    };
    if h.grants() != 1 || h.released() || before.len() - after.len() != whole {
        return false;
    }
    part == (after.first().map(|batch| batch.0) != before.get(whole).map(|batch| batch.0))
}

pub const DIRECT: &[Situation] = &[
    ("direct: closed", |h| h.direct().is_some() && h.before.closed),
    ("direct: reserved", |h| {
        h.direct().is_some() && h.before.reserved.is_some()
    }),
    ("direct: reserved, though the stock suffices", |h| {
        suffices(h) && h.before.reserved.is_some()
    }),
    ("direct: empty queue, takes", |h| {
        suffices(h) && h.unclaimed() && h.before.queue.is_empty()
    }),
    ("direct: empty queue, short", |h| short(h) && h.before.queue.is_empty()),
    ("direct: only bypassable ones queued, takes", |h| {
        h.strict() && suffices(h) && passable(h)
    }),
    ("direct: only bypassable ones queued, short", |h| {
        h.strict() && short(h) && passable(h)
    }),
    ("direct: held back by the queue", |h| {
        h.strict() && suffices(h) && held_back(h) && !front(h)
    }),
    ("direct: held back by a finished task's request", |h| {
        h.strict()
            && suffices(h)
            && held_back(h)
            && !front(h)
            && !h.some_queued(|request| request.kind != Kind::Bypassable && !h.before.finished(request.task))
    }),
    ("direct: Front overtakes", |h| {
        h.strict() && suffices(h) && held_back(h) && front(h)
    }),
    ("direct: Front short", |h| h.strict() && short(h) && front(h)),
    ("direct: unfair overtakes", |h| {
        !h.strict() && suffices(h) && h.unclaimed() && !h.before.queue.is_empty()
    }),
];

fn front(h: &Happening<'_>) -> bool {
    h.direct().is_some_and(|(kind, _)| kind == Kind::Front)
}

fn suffices(h: &Happening<'_>) -> bool {
    !h.before.closed && h.direct().is_some_and(|(_, asked)| asked <= h.before.stock)
}

fn short(h: &Happening<'_>) -> bool {
    h.unclaimed() && h.direct().is_some_and(|(_, asked)| asked > h.before.stock)
}

fn passable(h: &Happening<'_>) -> bool {
    !h.before.queue.is_empty() && !held_back(h)
}

fn held_back(h: &Happening<'_>) -> bool {
    h.some_queued(|request| request.kind != Kind::Bypassable)
}

pub const TRYING: &[Situation] = &[
    ("try: granted", |h| h.did('T') && h.answered(Answer::Granted)),
    ("try: none", |h| h.did('T') && h.answered(Answer::NoPermits)),
    ("try: closed", |h| h.did('T') && h.answered(Answer::Closed)),
    ("try-upgrade: granted", |h| h.did('V') && h.answered(Answer::Granted)),
    ("try-upgrade: none", |h| h.did('V') && h.answered(Answer::NoPermits)),
    ("try-upgrade: closed", |h| h.did('V') && h.answered(Answer::Closed)),
    ("try: fails and learns from last-acquire", |h| {
        (h.did('T') || h.did('V')) && h.grants() == 0 && learns(h)
    }),
    ("try: fails before the batches are set up", |h| {
        (h.did('T') || h.did('V')) && h.grants() == 0 && h.before.batches.is_none()
    }),
];

/// The actor's clock rises by more than its tick.
fn learns(h: &Happening<'_>) -> bool {
    let (old, new) = (&h.before.tasks[h.actor()].clock, &h.after.tasks[h.actor()].clock);
    (0..new.len()).any(|i| i != h.actor() && old[i] < new[i])
}
