//! How a run started, and what of its starting clocks a step still shows.

use super::{Happening, Situation};
use crate::state::Clock;
use crate::step::MOST_TASKS;

pub const STARTING: &[Situation] = &[
    ("start: spawned, 1 task", |h| spawned(h) && tasks(h) == 1),
    ("start: spawned, 2 tasks", |h| spawned(h) && tasks(h) == 2),
    ("start: spawned, 3 tasks or more", |h| spawned(h) && tasks(h) >= 3),
    ("start: spawned, 16 tasks", |h| spawned(h) && tasks(h) == MOST_TASKS),
    ("start: given clocks, with a maker", |h| {
        !spawned(h) && h.fresh.maker.is_some()
    }),
    ("start: given clocks, no maker", |h| {
        !spawned(h) && h.fresh.maker.is_none()
    }),
    ("start: given clocks, 16 tasks", |h| {
        !spawned(h) && tasks(h) == MOST_TASKS
    }),
    ("start: spawned, a batch of another clock than task 0's", |h| {
        spawned(h) && made_by_another(h)
    }),
    ("start: given clocks, a batch of another clock than task 0's", |h| {
        !spawned(h) && made_by_another(h)
    }),
    ("start: spawned, set up later by a taking", |h| {
        spawned(h) && set_up_later(h) && h.grants() > 0
    }),
    ("start: spawned, set up later by a release", |h| {
        spawned(h) && set_up_later(h) && h.released()
    }),
    ("start: given clocks, set up later", |h| !spawned(h) && set_up_later(h)),
    ("start: spawned, the maker's clock is joined", |h| {
        spawned(h) && joins_the_makers(h)
    }),
    ("start: given clocks, the maker's clock is joined", |h| {
        !spawned(h) && joins_the_makers(h)
    }),
    ("start: a taker's starting clock is in last-acquire", |h| {
        let before = &h.before.tasks.get(h.actor());
        let at_start = before.is_some_and(|task| task.clock == h.start.tasks[h.actor()].clock);
        h.grants() > 0 && at_start && h.before.last_acquire != h.after.last_acquire
    }),
    ("start: given clocks, a join raises the taker's own entry", |h| {
        let by_more_than_a_tick = |task: usize, old: &Clock, new: &Clock| new[task] > old[task].saturating_add(1);
        h.some_task(|task, old, new| by_more_than_a_tick(task, &old.clock, &new.clock))
    }),
];

fn spawned(h: &Happening<'_>) -> bool {
    h.fresh.clocks.is_none()
}

fn tasks(h: &Happening<'_>) -> usize {
    h.start.tasks.len()
}

/// The clock of the batch that the maker made, who is not task 0.
fn made_by_another(h: &Happening<'_>) -> bool {
    makers_clock(h).is_some_and(|clock| *clock != h.start.tasks[0].clock)
}

fn makers_clock<'a>(h: &Happening<'a>) -> Option<&'a Clock> {
    let (_, clock) = h.start.batches.as_ref()?.first()?;
    Some(clock)
}

/// The batch of the whole stock gets the empty clock, which no task has.
fn set_up_later(h: &Happening<'_>) -> bool {
    let nobody_is_at_0 = h
        .start
        .tasks
        .iter()
        .all(|task| task.clock.iter().any(|entry| *entry > 0));
    h.before.batches.is_none() && h.after.batches.is_some() && h.before.stock > 0 && nobody_is_at_0
}

/// A task learns what the maker knew at the start, from the batch that the maker made.
fn joins_the_makers(h: &Happening<'_>) -> bool {
    let front = h.before.batches.as_ref().and_then(|batches| batches.first());
    let Some(clock) = makers_clock(h).filter(|clock| front.is_some_and(|(_, front)| front == *clock)) else {
        return false;
    };
    h.grants() > 0
        && h.some_task(|task, old, new| {
            (0..clock.len()).any(|i| i != task && old.clock[i] < clock[i] && clock[i] <= new.clock[i])
        })
}
