//! The whole state after an accepted line, as rows of numbers: what both sides of the comparison write.

use crate::state::{Clock, Kind, Request, Run, State, Task};
use crate::step::{Grant, Outcome, Points, Taker};
use std::iter;

/// The kinds of rows, in their order. README has what stands in each.
pub const POINTS: usize = 0;
pub const GRANTS: usize = 1;
pub const SEM: usize = 2;
pub const BATCHES: usize = 3;
pub const BATCH_CLOCK: usize = 4;
pub const LAST: usize = 5;
pub const QUEUE: usize = 6;
pub const RESERVED: usize = 7;
pub const TASK: usize = 8;
pub const TASK_CLOCK: usize = 9;
pub const SLOT: usize = 10;
pub const SLOT_CLOCK: usize = 11;

/// Stands for a try where a grant has its slot.
pub const BY_TRY: usize = 256;

/// The rows of a state, with the step's points and grants.
pub fn rows(outcome: &Outcome, state: &State) -> String {
    let batches = || state.batches.iter().flatten();
    let in_use = || {
        state
            .slots
            .iter()
            .enumerate()
            .filter_map(|(x, slot)| Some((x, slot.as_ref()?)))
    };
    let mut rows = vec![
        row(POINTS, points(outcome.points)),
        row(GRANTS, outcome.grants.iter().flat_map(grant)),
        row(SEM, [mark(!state.strictly_fair), mark(state.closed), state.stock]),
        row(
            BATCHES,
            iter::once(mark(state.batches.is_some())).chain(batches().map(|(size, _)| *size)),
        ),
    ];
    rows.extend(clocks(BATCH_CLOCK, batches().map(|(_, clock)| clock).enumerate()));
    rows.push(row(LAST, entries(&state.last_acquire)));
    rows.push(row(QUEUE, state.queue.iter().copied()));
    rows.push(row(RESERVED, state.reserved));
    rows.extend(state.tasks.iter().enumerate().map(task));
    rows.extend(clocks(
        TASK_CLOCK,
        state.tasks.iter().map(|task| &task.clock).enumerate(),
    ));
    rows.extend(in_use().map(slot));
    rows.extend(clocks(SLOT_CLOCK, in_use().map(|(x, request)| (x, &request.clock))));
    rows.concat()
}

fn row(kind: usize, numbers: impl IntoIterator<Item = usize>) -> String {
    let numbers: String = numbers.into_iter().map(|number| format!(" {number}")).collect();
    format!(" {kind}{numbers}\n")
}

fn clocks<'a>(kind: usize, all: impl Iterator<Item = (usize, &'a Clock)>) -> Vec<String> {
    all.map(|(number, clock)| row(kind, iter::once(number).chain(entries(clock))))
        .collect()
}

fn points(points: Points) -> Vec<usize> {
    match points {
        Points::NotAsked => vec![],
        Points::One(came) => vec![mark(came)],
        Points::Two(first, second) => vec![mark(first), mark(second)],
    }
}

fn grant(grant: &Grant) -> [usize; 3] {
    let taker = match grant.to {
        Taker::Slot(slot) => slot,
        Taker::Try => BY_TRY,
    };
    [taker, grant.count, grant.task]
}

fn task((number, task): (usize, &Task)) -> String {
    let run = match task.run {
        Run::Runnable => 0,
        Run::Blocked => 1,
        Run::Sleeping => 2,
        Run::Finished => 3,
    };
    row(TASK, [number, run, mark(task.woken)])
}

fn slot((number, request): (usize, &Request)) -> String {
    let kind = match request.kind {
        Kind::Back => 0,
        Kind::Bypassable => 1,
        Kind::Front => 2,
    };
    let used = 1;
    let numbers = [
        number,
        used,
        request.asked,
        request.least,
        kind,
        mark(request.reserving),
        request.task,
        mark(request.queued),
        mark(request.holding),
        mark(request.completed),
        mark(request.polled),
    ];
    row(SLOT, numbers)
}

fn entries(clock: &Clock) -> impl Iterator<Item = usize> + '_ {
    clock.iter().map(|entry| *entry as usize)
}

fn mark(set: bool) -> usize {
    usize::from(set)
}
