//! Which steps are refused: document 01's table, read on the Rust's state. The Rust itself is never
//! asked, since on most of these it panics, and on the rest it goes on.

use crate::state::{Kind, Request, Run, State};
use crate::step::{Act, Step, LARGEST, MOST_BATCHES};

/// The number of the first ground that applies, in the document's order: 1, 2, 3, 4, 6, 7, 5, 8, 10,
/// 9, 11. (14 is about states handed in; every state here comes from a run.)
pub fn refusal(state: &State, step: &Step) -> Option<u8> {
    let Some(actor) = state.tasks.get(step.actor as usize) else {
        return Some(1);
    };
    if actor.run != Run::Runnable {
        return Some(2);
    }
    let grounds: Vec<(u8, bool)> = match step.act {
        Act::Request { .. } | Act::Bypassable { .. } => vec![(8, full(state))],
        Act::Reserving { least, asked } => vec![
            (6, state.strictly_fair),
            (7, asked == 0 || least > asked),
            (8, full(state)),
        ],
        Act::Upgrade { held, wanted } => vec![(7, no_upgrade(held, wanted)), (8, full(state))],
        Act::Try { asked } => vec![(5, asked == 0), (11, cannot_tick(state, step.actor as usize))],
        Act::TryUpgrade { held, wanted } => {
            vec![
                (7, no_upgrade(held, wanted)),
                (11, cannot_tick(state, step.actor as usize)),
            ]
        }
        Act::Release { count } => release_grounds(state, step, count as usize),
        Act::Poll { slot } => match state.in_use(slot) {
            None => vec![(3, true)],
            Some(request) => vec![
                (4, request.completed),
                (5, asks_for_nothing(state, request)),
                (
                    11,
                    poll_takes(state, slot as usize) && cannot_tick(state, step.actor as usize),
                ),
            ],
        },
        Act::Drop { slot } => match state.in_use(slot) {
            None => vec![(3, true)],
            Some(request) if request.holding && !request.completed => release_grounds(state, step, request.asked),
            Some(_) => vec![],
        },
        Act::Close | Act::Sleep | Act::Finish => vec![],
    };
    grounds
        .into_iter()
        .find(|(_, applies)| *applies)
        .map(|(number, _)| number)
}

fn full(state: &State) -> bool {
    state.slots.iter().all(Option::is_some)
}

fn no_upgrade(held: u32, wanted: u32) -> bool {
    held == 0 || wanted <= held
}

pub fn cannot_tick(state: &State, actor: usize) -> bool {
    state.tasks[actor].clock[actor] == u32::MAX
}

fn release_grounds(state: &State, step: &Step, count: usize) -> Vec<(u8, bool)> {
    let no_room = state.batches.as_ref().is_some_and(|all| all.len() >= MOST_BATCHES);
    vec![
        (10, state.stock + count > LARGEST),
        (9, count > 0 && no_room),
        (11, count > 0 && cannot_tick(state, step.actor as usize)),
    ]
}

/// Plain is every request that is not reserving.
fn asks_for_nothing(state: &State, request: &Request) -> bool {
    !request.reserving && request.asked == 0 && !request.holding && !state.closed
}

/// Whether a poll would take permits, and so tick.
pub fn poll_takes(state: &State, slot: usize) -> bool {
    let request = state.request(slot);
    if request.holding || state.closed {
        false
    } else if request.reserving {
        if state.reserved == Some(slot) {
            request.asked <= state.stock
        } else {
            state.reserved.is_none() && request.least <= state.stock && request.asked <= state.stock
        }
    } else if request.queued && state.strictly_fair {
        false
    } else {
        direct_rule_takes(state, request.kind, request.asked)
    }
}

/// The direct rule on an open semaphore.
pub fn direct_rule_takes(state: &State, kind: Kind, asked: usize) -> bool {
    let passable = |slot: &usize| state.request(*slot).kind == Kind::Bypassable;
    state.reserved.is_none()
        && (state.queue.iter().all(passable) || !state.strictly_fair || kind == Kind::Front)
        && asked <= state.stock
}
