//! Steps that a state offers and that chance would seldom draw.

use super::draw::{holds_up, runnable};
use crate::random::Random;
use crate::refusals::cannot_tick;
use crate::state::{Kind, Request, State};
use crate::step::{Act, Step, LARGEST, MOST_BATCHES, SLOTS};

/// One of the steps that the state offers, if it offers any. It is taken even if it is refused.
pub fn step(random: &mut Random, state: &State) -> Option<Step> {
    let actors = runnable(state);
    if let Some(step) = drop_at_the_largest(random, state, &actors) {
        return Some(step);
    }
    let mut acts: Vec<Act> = Vec::new();
    for (slot, request) in state.slots.iter().enumerate() {
        if let Some(request) = request {
            offered_by(state, slot, request, &mut acts);
        }
    }
    if only_finished_hold_back(state) {
        acts.push(Act::Try { asked: 1 });
    }
    if actors.is_empty() || acts.is_empty() {
        return None;
    }
    Some(Step {
        actor: random.pick(&actors) as u32,
        act: random.pick(&acts),
    })
}

/// A grant not yet polled, dropped by a task that cannot tick. Seldom, since what is refused is offered again.
fn drop_at_the_largest(random: &mut Random, state: &State, actors: &[usize]) -> Option<Step> {
    let lies = |request: &Request| request.holding && !request.completed;
    let stuck = |actor: &usize| cannot_tick(state, *actor);
    let actors: Vec<usize> = actors.iter().copied().filter(stuck).collect();
    let slots: Vec<u32> = (0..SLOTS as u32)
        .filter(|slot| state.in_use(*slot).is_some_and(lies))
        .collect();
    if actors.is_empty() || slots.is_empty() || !random.chance(10) {
        return None;
    }
    Some(Step {
        actor: random.pick(&actors) as u32,
        act: Act::Drop {
            slot: random.pick(&slots),
        },
    })
}

fn offered_by(state: &State, slot: usize, request: &Request, acts: &mut Vec<Act>) {
    let finished = |slot: &usize| state.finished(state.request(*slot).task);
    let (poll, drop) = (Act::Poll { slot: slot as u32 }, Act::Drop { slot: slot as u32 });
    if request.holding && !request.completed && release_is_refused(state, request.asked) {
        acts.push(drop);
    }
    if state.reserved == Some(slot) && finished(&slot) {
        acts.extend([poll, drop, Act::Release { count: 1 }]);
    }
    if !request.queued {
        return;
    }
    let is_first = state.queue.first() == Some(&slot);
    if state.strictly_fair {
        let in_the_way = request.kind != Kind::Bypassable && holds_up(state, slot);
        if in_the_way || (!is_first && state.queue.first().is_some_and(finished)) {
            acts.push(drop);
        }
        if request.kind == Kind::Front && request.asked <= state.stock {
            acts.push(poll);
        }
    } else if state
        .queue
        .iter()
        .any(|other| *other != slot && fits_unwoken(state, *other))
    {
        acts.push(drop);
    }
}

fn release_is_refused(state: &State, count: usize) -> bool {
    let no_room = state.batches.as_ref().is_some_and(|all| all.len() == MOST_BATCHES);
    no_room || state.stock + count > LARGEST
}

/// A queued request of an unfair semaphore that could progress, and whose task does not know.
fn fits_unwoken(state: &State, slot: usize) -> bool {
    let request = state.request(slot);
    let task = &state.tasks[request.task];
    request.least <= state.available() && !task.woken && !state.finished(request.task)
}

/// On a strictly fair semaphore with permits, only requests of finished tasks are in the way.
fn only_finished_hold_back(state: &State) -> bool {
    let in_the_way = |slot: &&usize| state.request(**slot).kind != Kind::Bypassable;
    let mut blockers = state.queue.iter().filter(in_the_way).peekable();
    state.strictly_fair
        && state.stock > 0
        && blockers.peek().is_some()
        && blockers.all(|slot| state.finished(state.request(*slot).task))
}
