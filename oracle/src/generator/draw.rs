//! One step drawn at random, meaningful for the state more often than not.

use super::mood::{Letter, Mood};
use crate::random::Random;
use crate::state::{Request, State};
use crate::step::{Act, Step, LARGEST, SLOTS};

pub fn step(random: &mut Random, mood: Mood, state: &State) -> Step {
    let weights = mood.weights(state.strictly_fair);
    let mut letter = random.weighted(&weights);
    if mood == Mood::Batches {
        // A grant is left lying until there are 64 batches, so that its drop is refused.
        let lies = |request: &Request| request.holding && !request.completed;
        if state.slots.iter().flatten().any(lies) && random.chance(95) {
            letter = Letter::L;
        }
    } else {
        while idle(letter, state) && random.chance(75) {
            letter = random.weighted(&weights);
        }
    }
    let act = match letter {
        Letter::A => Act::Request {
            asked: asked(random, mood, state),
        },
        Letter::B => Act::Bypassable {
            asked: asked(random, mood, state),
        },
        Letter::R => reserving(random, mood, state),
        Letter::U => {
            let (held, wanted) = upgrade(random, mood, state);
            Act::Upgrade { held, wanted }
        }
        Letter::P => Act::Poll {
            slot: slot(random, state, poll_weight),
        },
        Letter::T => Act::Try {
            asked: asked(random, mood, state),
        },
        Letter::V => {
            let (held, wanted) = upgrade(random, mood, state);
            Act::TryUpgrade { held, wanted }
        }
        Letter::L => Act::Release {
            count: released(random, mood, state),
        },
        Letter::D => Act::Drop {
            slot: slot(random, state, drop_weight),
        },
        Letter::C => Act::Close,
        Letter::Z => Act::Sleep,
        Letter::F => Act::Finish,
    };
    Step {
        actor: actor(random, mood, state, act),
        act,
    }
}

/// Steps after which less can happen for good: a close, and what puts a task out of the way.
pub fn is_ending(state: &State, step: &Step) -> bool {
    let actor = step.actor as usize;
    let may_be_woken = || waiting(state).any(|slot| state.request(slot).task == actor);
    let stays = || state.tasks.get(actor).is_some_and(|task| task.woken);
    match step.act {
        Act::Close | Act::Finish => true,
        Act::Sleep => !stays() && (!may_be_woken() || runnable(state).len() < 2),
        _ => false,
    }
}

/// What would take the interest out of a run: permits for nobody, or the last task out of the way.
fn idle(letter: Letter, state: &State) -> bool {
    match letter {
        Letter::L => state.stock >= 3 && state.queue.is_empty() && state.reserved.is_none(),
        Letter::Z | Letter::F => runnable(state).len() < 2,
        _ => false,
    }
}

pub fn runnable(state: &State) -> Vec<usize> {
    (0..state.tasks.len()).filter(|task| state.runnable(*task)).collect()
}

/// Mostly a task that can act; for a poll mostly the request's own, and for an ending mostly one that
/// waits for something.
fn actor(random: &mut Random, mood: Mood, state: &State, act: Act) -> u32 {
    if random.chance(if mood == Mood::Noise { 12 } else { 2 }) {
        return random.below(state.tasks.len() + 2) as u32;
    }
    let wanted: Vec<usize> = match act {
        Act::Poll { slot } => state.in_use(slot).map(|request| request.task).into_iter().collect(),
        Act::Sleep | Act::Finish => waiting(state).map(|slot| state.request(slot).task).collect(),
        _ => vec![],
    };
    let wanted: Vec<usize> = wanted.into_iter().filter(|task| state.runnable(*task)).collect();
    if !wanted.is_empty() && random.chance(60) {
        return random.pick(&wanted) as u32;
    }
    match &runnable(state)[..] {
        [] => random.below(state.tasks.len()) as u32,
        tasks => random.pick(tasks) as u32,
    }
}

/// The slots in the queue, and the one that has the reservation.
fn waiting(state: &State) -> impl Iterator<Item = usize> + '_ {
    state.queue.iter().copied().chain(state.reserved)
}

fn asked(random: &mut Random, mood: Mood, state: &State) -> u32 {
    if mood == Mood::Limits && random.chance(50) {
        return near_limits(random, state);
    }
    let count = match random.below(100) {
        0..3 => 0,
        3..11 => state.stock,
        11..40 => state.stock.min(6) + 1 + random.below(2),
        _ => 1 + random.below(3),
    };
    count as u32
}

fn released(random: &mut Random, mood: Mood, state: &State) -> u32 {
    if mood == Mood::Limits && random.chance(40) {
        return near_limits(random, state);
    }
    if mood == Mood::Batches && random.chance(85) {
        return 1;
    }
    let asks: Vec<usize> = waiting(state).map(|slot| state.request(slot).asked).collect();
    let lacking = |asks: &[usize]| asks.iter().sum::<usize>().saturating_sub(state.stock).min(9);
    let count = match random.below(100) {
        0..4 => 0,
        4..24 => lacking(&asks[..asks.len().min(1)]),
        24..36 => lacking(&asks),
        _ => 1 + random.below(3),
    };
    count as u32
}

fn near_limits(random: &mut Random, state: &State) -> u32 {
    let room = LARGEST - state.stock;
    let count = random.pick(&[
        1,
        2,
        state.stock,
        state.stock / 2,
        state.stock.saturating_sub(1),
        state.stock + 1,
        room,
        room.saturating_sub(1),
        room + 1,
        LARGEST,
        LARGEST - 1,
    ]);
    count.min(LARGEST) as u32
}

fn reserving(random: &mut Random, mood: Mood, state: &State) -> Act {
    let asked = asked(random, mood, state);
    let least = match random.below(100) {
        0..25 => 0,
        25..35 => asked,
        35..37 => asked.saturating_add(1),
        _ => random.below(asked as usize + 1) as u32,
    };
    Act::Reserving { least, asked }
}

fn upgrade(random: &mut Random, mood: Mood, state: &State) -> (u32, u32) {
    let held = 1 + random.below(3) as u32;
    match random.below(100) {
        0..2 => (0, held),
        2..4 => (held, held - 1),
        4..5 => (held, held),
        _ => (held, held.saturating_add(asked(random, mood, state).max(1))),
    }
}

/// A slot in use, as often as `weight` says for its request, or sometimes any number.
fn slot(random: &mut Random, state: &State, weight: impl Fn(&State, usize, &Request) -> usize) -> u32 {
    let weigh = |(slot, request): (usize, &Option<Request>)| Some((slot, weight(state, slot, request.as_ref()?)));
    let weights: Vec<(usize, usize)> = state.slots.iter().enumerate().filter_map(weigh).collect();
    if weights.iter().all(|(_, weight)| *weight == 0) || random.chance(2) {
        return random.below(SLOTS + 2) as u32;
    }
    random.weighted(&weights) as u32
}

fn poll_weight(state: &State, slot: usize, request: &Request) -> usize {
    if request.completed {
        // Refused; the mood decides whether it stays.
        usize::from(slot.is_multiple_of(8))
    } else if request.holding || state.reserved == Some(slot) {
        25
    } else if request.queued {
        20
    } else if request.polled {
        // It left the queue, or its reservation was cleared, without a grant.
        90
    } else {
        45
    }
}

fn drop_weight(state: &State, slot: usize, request: &Request) -> usize {
    let crowded = state.slots.iter().flatten().count() > 20;
    match (request.completed, request.holding) {
        (true, _) if crowded => 90,
        (true, _) => 20,
        (false, true) => 40,
        (false, false) if holds_up(state, slot) => 120,
        (false, false) if request.queued || state.reserved == Some(slot) => 40,
        (false, false) => 10,
    }
}

/// Whether a request further back in the queue would fit.
pub fn holds_up(state: &State, slot: usize) -> bool {
    let behind = state.queue.iter().skip_while(|queued| **queued != slot).skip(1);
    behind
        .into_iter()
        .any(|queued| state.request(*queued).asked <= state.stock)
}
