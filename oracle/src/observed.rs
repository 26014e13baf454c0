//! A step's grants and scheduling points, derived from what the source told the stand-ins and held
//! against the states before and after.

use crate::events::{Event, Place};
use crate::state::{State, Task};
use crate::step::{Act, Grant, Points, Step, Taker};

/// The takings of a step, in order. Panics if they do not explain the change of the stock.
pub fn grants(before: &State, step: &Step, events: &[Event], after: &State) -> Vec<Grant> {
    let grants = match step.act {
        Act::Try { .. } | Act::TryUpgrade { .. } => grants_of_try(step, events),
        Act::Poll { slot } => grants_of_poll(step, slot as usize, events),
        _ => grants_of_scan(before, events, after),
    };
    let taken: usize = grants.iter().map(|grant| grant.count).sum();
    let released = |event: &Event| match event {
        Event::Released { count } => *count,
        _ => 0,
    };
    let released: usize = events.iter().map(released).sum();
    assert_eq!(
        before.stock + released,
        after.stock + taken,
        "grants and releases must explain the stock"
    );
    assert_joined(before, step, &grants, after);
    grants
}

/// Nobody's clock changes but the actor's and those of the tasks that the grants name.
fn assert_joined(before: &State, step: &Step, grants: &[Grant], after: &State) {
    for (task, (old, new)) in before.tasks.iter().zip(&after.tasks).enumerate() {
        let may_change = task == step.actor as usize || grants.iter().any(|grant| grant.task == task);
        assert!(
            old.clock == new.clock || may_change,
            "task {task} joined without a grant"
        );
    }
}

/// A try that took: its actor joins.
fn grants_of_try(step: &Step, events: &[Event]) -> Vec<Grant> {
    let taking = |event: &Event| match event {
        Event::Tried { count, success: true } => Some(*count),
        _ => None,
    };
    let grant = |count| Grant {
        to: Taker::Try,
        count,
        task: step.actor as usize,
    };
    events.iter().filter_map(taking).map(grant).collect()
}

/// A poll that took, at once or after waiting. Either way its actor joins, also where the annotation
/// names the task of the last Pending poll.
fn grants_of_poll(step: &Step, slot: usize, events: &[Event]) -> Vec<Grant> {
    let taking = |event: &Event| match event {
        Event::TookAtOnce { count } | Event::TookAfterWaiting { count, .. } => Some(*count),
        _ => None,
    };
    let grant = |count| Grant {
        to: Taker::Slot(slot),
        count,
        task: step.actor as usize,
    };
    events.iter().filter_map(taking).map(grant).collect()
}

/// Grants out of the queue. The annotation names task and count; which slots they were shows in the
/// requests that were queued before and hold permits now, which a scan goes through in order.
fn grants_of_scan(before: &State, events: &[Event], after: &State) -> Vec<Grant> {
    let holds = |slot: &usize| after.slots[*slot].as_ref().is_some_and(|request| request.holding);
    let mut granted = before.queue.iter().copied().filter(holds);
    let mut grants = Vec::new();
    for event in events {
        if let Event::TookAfterWaiting { task, count } = event {
            let slot = granted.next().expect("a queue grant has a slot");
            let request = before.request(slot);
            let task = usize::from(*task);
            assert_eq!((request.task, request.asked), (task, *count), "the grant is the slot's");
            grants.push(Grant {
                to: Taker::Slot(slot),
                count: *count,
                task,
            });
        }
    }
    assert_eq!(
        granted.next(),
        None,
        "a slot that came to hold permits was granted them"
    );
    grants
}

/// The scheduling points of a step. Panics if one came after something had changed already.
pub fn points(before: &State, step: &Step, events: &[Event]) -> Points {
    let came = |wanted: &[Place]| {
        let is_it = |event: &Event| matches!(event, Event::Point { place, .. } if wanted.contains(place));
        let points = events.iter().filter(|event| is_it(event)).count();
        assert!(points <= 1, "a question is about one point");
        points == 1
    };
    for (i, event) in events.iter().enumerate() {
        if let Event::Point { tasks, .. } = event {
            assert!(
                i == 0 && Task::read_all(tasks) == before.tasks,
                "a point comes before the step"
            );
        }
    }
    match step.act {
        Act::Drop { .. } => Points::Two(came(&[Place::SwitchIfNotStopping]), came(&[Place::Switch])),
        Act::Poll { .. } | Act::Try { .. } | Act::TryUpgrade { .. } | Act::Release { .. } | Act::Close => {
            Points::One(came(&[Place::Switch, Place::SwitchIfNotStopping]))
        }
        _ => {
            assert!(!came(&[Place::Switch, Place::SwitchIfNotStopping]), "no point here");
            Points::NotAsked
        }
    }
}
