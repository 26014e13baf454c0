//! Document 01's rules, and document 02's for the starting clocks, written from their words alone over plain
//! data, with their names. The Rust is held against this, which is the other half of the comparison: it shows
//! where document and Rust part.

use oracle::state::{Clock, Kind, Request, Run, State, Task};
use oracle::step::{Act, Answer, Fresh, Grant, Outcome, Points, Step, Taker, SLOTS};

/// A fresh state that 12 does not refuse.
pub fn fresh(given: &Fresh) -> State {
    let tasks = given.tasks as usize;
    let zero: Clock = vec![0; tasks];
    let task = |clock: Clock| Task {
        run: Run::Runnable,
        woken: false,
        clock,
    };
    let clocks = match &given.clocks {
        Some(entries) => entries.chunks(tasks).map(<[u32]>::to_vec).collect(),
        None => spawned(tasks),
    };
    let tasks: Vec<Task> = clocks.into_iter().map(task).collect();
    let stock = given.stock as usize;
    let batches = given.maker.map(|maker| match stock {
        0 => vec![],
        _ => vec![(stock, tasks[maker as usize].clock.clone())],
    });
    State {
        strictly_fair: given.strictly_fair,
        closed: false,
        stock,
        batches,
        last_acquire: zero,
        queue: vec![],
        reserved: None,
        tasks,
        slots: vec![None; SLOTS],
    }
}

/// "Task 0 spawned the rest in number order, ticking once before each, each child starting with a copy of its
/// clock then."
fn spawned(tasks: usize) -> Vec<Clock> {
    let mut clocks = vec![vec![0; tasks]];
    for _child in 1..tasks {
        clocks[0][0] += 1;
        clocks.push(clocks[0].clone());
    }
    clocks
}

/// An accepted step: what it gives back, and the state after it.
pub fn step(before: &State, step: &Step) -> (Outcome, State) {
    let mut underway = Underway {
        state: before.clone(),
        actor: step.actor as usize,
        grants: vec![],
    };
    let answer = underway.act(step.act);
    let outcome = Outcome {
        answer,
        grants: underway.grants,
        points: points(before, step.act),
    };
    (outcome, underway.state)
}

/// "Points": asked before the step.
fn points(state: &State, act: Act) -> Points {
    match act {
        Act::Try { .. } | Act::TryUpgrade { .. } | Act::Release { .. } | Act::Close => Points::One(true),
        Act::Poll { slot } => {
            let request = state.request(slot as usize);
            let available = if state.reserved.is_some() { 0 } else { state.stock };
            let comes = state.strictly_fair || request.holding || state.closed || available >= request.least;
            Points::One(!request.polled && comes)
        }
        Act::Drop { slot } => {
            let request = state.request(slot as usize);
            let waits = request.queued || state.reserved == Some(slot as usize);
            Points::Two(waits, !waits && request.holding && !request.completed)
        }
        _ => Points::NotAsked,
    }
}

/// A step under way.
struct Underway {
    state: State,
    actor: usize,
    grants: Vec<Grant>,
}

impl Underway {
    fn act(&mut self, act: Act) -> Answer {
        match act {
            Act::Request { asked } => self.make(asked, asked, Kind::Back, false),
            Act::Bypassable { asked } => self.make(asked, asked, Kind::Bypassable, false),
            Act::Reserving { least, asked } => self.make(asked, least, Kind::Back, true),
            Act::Upgrade { held, wanted } if self.state.strictly_fair => {
                self.make(wanted - held, wanted - held, Kind::Front, false)
            }
            Act::Upgrade { held, wanted } => self.make(wanted - held, 0, Kind::Back, true),
            Act::Try { asked } => self.try_now(asked as usize, Kind::Back),
            Act::TryUpgrade { held, wanted } => self.try_now((wanted - held) as usize, Kind::Front),
            Act::Poll { slot } => self.poll(slot as usize),
            Act::Release { count } => {
                self.release(count as usize);
                Answer::Done
            }
            Act::Drop { slot } => {
                self.drop(slot as usize);
                Answer::Done
            }
            Act::Close => {
                self.close();
                Answer::Done
            }
            Act::Sleep => {
                let task = &mut self.state.tasks[self.actor];
                if !task.woken {
                    task.run = Run::Sleeping;
                }
                task.woken = false;
                Answer::Done
            }
            Act::Finish => {
                self.state.tasks[self.actor].run = Run::Finished;
                Answer::Done
            }
        }
    }

    fn request(&mut self, slot: usize) -> &mut Request {
        self.state.slots[slot].as_mut().expect("the slot is in use")
    }

    fn make(&mut self, asked: u32, least: u32, kind: Kind, reserving: bool) -> Answer {
        let slot = self
            .state
            .slots
            .iter()
            .position(Option::is_none)
            .expect("a slot is free");
        self.state.slots[slot] = Some(Request {
            asked: asked as usize,
            least: least as usize,
            kind,
            reserving,
            clock: self.state.tasks[self.actor].clock.clone(),
            task: self.actor,
            queued: false,
            holding: false,
            completed: false,
            polled: false,
        });
        Answer::Slot(slot)
    }

    fn tick(&mut self) {
        self.state.tasks[self.actor].clock[self.actor] += 1;
    }

    fn set_up(&mut self) {
        if self.state.batches.is_none() {
            let empty = vec![0; self.state.tasks.len()];
            self.state.batches = Some(match self.state.stock {
                0 => vec![],
                stock => vec![(stock, empty)],
            });
        }
    }

    /// "Taking n" up to the joined clocks of the batches touched.
    fn take(&mut self, count: usize, clock: &Clock) -> Clock {
        self.set_up();
        join(&mut self.state.last_acquire, clock);
        self.state.stock -= count;
        let mut result = vec![0; self.state.tasks.len()];
        let batches = self.state.batches.as_mut().expect("set up");
        let mut left = count;
        while left > 0 {
            let (size, batch) = &mut batches[0];
            join(&mut result, batch);
            let eaten = left.min(*size);
            *size -= eaten;
            left -= eaten;
            if *size == 0 {
                batches.remove(0);
            }
        }
        result
    }

    /// Taking by the actor, who ticks and joins the result.
    fn actor_takes(&mut self, count: usize, to: Taker) {
        let clock = self.state.tasks[self.actor].clock.clone();
        let result = self.take(count, &clock);
        self.tick();
        join(&mut self.state.tasks[self.actor].clock, &result);
        self.grants.push(Grant {
            to,
            count,
            task: self.actor,
        });
    }

    fn direct(&mut self, count: usize, kind: Kind, to: Taker) -> Answer {
        if self.state.closed {
            return Answer::Closed;
        }
        if self.state.reserved.is_some() {
            return Answer::NoPermits;
        }
        let bypassable = |slot: &usize| self.state.request(*slot).kind == Kind::Bypassable;
        let may = self.state.queue.iter().all(bypassable) || !self.state.strictly_fair || kind == Kind::Front;
        if may && count <= self.state.stock {
            self.actor_takes(count, to);
            Answer::Granted
        } else {
            Answer::NoPermits
        }
    }

    fn try_now(&mut self, count: usize, kind: Kind) -> Answer {
        let answer = self.direct(count, kind, Taker::Try);
        if answer == Answer::Granted {
            self.reblock();
        } else {
            self.tick();
            let last = self.state.last_acquire.clone();
            join(&mut self.state.tasks[self.actor].clock, &last);
        }
        answer
    }

    fn poll(&mut self, slot: usize) -> Answer {
        let actor = self.actor;
        let request = self.state.request(slot).clone();
        let answer = if request.holding {
            Answer::Granted
        } else if self.state.closed {
            Answer::Closed
        } else if request.reserving {
            self.poll_reserving(slot, &request)
        } else {
            self.poll_plain(slot, &request)
        };
        let request = self.request(slot);
        request.polled = true;
        match answer {
            Answer::Granted => (request.holding, request.completed) = (true, true),
            Answer::Closed => request.completed = true,
            _ => request.task = actor,
        }
        answer
    }

    fn poll_reserving(&mut self, slot: usize, request: &Request) -> Answer {
        if self.state.reserved == Some(slot) {
            if self.state.stock < request.asked {
                return Answer::Pending;
            }
            self.state.reserved = None;
            self.actor_takes(request.asked, Taker::Slot(slot));
            self.wake_the_unfair();
            return Answer::Granted;
        }
        if self.state.reserved.is_some() || self.state.stock < request.least {
            if !request.queued {
                self.state.queue.push(slot);
                self.request(slot).queued = true;
            }
            return Answer::Pending;
        }
        if request.asked <= self.state.stock {
            self.actor_takes(request.asked, Taker::Slot(slot));
            self.leave_queue(slot);
            self.reblock();
            return Answer::Granted;
        }
        self.leave_queue(slot);
        self.state.reserved = Some(slot);
        self.reblock();
        Answer::Pending
    }

    fn poll_plain(&mut self, slot: usize, request: &Request) -> Answer {
        if request.queued && self.state.strictly_fair {
            return Answer::Pending;
        }
        if self.direct(request.asked, request.kind, Taker::Slot(slot)) == Answer::Granted {
            self.leave_queue(slot);
            self.reblock();
            return Answer::Granted;
        }
        if !request.queued {
            match request.kind {
                Kind::Front => self.state.queue.insert(0, slot),
                _ => self.state.queue.push(slot),
            }
            self.request(slot).queued = true;
        }
        Answer::Pending
    }

    fn leave_queue(&mut self, slot: usize) {
        self.state.queue.retain(|queued| *queued != slot);
        self.request(slot).queued = false;
    }

    fn release(&mut self, count: usize) {
        if count == 0 {
            return;
        }
        self.tick();
        self.set_up();
        self.state.stock += count;
        let clock = self.state.tasks[self.actor].clock.clone();
        self.state.batches.as_mut().expect("set up").push((count, clock));
        if self.state.strictly_fair {
            self.scan();
        } else {
            self.wake_the_unfair();
        }
    }

    fn scan(&mut self) {
        for slot in self.state.queue.clone() {
            let request = self.state.request(slot).clone();
            if self.state.finished(request.task) {
                self.leave_queue(slot);
            } else if request.asked <= self.state.stock {
                let result = self.take(request.asked, &request.clock);
                join(&mut self.state.tasks[request.task].clock, &result);
                self.grants.push(Grant {
                    to: Taker::Slot(slot),
                    count: request.asked,
                    task: request.task,
                });
                self.request(slot).holding = true;
                self.leave_queue(slot);
                self.unblock_and_wake(request.task);
            } else if request.kind != Kind::Bypassable {
                return;
            }
        }
    }

    fn unblock_and_wake(&mut self, task: usize) {
        let task = &mut self.state.tasks[task];
        task.run = Run::Runnable;
        task.woken = true;
    }

    fn wake_the_unfair(&mut self) {
        if let Some(slot) = self.state.reserved {
            let request = self.state.request(slot).clone();
            if self.state.finished(request.task) {
                self.state.reserved = None;
            } else {
                if request.asked <= self.state.stock {
                    self.unblock_and_wake(request.task);
                }
                return;
            }
        }
        for slot in self.state.queue.clone() {
            let request = self.state.request(slot).clone();
            if request.least <= self.state.stock && !self.state.finished(request.task) {
                self.unblock_and_wake(request.task);
            }
        }
    }

    fn reblock(&mut self) {
        if self.state.strictly_fair {
            return;
        }
        for slot in self.state.queue.clone() {
            let request = self.state.request(slot).clone();
            let stuck = self.state.reserved.is_some() || request.least > self.state.stock;
            if stuck && !self.state.finished(request.task) && request.task != self.actor {
                self.state.tasks[request.task].run = Run::Blocked;
            }
        }
    }

    fn drop(&mut self, slot: usize) {
        let request = self.state.request(slot).clone();
        if request.queued {
            let was_first = self.state.queue[0] == slot;
            self.leave_queue(slot);
            let front = self.state.queue.first();
            let bypassable = front.is_some_and(|slot| self.state.request(*slot).kind == Kind::Bypassable);
            if self.state.strictly_fair && (was_first || bypassable) {
                self.scan();
            }
        } else if self.state.reserved == Some(slot) {
            self.state.reserved = None;
            self.wake_the_unfair();
        } else if request.holding && !request.completed {
            self.release(request.asked);
        }
        self.state.slots[slot] = None;
    }

    fn close(&mut self) {
        if self.state.closed {
            return;
        }
        self.state.closed = true;
        let waiting = std::mem::take(&mut self.state.queue).into_iter();
        for slot in waiting.chain(self.state.reserved.take()) {
            self.request(slot).queued = false;
            let task = self.state.request(slot).task;
            if !self.state.finished(task) {
                self.unblock_and_wake(task);
            }
        }
    }
}

fn join(clock: &mut Clock, other: &Clock) {
    for (entry, other) in clock.iter_mut().zip(other) {
        *entry = (*entry).max(*other);
    }
}
