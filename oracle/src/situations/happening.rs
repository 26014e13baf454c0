//! A step with the states around it and the start of its run, and the questions that the list of situations
//! asks about it.

use crate::state::{Kind, Request, State, Task};
use crate::step::{Act, Answer, Fresh, Outcome, Points, Step};

pub struct Happening<'a> {
    /// How the run started, and the state then.
    pub fresh: &'a Fresh,
    pub start: &'a State,
    pub before: &'a State,
    pub step: &'a Step,
    pub result: &'a Result<Outcome, u8>,
    pub after: &'a State,
}

impl<'a> Happening<'a> {
    pub fn letter(&self) -> char {
        match self.step.act {
            Act::Request { .. } => 'A',
            Act::Bypassable { .. } => 'B',
            Act::Reserving { .. } => 'R',
            Act::Upgrade { .. } => 'U',
            Act::Poll { .. } => 'P',
            Act::Try { .. } => 'T',
            Act::TryUpgrade { .. } => 'V',
            Act::Release { .. } => 'L',
            Act::Drop { .. } => 'D',
            Act::Close => 'C',
            Act::Sleep => 'Z',
            Act::Finish => 'F',
        }
    }

    pub fn actor(&self) -> usize {
        self.step.actor as usize
    }

    pub fn strict(&self) -> bool {
        self.before.strictly_fair
    }

    /// Open, and nobody has the reservation.
    pub fn unclaimed(&self) -> bool {
        !self.before.closed && self.before.reserved.is_none()
    }

    pub fn did(&self, letter: char) -> bool {
        self.result.is_ok() && self.letter() == letter
    }

    pub fn answered(&self, answer: Answer) -> bool {
        self.result.as_ref().is_ok_and(|outcome| outcome.answer == answer)
    }

    pub fn pointed(&self, points: Points) -> bool {
        self.result.as_ref().is_ok_and(|outcome| outcome.points == points)
    }

    pub fn grants(&self) -> usize {
        self.result.as_ref().map_or(0, |outcome| outcome.grants.len())
    }

    /// The slot of an accepted poll or drop, and its request before.
    fn target(&self, letter: char) -> Option<(usize, &'a Request)> {
        match self.step.act {
            Act::Poll { slot } | Act::Drop { slot } if self.did(letter) => {
                Some((slot as usize, self.before.request(slot as usize)))
            }
            _ => None,
        }
    }

    pub fn polled(&self) -> Option<(usize, &'a Request)> {
        self.target('P')
    }

    pub fn dropped(&self) -> Option<(usize, &'a Request)> {
        self.target('D')
    }

    /// Polls that neither hold permits already nor find the semaphore closed.
    pub fn open_poll(&self, reserving: bool) -> Option<(usize, &'a Request)> {
        let undecided = |(_, request): &(usize, &Request)| {
            !request.holding && !self.before.closed && request.reserving == reserving
        };
        self.polled().filter(undecided)
    }

    /// What goes by the direct rule: its kind and how much it asks.
    pub fn direct(&self) -> Option<(Kind, usize)> {
        if self.result.is_err() {
            return None;
        }
        match self.step.act {
            Act::Try { asked } => Some((Kind::Back, asked as usize)),
            Act::TryUpgrade { held, wanted } => Some((Kind::Front, (wanted - held) as usize)),
            _ => {
                let (_, request) = self.open_poll(false)?;
                let asks = !(request.queued && self.before.strictly_fair);
                asks.then_some((request.kind, request.asked))
            }
        }
    }

    pub fn has_reservation(&self, slot: usize) -> bool {
        self.before.reserved == Some(slot)
    }

    /// The count of a release above 0, or of the release in which a drop ends.
    pub fn released(&self) -> bool {
        match self.step.act {
            Act::Release { count } => self.result.is_ok() && count > 0,
            _ => self
                .dropped()
                .is_some_and(|(_, request)| request.holding && !request.completed),
        }
    }

    /// The queue that a scan or a waking finds: without the request that is being dropped.
    pub fn queue(&self) -> Vec<usize> {
        let dropped = self.dropped().map(|(slot, _)| slot);
        let stays = |slot: &usize| Some(*slot) != dropped;
        self.before.queue.iter().copied().filter(stays).collect()
    }

    pub fn scans(&self) -> bool {
        let by_removal = self.dropped().is_some_and(|(slot, request)| {
            let was_first = self.before.queue.first() == Some(&slot);
            let bypassable = |slot: &usize| self.before.request(*slot).kind == Kind::Bypassable;
            request.queued && (was_first || self.queue().first().is_some_and(bypassable))
        });
        self.before.strictly_fair && (by_removal || self.released())
    }

    pub fn wakes_unfair(&self) -> bool {
        let ends_reservation = |(slot, _): (usize, &Request)| self.has_reservation(slot);
        let by_poll = self.polled().is_some_and(ends_reservation) && self.answered(Answer::Granted);
        !self.before.strictly_fair && (self.released() || self.dropped().is_some_and(ends_reservation) || by_poll)
    }

    /// A request that comes to have the reservation in this step.
    pub fn reserves(&self) -> bool {
        self.after.reserved.is_some() && self.before.reserved != self.after.reserved
    }

    pub fn reblocks(&self) -> bool {
        let took = |(slot, request): (usize, &Request)| {
            !request.holding && !self.has_reservation(slot) && self.answered(Answer::Granted)
        };
        let tried = matches!(self.letter(), 'T' | 'V') && self.answered(Answer::Granted);
        !self.before.strictly_fair && (tried || self.reserves() || self.polled().is_some_and(took))
    }

    /// Queued requests that left the queue without permits, the dropped one apart.
    pub fn discarded(&self) -> usize {
        let left = |slot: &usize| {
            let after = self.after.slots[*slot].as_ref();
            after.is_some_and(|request| !request.queued && !request.holding)
        };
        self.queue().iter().filter(|slot| left(slot)).count()
    }

    /// Whether some task changed as `changed` says.
    pub fn some_task(&self, changed: impl Fn(usize, &Task, &Task) -> bool) -> bool {
        let pairs = self.before.tasks.iter().zip(&self.after.tasks);
        pairs.enumerate().any(|(task, (old, new))| changed(task, old, new))
    }

    /// Whether some request in the queue that the step finds is as `wanted` says.
    pub fn some_queued(&self, wanted: impl Fn(&Request) -> bool) -> bool {
        self.queue().iter().any(|slot| wanted(self.before.request(*slot)))
    }
}
