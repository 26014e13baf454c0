//! The calls by which Shuttle's annotations learn what a semaphore did. The oracle listens here to
//! learn of takings and releases from the source itself.

use crate::events::{record, Event};
use crate::runtime::task::TaskId;

/// Names a semaphore in the annotations; there is only one here.
#[derive(Clone, Copy, Debug, PartialEq, Eq)]
pub struct ObjectId;

pub trait WithName {
    fn with_name_and_kind(self, name: Option<&str>, kind: Option<&str>) -> Self;
}

pub fn record_name_for_object(_id: ObjectId, _name: Option<&str>, _kind: Option<&str>) {}

pub fn record_semaphore_created() -> ObjectId {
    ObjectId
}

pub fn record_semaphore_closed(_id: ObjectId) {
    record(Event::Closed);
}

pub fn record_semaphore_release(_id: ObjectId, count: usize) {
    record(Event::Released { count });
}

/// A poll took its permits and was not queued.
pub fn record_semaphore_acquire_fast(_id: ObjectId, count: usize) {
    record(Event::TookAtOnce { count });
}

/// A request that waited got its permits: by a scan, or by its own poll.
pub fn record_semaphore_acquire_unblocked(_id: ObjectId, task: TaskId, count: usize) {
    record(Event::TookAfterWaiting { task, count });
}

pub fn record_semaphore_acquire_blocked(_id: ObjectId, count: usize) {
    record(Event::Waits { count });
}

pub fn record_semaphore_try_acquire(_id: ObjectId, count: usize, success: bool) {
    record(Event::Tried { count, success });
}
