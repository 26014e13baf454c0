//! Stand-in for Shuttle's `sync_types`, which is not in the text given. Signatures tell semaphores
//! apart in reports and decide nothing.

#[derive(Clone, Copy, Debug, PartialEq, Eq)]
pub enum ResourceType {
    BatchSemaphore,
}

#[derive(Clone, Copy, Debug, PartialEq, Eq)]
pub struct ResourceSignature {
    pub resource_type: ResourceType,
}

impl ResourceSignature {
    pub const fn new_const(resource_type: ResourceType) -> Self {
        Self { resource_type }
    }
}
