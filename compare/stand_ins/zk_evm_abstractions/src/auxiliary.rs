//! Places, times and costs.

pub use crate::vm::MemoryType;

#[derive(Clone, Copy, Debug, PartialEq, Eq)]
pub struct Timestamp(pub u32);

#[derive(Clone, Copy, Debug, PartialEq, Eq)]
pub struct MemoryPage(pub u32);

#[derive(Clone, Copy, Debug, PartialEq, Eq)]
pub struct MemoryIndex(pub u32);

#[derive(Clone, Copy, Debug, PartialEq, Eq)]
pub struct PubdataCost(pub i32);

#[derive(Clone, Copy, Debug, PartialEq, Eq)]
pub struct MemoryLocation {
    pub memory_type: MemoryType,
    pub page: MemoryPage,
    pub index: MemoryIndex,
}

#[derive(Clone, Copy, Debug, PartialEq, Eq)]
pub struct MemoryKey {
    pub location: MemoryLocation,
    pub timestamp: Timestamp,
}
