//! After `vm_state/execution_stack.rs`.
use crate::machine::CallStackEntry;

/// The current frame, and the saved ones in a lent array, the oldest first; places from the depth on are free.
#[derive(Debug)]
pub struct Callstack<'a> {
    pub current: CallStackEntry,
    pub inner: &'a mut [CallStackEntry],
    pub depth: usize,
    pub max_depth: usize,
}

impl Callstack<'_> {
    #[inline]
    pub fn push_entry(&mut self, entry: CallStackEntry) {
        let old = std::mem::replace(&mut self.current, entry);
        self.inner[self.depth] = old;
        self.depth += 1;
    }

    #[inline]
    pub fn pop_entry(&mut self) -> CallStackEntry {
        self.depth -= 1;
        let previous = self.inner[self.depth];
        std::mem::replace(&mut self.current, previous)
    }

    #[inline]
    pub fn is_full(&self) -> bool {
        self.depth() == self.max_depth
    }

    #[inline]
    pub fn is_empty(&self) -> bool {
        self.depth() == 0
    }

    #[inline]
    pub fn depth(&self) -> usize {
        self.depth
    }

    #[inline]
    pub fn get_current_stack(&self) -> &CallStackEntry {
        &self.current
    }

    #[inline]
    pub fn get_current_stack_mut(&mut self) -> &mut CallStackEntry {
        &mut self.current
    }
}
