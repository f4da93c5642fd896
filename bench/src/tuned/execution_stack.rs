//! Frames, after `execution_stack.rs`. The current frame is the one at the depth of the array, so that a return copies nothing.
use crate::machine::CallStackEntry;

/// The saved frames, the oldest first, then the current one; places past it are free.
#[derive(Debug)]
pub struct Callstack<'a> {
    pub frames: &'a mut [CallStackEntry],
    pub depth: usize,
    pub max_depth: usize,
}

impl Callstack<'_> {
    #[inline(always)]
    pub fn is_full(&self) -> bool {
        self.depth == self.max_depth
    }

    #[inline(always)]
    pub fn is_empty(&self) -> bool {
        self.depth == 0
    }

    #[inline(always)]
    pub fn get_current_stack(&self) -> &CallStackEntry {
        &self.frames[self.depth]
    }

    #[inline(always)]
    pub fn get_current_stack_mut(&mut self) -> &mut CallStackEntry {
        &mut self.frames[self.depth]
    }

    /// Copies the current frame to the next place, which becomes the current one.
    #[inline(always)]
    pub fn push_copy(&mut self) -> &mut CallStackEntry {
        let (saved, free) = self.frames.split_at_mut(self.depth + 1);
        self.depth += 1;
        free[0] = saved[self.depth - 1];
        &mut free[0]
    }

    /// The frame that is closed, and its caller, which becomes the current one.
    #[inline(always)]
    pub fn pop_entry(&mut self) -> (&CallStackEntry, &mut CallStackEntry) {
        let (saved, closed) = self.frames.split_at_mut(self.depth);
        self.depth -= 1;
        (&closed[0], &mut saved[self.depth])
    }
}
