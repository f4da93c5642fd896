//! Addresses of operands, after `mem_ops.rs`.
use crate::machine::{stack_page_from_base, CallStackEntry, MemoryLocation, MemoryType, Operand};

#[inline(always)]
fn on_stack(frame: &CallStackEntry, index: u16) -> Option<MemoryLocation> {
    Some(MemoryLocation {
        memory_type: MemoryType::Stack,
        page: stack_page_from_base(frame.base_memory_page),
        index: index as u32,
    })
}

/// Where an operand of that kind lies, if in memory; a push or pop moves sp. `low` is the low bits of its register.
#[inline(always)]
pub fn compute_address(frame: &CallStackEntry, sp: &mut u16, low: u16, imm: u16, kind: Operand, is_write: bool) -> Option<MemoryLocation> {
    let vaddr = low.wrapping_add(imm);
    match kind {
        Operand::UseRegOnly | Operand::UseImm16Only => None,
        Operand::UseStackWithPushPop => {
            let old = *sp;
            *sp = if is_write {
                old.wrapping_add(vaddr)
            } else {
                old.wrapping_sub(vaddr)
            };
            on_stack(frame, if is_write { old } else { *sp })
        }
        Operand::UseStackWithOffset => on_stack(frame, sp.wrapping_sub(vaddr)),
        Operand::UseCodePage => Some(MemoryLocation {
            memory_type: MemoryType::Code,
            page: frame.code_page,
            index: vaddr as u32,
        }),
        Operand::UseAbsoluteOnStack => on_stack(frame, vaddr),
    }
}
