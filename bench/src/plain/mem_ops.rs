//! After `vm_state/mem_ops.rs`.
use super::VmLocalState;
use crate::machine::{stack_page_from_base, CallStackEntry, MemoryLocation, MemoryType, Operand, PrimitiveValue};

pub struct MemOpsProcessor {
    pub sp: u16,
}

#[inline]
fn on_stack(current_context: &CallStackEntry, index: u16) -> Option<MemoryLocation> {
    Some(MemoryLocation {
        memory_type: MemoryType::Stack,
        page: stack_page_from_base(current_context.base_memory_page),
        index: index as u32,
    })
}

impl MemOpsProcessor {
    /// The register's value, and where the operand lies if in memory; a push or pop moves sp.
    #[inline(always)]
    pub fn compute_addresses_and_select_operands(
        &mut self,
        vm_state: &VmLocalState,
        register_index_encoding: u8,
        imm: u16,
        mem_imm: Operand,
        is_write: bool,
    ) -> (PrimitiveValue, Option<MemoryLocation>) {
        let primitive_value = vm_state.select_register_value(register_index_encoding);
        let vaddr = primitive_value.value.low_u16().wrapping_add(imm);
        let current_context = vm_state.callstack.get_current_stack();
        let memory_location = match mem_imm {
            Operand::UseRegOnly | Operand::UseImm16Only => None,
            Operand::UseStackWithPushPop if is_write => {
                let old_sp = self.sp;
                self.sp = old_sp.wrapping_add(vaddr);
                on_stack(current_context, old_sp)
            }
            Operand::UseStackWithPushPop => {
                self.sp = self.sp.wrapping_sub(vaddr);
                on_stack(current_context, self.sp)
            }
            Operand::UseStackWithOffset => on_stack(current_context, self.sp.wrapping_sub(vaddr)),
            Operand::UseCodePage => Some(MemoryLocation {
                memory_type: MemoryType::Code,
                page: current_context.code_page,
                index: vaddr as u32,
            }),
            Operand::UseAbsoluteOnStack => on_stack(current_context, vaddr),
        };
        (primitive_value, memory_location)
    }
}
