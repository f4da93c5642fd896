//! After `opcodes/parsing.rs`.
use super::cycle::PreState;
use super::VmLocalState;
use crate::machine::{DecodedOpcode, Masked, Memory, Opcode};
use std::ops::Deref;

/// The instruction that is carried out: copied if `BY_VALUE`, else where it lies. The compiler leaves out the other of the two.
pub struct Decoded<'r, const BY_VALUE: bool> {
    records: Masked<'r>,
    place: &'r DecodedOpcode,
    copy: DecodedOpcode,
}

impl<const BY_VALUE: bool> Deref for Decoded<'_, BY_VALUE> {
    type Target = DecodedOpcode;

    #[inline(always)]
    fn deref(&self) -> &DecodedOpcode {
        if BY_VALUE {
            &self.copy
        } else {
            self.place
        }
    }
}

impl<'r, const BY_VALUE: bool> Decoded<'r, BY_VALUE> {
    #[inline(always)]
    pub fn new(records: Masked<'r>) -> Self {
        Decoded {
            records,
            place: records.plain,
            copy: *records.plain,
        }
    }

    #[inline(always)]
    fn mask_into(&mut self, record: &'r DecodedOpcode) {
        self.place = record;
        self.copy = *record;
    }

    #[inline(always)]
    pub fn mask_into_panic(&mut self) {
        self.mask_into(self.records.panic);
    }

    #[inline(always)]
    pub fn mask_into_nop(&mut self) {
        self.mask_into(self.records.nop);
    }
}

impl DecodedOpcode {
    #[inline(always)]
    pub fn apply<M: Memory>(&self, vm_state: &mut VmLocalState, memory: &mut M, prestate: PreState) {
        match self.opcode {
            Opcode::Nop => self.noop_opcode_apply(vm_state, prestate),
            Opcode::Add => self.add_opcode_apply(vm_state, memory, prestate),
            Opcode::Sub => self.sub_opcode_apply(vm_state, memory, prestate),
            Opcode::NearCall => self.near_call_opcode_apply(vm_state, prestate),
            Opcode::Ret => self.ret_opcode_apply(vm_state),
        }
    }

    #[inline]
    fn noop_opcode_apply(&self, vm_state: &mut VmLocalState, prestate: PreState) {
        vm_state.callstack.get_current_stack_mut().pc = prestate.new_pc;
    }
}
