//! The operations whose sources are not at hand: nop, which sets pc, and those that are not carried over.

use crate::opcodes::DecodedOpcode;
use crate::vm_state::{PreState, VmState};
use crate::witness_trace::VmWitnessTracer;
use zk_evm_abstractions::vm::{DecommittmentProcessor, EventSink, Memory, PrecompilesProcessor, Storage};
use zkevm_opcode_defs::decoding::VmEncodingMode;

/// One method for each: its name, the two arguments, the result type and the body.
macro_rules! opcodes {
    ($($name:ident($vm_state:ident, $prestate:ident) -> $result:ty $body:block)*) => {
        impl<const N: usize, E: VmEncodingMode<N>> DecodedOpcode<N, E> {
            $(
                pub fn $name<
                    S: Storage,
                    M: Memory,
                    EV: EventSink,
                    PP: PrecompilesProcessor,
                    DP: DecommittmentProcessor,
                    WT: VmWitnessTracer<N, E>,
                >(
                    &self,
                    $vm_state: &mut VmState<S, M, EV, PP, DP, WT, N, E>,
                    $prestate: PreState<N, E>,
                ) -> $result $body
            )*
        }
    };
}

opcodes! {
    noop_opcode_apply(vm_state, prestate) -> () {
        vm_state.local_state.callstack.get_current_stack_mut().pc = prestate.new_pc;
    }
    mul_opcode_apply(_vm_state, _prestate) -> () { not_carried_over() }
    div_opcode_apply(_vm_state, _prestate) -> () { not_carried_over() }
    jump_opcode_apply(_vm_state, _prestate) -> () { not_carried_over() }
    context_opcode_apply(_vm_state, _prestate) -> () { not_carried_over() }
    shift_opcode_apply(_vm_state, _prestate) -> () { not_carried_over() }
    binop_opcode_apply(_vm_state, _prestate) -> () { not_carried_over() }
    ptr_opcode_apply(_vm_state, _prestate) -> () { not_carried_over() }
    log_opcode_apply(_vm_state, _prestate) -> anyhow::Result<()> { not_carried_over() }
    far_call_opcode_apply(_vm_state, _prestate) -> anyhow::Result<()> { not_carried_over() }
    uma_opcode_apply(_vm_state, _prestate) -> () { not_carried_over() }
}

/// Operation 5, which is outside the domain.
fn not_carried_over() -> ! {
    panic!("this operation is not carried over")
}
