//! A decoded instruction: what `cycle.rs` reads of `DecodedOpcode` and its variant, `parsing.rs` of its masked forms.

#[derive(Clone, Copy, PartialEq, Eq, Default, Debug)]
#[repr(u8)]
pub enum Opcode {
    #[default]
    Nop,
    Add,
    Sub,
    NearCall,
    Ret,
}

#[derive(Clone, Copy, PartialEq, Eq, Default, Debug)]
#[repr(u8)]
pub enum RetOpcode {
    #[default]
    Ok,
    Revert,
    Panic,
}

#[derive(Clone, Copy, PartialEq, Eq, Default, Debug)]
#[repr(u8)]
pub enum Condition {
    #[default]
    Always,
    Gt,
    Lt,
    Eq,
    Ge,
    Le,
    Ne,
    GtOrLt,
}

/// The cases of the Rust's `Operand` that differ in what `mem_ops.rs` does.
#[derive(Clone, Copy, PartialEq, Eq, Default, Debug)]
#[repr(u8)]
pub enum Operand {
    #[default]
    UseRegOnly,
    UseImm16Only,
    UseStackWithPushPop,
    UseStackWithOffset,
    UseCodePage,
    UseAbsoluteOnStack,
}

#[derive(Clone, Copy, Default, Debug)]
pub struct DecodedOpcode {
    pub opcode: Opcode,
    pub ret: RetOpcode,
    pub condition: Condition,
    pub src0_operand_type: Operand,
    pub dst0_operand_type: Operand,
    pub src0_reg_idx: u8,
    pub src1_reg_idx: u8,
    pub dst0_reg_idx: u8,
    pub imm_0: u16,
    pub imm_1: u16,
    pub ergs_cost: u32,
    pub is_explicit_panic: bool,
    pub requires_kernel_mode: bool,
    pub can_be_used_in_static_context: bool,
    pub swap_operands: bool,
    pub set_flags: bool,
    pub to_label: bool,
    pub src0_can_be_pointer: bool,
    pub src1_can_be_pointer: bool,
}

impl DecodedOpcode {
    /// A nop with every field 0 or no.
    pub const NOP: Self = DecodedOpcode {
        opcode: Opcode::Nop,
        ret: RetOpcode::Ok,
        condition: Condition::Always,
        src0_operand_type: Operand::UseRegOnly,
        dst0_operand_type: Operand::UseRegOnly,
        src0_reg_idx: 0,
        src1_reg_idx: 0,
        dst0_reg_idx: 0,
        imm_0: 0,
        imm_1: 0,
        ergs_cost: 0,
        is_explicit_panic: false,
        requires_kernel_mode: false,
        can_be_used_in_static_context: false,
        swap_operands: false,
        set_flags: false,
        to_label: false,
        src0_can_be_pointer: false,
        src1_can_be_pointer: false,
    };

    pub const PANIC: Self = DecodedOpcode {
        opcode: Opcode::Ret,
        ret: RetOpcode::Panic,
        ..Self::NOP
    };
}

/// An instruction and what `mask_into_panic` and `mask_into_nop` make of it.
#[derive(Clone, Copy, Debug)]
pub struct Masked<'a> {
    pub plain: &'a DecodedOpcode,
    pub panic: &'a DecodedOpcode,
    pub nop: &'a DecodedOpcode,
}
