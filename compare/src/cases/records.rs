//! Instruction records.

use super::Maker;
use crate::case::*;

/// Operations as often as they are wanted.
const OPERATIONS: [u8; 10] = [
    operation::NOP,
    operation::ADD,
    operation::ADD,
    operation::SUB,
    operation::SUB,
    operation::NEAR_CALL,
    operation::NEAR_CALL,
    operation::RETURN,
    operation::RETURN,
    operation::RETURN,
];

/// The same for execute alone.
const OPERATIONS_ALONE: [u8; 10] = [
    operation::NOP,
    operation::ADD,
    operation::SUB,
    operation::NEAR_CALL,
    operation::NEAR_CALL,
    operation::NEAR_CALL,
    operation::RETURN,
    operation::RETURN,
    operation::RETURN,
    operation::RETURN,
];

pub const DESTINATIONS: [u8; 4] = [kind::REGISTER, kind::PUSH_POP, kind::STACK_OFFSET, kind::ABSOLUTE_STACK];

impl Maker {
    /// The plain record. An ended execution takes a nop, an exception a panic return.
    pub fn plain(&mut self, current: &Row, has_ended: bool, pending_exception: bool) -> Record {
        let mut record = self.record();
        record.price = self.price(current.0[place::ERGS]);
        record.explicit_panic = self.random.per_mille(30);
        record.kernel_only = self.random.per_mille(60);
        record.allowed_when_static = self.random.per_mille(850);
        if has_ended {
            record.operation = operation::NOP;
            record.explicit_panic = false;
            record.kernel_only &= current.is_kernel();
            record.allowed_when_static |= current.0[place::STATIC] == 1;
        } else if pending_exception {
            record.operation = operation::RETURN;
            record.return_kind = return_kind::PANIC;
        }
        record
    }

    /// A record that execute alone finds kept: no swap, and the source a register or an immediate.
    pub fn kept(&mut self, current: &Row) -> Record {
        Record {
            operation: self.random.pick(&OPERATIONS_ALONE),
            source_kind: self.random.pick(&[kind::REGISTER, kind::REGISTER, kind::IMMEDIATE]),
            swap: false,
            ..self.plain(current, false, false)
        }
    }

    /// A price, often about the ergs held.
    fn price(&mut self, ergs: u32) -> u32 {
        match self.random.below(20) {
            0..3 => ergs,
            3 => ergs.saturating_add(1),
            4 => ergs.saturating_sub(1),
            5 => 0,
            6 => self.random.u32(),
            7 => u32::MAX,
            8..12 => ergs / (2 + self.random.below(100)),
            _ => self.random.below(100).min(ergs),
        }
    }

    /// A record of any operation from 0 to 4 with fields within their lists.
    pub fn record(&mut self) -> Record {
        let [imm_0, imm_1] = [self.narrow(), self.narrow()];
        let random = &mut self.random;
        Record {
            operation: random.pick(&OPERATIONS),
            return_kind: random.below(3) as u8,
            condition: if random.bit() { 0 } else { random.below(8) as u8 },
            source_kind: random.below(6) as u8,
            destination_kind: random.pick(&DESTINATIONS),
            src0: random.below(16) as u8,
            src1: random.below(16) as u8,
            dst0: random.below(16) as u8,
            imm_0,
            imm_1,
            price: random.u32(),
            explicit_panic: random.bit(),
            kernel_only: random.bit(),
            allowed_when_static: random.bit(),
            swap: random.per_mille(300),
            set_flags: random.bit(),
            to_label: random.per_mille(300),
            src0_may_be_pointer: random.per_mille(600),
            src1_may_be_pointer: random.per_mille(600),
        }
    }

    /// A masked record: mostly bare, as the Rust makes it, else with any other fields.
    pub fn masked(&mut self, operation: u8, return_kind: u8) -> Record {
        let fields = if self.random.per_mille(700) {
            Record::default()
        } else {
            self.record()
        };
        Record {
            operation,
            return_kind,
            ..fields
        }
    }
}
