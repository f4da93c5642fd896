//! Cases that leave the domain.

use super::Maker;
use crate::case::*;

/// Fields of a row, with the least value that makes it not good.
pub const NOT_GOOD: [(usize, u32); 8] = [
    (place::SP, 1 << 16),
    (place::PC, 1 << 16),
    (place::HANDLER, 1 << 16),
    (place::SHARDS, 1 << 8),
    (place::SHARDS + 1, 1 << 8),
    (place::SHARDS + 2, 1 << 8),
    (place::STATIC, 2),
    (place::LOCAL, 2),
];

impl Maker {
    /// Does to a case what may take it out of the domain; not all are then refused.
    pub fn spoil(&mut self, case: &mut Case) {
        let Case { state, records, .. } = case;
        match self.random.below(18) {
            0 => self.spoil_settings(&mut case.settings),
            1 => {
                // the format has no more rows than the greatest limit
                let limit = case.settings.limit.min(MOST_ROWS - 1);
                case.settings.limit = limit;
                state.saved.resize(limit as usize + 1, Row([0; ROW]));
            }
            2 => {
                let (place, value) = self.random.pick(&NOT_GOOD);
                if let Some(row) = state.saved.last_mut() {
                    row.0[place] = value;
                }
            }
            3 | 4 => self.spoil_field(&mut records.plain),
            5 => self.spoil_field(&mut records.panic),
            6 => self.spoil_field(&mut records.nop),
            7 => records.panic.return_kind = self.random.pick(&[return_kind::OK, return_kind::REVERT]),
            8 => records.panic.operation = self.random.below(4) as u8,
            9 => records.nop.operation = 1 + self.random.below(4) as u8,
            10 | 11 => records.plain.operation = operation::OTHER,
            12 => records.plain.operation = self.random.below(5) as u8,
            13 => records.plain.return_kind = self.random.below(3) as u8,
            14 => records.plain.explicit_panic = true,
            15 => records.plain.kernel_only = true,
            16 => records.plain.allowed_when_static = false,
            _ => self.spoil_pointers(case),
        }
    }

    /// Every register a pointer, and masked records that name some.
    fn spoil_pointers(&mut self, case: &mut Case) {
        for register in case.state.registers.iter_mut().chain([&mut case.source]) {
            register.is_pointer = true;
        }
        for masked in [&mut case.records.panic, &mut case.records.nop] {
            *masked = Record {
                operation: masked.operation,
                return_kind: masked.return_kind,
                ..self.record()
            };
        }
    }

    fn spoil_settings(&mut self, settings: &mut Settings) {
        match self.random.below(4) {
            0 => settings.limit = settings.limit.saturating_sub(1),
            1 => settings.limit = 0,
            2 => settings.multiplier ^= 1,
            _ => settings.time_step ^= 1,
        }
    }

    fn spoil_field(&mut self, record: &mut Record) {
        match self.random.below(8) {
            0 => record.operation = 6,
            1 => record.return_kind = 3,
            2 => record.condition = 8,
            3 => record.source_kind = 6,
            4 => record.destination_kind = self.random.pick(&[kind::IMMEDIATE, kind::CODE_PAGE, 6]),
            5 => record.src0 = 16,
            6 => record.src1 = 16,
            _ => record.dst0 = 16,
        }
    }
}
