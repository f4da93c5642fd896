//! All the ways out of the domain.

use super::records::DESTINATIONS;
use super::spoil::NOT_GOOD;
use super::{calm, Maker};
use crate::case::*;
use crate::oracle::BUILT_WITH;
use crate::random::Random;

impl Maker {
    /// A case with little in it, at times a record that is masked away.
    pub fn bare(&mut self) -> Case {
        let operation = self.random.below(5) as u8;
        let depth = self.random.pick(&[0, 1, 1, 1, 1, BUILT_WITH.limit]);
        let mut case = calm::alone(operation, depth);
        if !self.one_in(4) {
            case.part = Part::Cycle;
        }
        self.fill_frame(&mut case.state.current);
        self.fill_plain(&mut case.records.plain);
        case.state.registers[0].value[0] = self.random.below(3).into();
        case
    }

    fn fill_frame(&mut self, current: &mut Row) {
        current.0[place::ADDRESSES] = self.random.bit().into();
        current.0[place::ERGS] = self.random.pick(&[0, 1, 100]);
        current.0[place::STATIC] = self.one_in(4).into();
        current.0[place::LOCAL] = (!self.one_in(6)).into();
        if self.one_in(10) {
            current.0[place::BASE_PAGE] = u32::MAX - self.random.below(3);
        }
    }

    fn fill_plain(&mut self, plain: &mut Record) {
        plain.return_kind = self.random.below(3) as u8;
        plain.condition = self.random.pick(&[0, 0, 0, 1, 6]);
        plain.price = self.random.pick(&[0, 0, 0, 1, 2]);
        plain.explicit_panic = self.one_in(10);
        plain.kernel_only = self.one_in(10);
        plain.allowed_when_static = !self.one_in(10);
        if self.one_in(3) {
            plain.source_kind = self.random.below(6) as u8;
            plain.destination_kind = self.random.pick(&DESTINATIONS);
            plain.swap = self.random.bit();
            plain.src0 = self.random.below(2) as u8;
            plain.src1 = self.random.below(2) as u8;
            plain.dst0 = self.random.below(2) as u8;
        }
    }

    fn one_in(&mut self, parts: u32) -> bool {
        self.random.below(parts) == 0
    }

    /// Takes the case out of the domain in one way; a few of the ways leave it there at times.
    pub fn leave(&mut self, case: &mut Case) {
        match self.random.below(15) {
            0 => self.leave_settings(&mut case.settings),
            1 => self.leave_depth(&mut case.state),
            2 => self.leave_rows(&mut case.state.saved),
            3..6 => self.leave_fields(&mut case.records.plain),
            6 => self.leave_fields(&mut case.records.panic),
            7 => self.leave_fields(&mut case.records.nop),
            8 => self.leave_panic(&mut case.records.panic),
            9 => case.records.nop.operation = 1 + self.random.below(5) as u8,
            10 => self.leave_ended(case),
            11 => self.leave_pending(case),
            12 => case.records.plain.operation = operation::OTHER,
            13 => self.leave_pointers(case),
            _ => {
                case.state.current.0[place::LOCAL] = 0;
                case.records.plain.operation = operation::RETURN;
            }
        }
    }

    fn leave_settings(&mut self, settings: &mut Settings) {
        let edges = [0, 1, 2, u32::MAX];
        match self.random.below(4) {
            0 => settings.limit = 0,
            1 => settings.limit = self.random.below(MOST_ROWS + 1),
            2 => settings.multiplier = self.random.pick(&edges),
            _ => settings.time_step = self.random.pick(&edges),
        }
    }

    fn leave_depth(&mut self, state: &mut State) {
        let above = (MOST_ROWS - BUILT_WITH.limit).min(3);
        if above > 0 {
            let depth = BUILT_WITH.limit + 1 + self.random.below(above);
            state.saved.resize(depth as usize, Row([0; ROW]));
        }
    }

    /// The top row, or another.
    fn leave_rows(&mut self, saved: &mut [Row]) {
        let (place, value) = self.random.pick(&NOT_GOOD);
        let Some(last) = saved.len().checked_sub(1) else { return };
        let row = if self.random.bit() {
            last
        } else {
            self.random.below(saved.len() as u32) as usize
        };
        saved[row].0[place] = value;
    }

    /// The least value outside a field's list, or the greatest.
    fn leave_fields(&mut self, record: &mut Record) {
        let beyond = |least: u8, random: &mut Random| if random.bit() { least } else { u8::MAX };
        let random = &mut self.random;
        match random.below(10) {
            0 => record.operation = beyond(6, random),
            1 => record.return_kind = beyond(3, random),
            2 => record.condition = beyond(8, random),
            3 => record.source_kind = beyond(6, random),
            4 => record.destination_kind = kind::IMMEDIATE,
            5 => record.destination_kind = kind::CODE_PAGE,
            6 => record.destination_kind = beyond(6, random),
            7 => record.src0 = beyond(16, random),
            8 => record.src1 = beyond(16, random),
            _ => record.dst0 = beyond(16, random),
        }
    }

    fn leave_panic(&mut self, panic: &mut Record) {
        panic.operation = self.random.below(6) as u8;
        panic.return_kind = self.random.below(2) as u8;
    }

    fn leave_ended(&mut self, case: &mut Case) {
        let Case { state, records, .. } = case;
        state.saved.clear();
        state.pending_exception &= self.one_in(4);
        records.plain.operation = self.random.below(6) as u8;
        match self.random.below(6) {
            0 => records.plain.explicit_panic = true,
            1 => records.plain.kernel_only = true,
            2 => {
                records.plain.allowed_when_static = false;
                state.current.0[place::STATIC] = 1;
            }
            _ => {}
        }
    }

    fn leave_pending(&mut self, case: &mut Case) {
        case.state.pending_exception = true;
        case.records.plain.operation = self.random.below(6) as u8;
    }

    /// Pointers everywhere, one of them in use.
    fn leave_pointers(&mut self, case: &mut Case) {
        let Case { state, records, .. } = case;
        state.registers.iter_mut().for_each(|register| register.is_pointer = true);
        case.source.is_pointer = true;
        state.current.0[place::ADDRESSES] |= 1;
        let record = match self.random.below(4) {
            0 => &mut records.panic,
            1 => &mut records.nop,
            _ => &mut records.plain,
        };
        record.src0 = 1;
        record.src1 = self.random.below(2) as u8;
    }
}
