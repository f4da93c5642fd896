//! Short cases: most of what a case does not use is 0.

use super::Maker;
use crate::case::*;
use crate::oracle::BUILT_WITH;

/// The registers that a record reads, 0 for none.
fn read_by(record: &Record) -> [u8; 3] {
    let is_arithmetic = matches!(record.operation, operation::ADD | operation::SUB);
    [
        if record.source_kind == kind::IMMEDIATE { 0 } else { record.src0 },
        if is_arithmetic || record.swap { record.src1 } else { 0 },
        if record.destination_kind == kind::REGISTER {
            0
        } else {
            record.dst0
        },
    ]
}

impl Maker {
    pub fn shorten(&mut self, case: &mut Case) {
        self.shorten_masked(&mut case.records);
        self.shorten_words(case);
        self.shorten_registers(case);
        self.shorten_sums(case);
        self.shorten_frames(&mut case.state);
        self.shorten_times(&mut case.state);
    }

    /// Often enough for short lines, and not always.
    fn mostly(&mut self) -> bool {
        self.random.per_mille(960)
    }

    /// Leaves the newest, and at times another, the more often the more there are.
    pub fn drop_rows(&mut self, saved: &mut Vec<Row>) {
        let depth = saved.len() as u32;
        if depth > 2 && !self.random.per_mille(2500 / (depth * depth)) {
            let rest = 1 + u32::from(self.random.below(8) == 0);
            saved.drain(..(depth - rest) as usize);
        }
    }

    fn shorten_masked(&mut self, records: &mut Records) {
        for record in [&mut records.panic, &mut records.nop] {
            if self.mostly() {
                *record = Record {
                    operation: record.operation,
                    return_kind: record.return_kind,
                    ..Record::default()
                };
            }
        }
    }

    /// The code word or the previous one: only one of them is looked at, and 64 bits of it.
    fn shorten_words(&mut self, case: &mut Case) {
        let Case { state, records, .. } = case;
        let pc = state.current.0[place::PC];
        let is_changed = state.previous_code_page != state.current.0[place::CODE_PAGE] || u32::from(state.previous_super_pc) != pc / 4;
        for (word, is_used) in [(&mut case.code_word, is_changed), (&mut state.previous_code_word, !is_changed)] {
            let used = if is_used { 3 - pc % 4 } else { 4 };
            for (_, part) in (0..).zip(word).filter(|(i, _)| *i != used) {
                *part = if self.mostly() { 0 } else { *part };
            }
        }
        let is_source = !matches!(records.plain.source_kind, kind::REGISTER | kind::IMMEDIATE);
        self.shorten_register(&mut case.source, is_source);
    }

    /// Registers that no record reads.
    fn shorten_registers(&mut self, case: &mut Case) {
        let Records { plain, panic, nop } = &case.records;
        let read = [plain, panic, nop].map(read_by).concat();
        for (number, register) in (1..).zip(&mut case.state.registers) {
            self.shorten_register(register, read.contains(&number));
        }
    }

    fn shorten_register(&mut self, register: &mut Register, is_read: bool) {
        if !is_read && self.mostly() {
            *register = Register::default();
        } else if self.random.per_mille(700) {
            register.value[1..].fill(0);
        }
    }

    /// What a return adds up or compares becomes 0 in all frames, or stays in all.
    fn shorten_sums(&mut self, case: &mut Case) {
        let Case { state, records, .. } = case;
        let is_return = records.plain.operation == operation::RETURN;
        for place in [place::HEAP_BOUND, place::AUX_HEAP_BOUND, place::PUBDATA] {
            let is_kept = is_return && self.random.bit();
            if is_kept || !self.mostly() {
                continue;
            }
            let frames = state.saved.iter_mut().chain([&mut state.current]);
            frames.for_each(|row| row.0[place] = 0);
        }
    }

    /// A return reads the newest row; the others are but kept.
    fn shorten_frames(&mut self, state: &mut State) {
        self.shorten_row(&mut state.current);
        let Some((newest, others)) = state.saved.split_last_mut() else {
            return;
        };
        self.shorten_row(newest);
        for row in others {
            if self.mostly() {
                *row = Row([0; ROW]);
            }
        }
    }

    fn shorten_row(&mut self, row: &mut Row) {
        // the first word that is not 0 says alone whether it is kernel mode
        let first = row.0.iter().position(|&word| word != 0).unwrap_or(0);
        let parts = [
            (first + 1, 5),
            (5, 10),
            (10, 15),
            (place::SHARDS, place::STATIC),
            (place::CONTEXT, place::HEAP_BOUND),
            (place::STIPEND, place::OPENING),
        ];
        for (from, to) in parts {
            if from < to && self.mostly() {
                row.0[from..to].fill(0);
            }
        }
    }

    /// Time and counter, where they are not about their ends.
    fn shorten_times(&mut self, state: &mut State) {
        let end = (u32::MAX - 8).saturating_sub(BUILT_WITH.time_step);
        for time in [&mut state.timestamp, &mut state.cycle_counter] {
            if *time < end && self.mostly() {
                *time = self.random.below(100);
            }
        }
    }
}
