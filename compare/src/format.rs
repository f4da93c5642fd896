//! The case format: a case or a result is a line of decimal numbers parted by one space.

use crate::case::*;
use std::fmt::{Display, Write as _};

/// The first word of a case that is about execute alone.
const EXECUTE: &str = "execute";

/// Numbers of a line, in turn. Each `None` makes the line unread.
struct Reader<'a> {
    fields: std::slice::Split<'a, u8, fn(&u8) -> bool>,
}

impl<'a> Reader<'a> {
    fn new(line: &'a [u8]) -> Self {
        Self {
            fields: line.split(|&byte| byte == b' '),
        }
    }

    fn u64(&mut self) -> Option<u64> {
        let digits = self.fields.next()?;
        if digits.is_empty() {
            return None;
        }
        digits.iter().try_fold(0u64, |value, &digit| {
            let digit = digit.is_ascii_digit().then(|| digit - b'0')?;
            value.checked_mul(10)?.checked_add(digit.into())
        })
    }

    fn number<T: TryFrom<u64>>(&mut self) -> Option<T> {
        T::try_from(self.u64()?).ok()
    }

    fn flag(&mut self) -> Option<bool> {
        match self.u64()? {
            0 => Some(false),
            1 => Some(true),
            _ => None,
        }
    }

    fn word(&mut self) -> Option<Word> {
        Some([self.u64()?, self.u64()?, self.u64()?, self.u64()?])
    }

    fn register(&mut self) -> Option<Register> {
        Some(Register {
            value: self.word()?,
            is_pointer: self.flag()?,
        })
    }

    fn row(&mut self) -> Option<Row> {
        let mut row = Row([0; ROW]);
        for word in &mut row.0 {
            *word = self.number()?;
        }
        Some(row)
    }

    fn record(&mut self) -> Option<Record> {
        Some(Record {
            operation: self.number()?,
            return_kind: self.number()?,
            condition: self.number()?,
            source_kind: self.number()?,
            destination_kind: self.number()?,
            src0: self.number()?,
            src1: self.number()?,
            dst0: self.number()?,
            imm_0: self.number()?,
            imm_1: self.number()?,
            price: self.number()?,
            explicit_panic: self.flag()?,
            kernel_only: self.flag()?,
            allowed_when_static: self.flag()?,
            swap: self.flag()?,
            set_flags: self.flag()?,
            to_label: self.flag()?,
            src0_may_be_pointer: self.flag()?,
            src1_may_be_pointer: self.flag()?,
        })
    }

    fn state(&mut self) -> Option<State> {
        let mut registers = [Register::default(); REGISTERS];
        for register in &mut registers {
            *register = self.register()?;
        }
        let flags = [self.flag()?, self.flag()?, self.flag()?];
        let timestamp = self.number()?;
        let cycle_counter = self.number()?;
        let pending_exception = self.flag()?;
        let previous_code_word = self.word()?;
        let previous_code_page = self.number()?;
        let previous_super_pc = self.number()?;
        let revert_counter = self.number()?;
        let depth: u32 = self.number()?;
        // a current frame that is not good cannot be stated
        let current = self.row().filter(Row::is_good)?;
        if depth > MOST_ROWS {
            return None;
        }
        let saved = (0..depth).map(|_| self.row()).collect::<Option<_>>()?;
        Some(State {
            registers,
            flags,
            timestamp,
            cycle_counter,
            pending_exception,
            previous_code_word,
            previous_code_page,
            previous_super_pc,
            revert_counter,
            current,
            saved,
        })
    }
}

/// Which part a line is about, and its numbers.
fn part_and_numbers(line: &[u8]) -> (Part, &[u8]) {
    match line.strip_prefix(EXECUTE.as_bytes()).and_then(|rest| rest.strip_prefix(b" ")) {
        Some(numbers) => (Part::Execute, numbers),
        None => (Part::Cycle, line),
    }
}

/// The case of a line, or `None` where it is not a case.
pub fn read_case(line: &[u8]) -> Option<Case> {
    let (part, numbers) = part_and_numbers(line);
    let mut reader = Reader::new(numbers);
    let settings = Settings {
        limit: reader.number()?,
        multiplier: reader.number()?,
        time_step: reader.number()?,
    };
    if settings.limit > MOST_ROWS {
        return None;
    }
    let case = Case {
        part,
        settings,
        state: reader.state()?,
        records: Records {
            plain: reader.record()?,
            panic: reader.record()?,
            nop: reader.record()?,
        },
        code_word: reader.word()?,
        source: reader.register()?,
    };
    reader.fields.next().is_none().then_some(case)
}

/// The fields of a row, with the words of each.
const ROW_FIELDS: [(&str, usize); 20] = [
    ("this_address", 5),
    ("msg_sender", 5),
    ("code_address", 5),
    ("base page", 1),
    ("code page", 1),
    ("sp", 1),
    ("pc", 1),
    ("handler", 1),
    ("ergs", 1),
    ("this shard id", 1),
    ("caller shard id", 1),
    ("code shard id", 1),
    ("static", 1),
    ("local", 1),
    ("context value", 4),
    ("heap bound", 1),
    ("aux heap bound", 1),
    ("pubdata", 1),
    ("stipend", 1),
    ("cycle of opening", 1),
];

/// A line in the making: the numbers, and, where asked for, the name of each.
#[derive(Default)]
struct Writer {
    line: String,
    names: Option<Vec<String>>,
}

impl Writer {
    fn put(&mut self, name: impl Display, value: impl Into<u64>) {
        if !self.line.is_empty() {
            self.line.push(' ');
        }
        let _ = write!(self.line, "{}", value.into());
        if let Some(names) = &mut self.names {
            names.push(name.to_string());
        }
    }

    fn word(&mut self, name: impl Display, word: Word) {
        for (i, value) in word.into_iter().enumerate() {
            self.put(format_args!("{name}, word {i}"), value);
        }
    }

    fn register(&mut self, name: impl Display, register: Register) {
        self.word(&name, register.value);
        self.put(format_args!("{name}, pointer bit"), register.is_pointer);
    }

    fn row(&mut self, frame: impl Display, row: &Row) {
        let names = ROW_FIELDS.iter().flat_map(|&(name, words)| std::iter::repeat_n(name, words));
        for (name, &word) in names.zip(&row.0) {
            self.put(format_args!("{frame}: {name}"), word);
        }
    }

    fn state(&mut self, state: &State) {
        for (i, &register) in state.registers.iter().enumerate() {
            self.register(format_args!("register {}", i + 1), register);
        }
        self.put("flag overflow or less than", state.flags[0]);
        self.put("flag equal", state.flags[1]);
        self.put("flag greater than", state.flags[2]);
        self.put("timestamp", state.timestamp);
        self.put("cycle counter", state.cycle_counter);
        self.put("pending exception", state.pending_exception);
        self.word("previous code word", state.previous_code_word);
        self.put("previous code page", state.previous_code_page);
        self.put("previous super pc", state.previous_super_pc);
        self.put("revert counter", state.revert_counter);
        self.put("depth", state.depth());
        self.row("current frame", &state.current);
        for (i, row) in state.saved.iter().enumerate() {
            self.row(format_args!("saved row {i}"), row);
        }
    }

    fn record(&mut self, which: &str, record: &Record) {
        let numbers = [
            ("operation", record.operation),
            ("return kind", record.return_kind),
            ("condition", record.condition),
            ("source kind", record.source_kind),
            ("destination kind", record.destination_kind),
            ("src0", record.src0),
            ("src1", record.src1),
            ("dst0", record.dst0),
        ];
        for (name, number) in numbers {
            self.put(format_args!("{which}: {name}"), number);
        }
        self.put(format_args!("{which}: imm_0"), record.imm_0);
        self.put(format_args!("{which}: imm_1"), record.imm_1);
        self.put(format_args!("{which}: price"), record.price);
        let flags = [
            ("explicit panic", record.explicit_panic),
            ("kernel only", record.kernel_only),
            ("allowed when static", record.allowed_when_static),
            ("swap", record.swap),
            ("set flags", record.set_flags),
            ("to label", record.to_label),
            ("src0 may be pointer", record.src0_may_be_pointer),
            ("src1 may be pointer", record.src1_may_be_pointer),
        ];
        for (name, flag) in flags {
            self.put(format_args!("{which}: {name}"), flag);
        }
    }

    fn location(&mut self, name: impl Display, location: Option<Location>) {
        let number = match location.map(|location| location.memory) {
            None => 0u32,
            Some(Memory::Stack) => 1,
            Some(Memory::Code) => 2,
        };
        self.put(format_args!("{name}: kind"), number);
        self.put(format_args!("{name}: page"), location.map_or(0, |location| location.page));
        self.put(format_args!("{name}: index"), location.map_or(0, |location| location.index));
        self.put(format_args!("{name}: time"), location.map_or(0, |location| location.time));
    }

    fn before_execute(&mut self, before: &BeforeExecute) {
        let read = before.code_read;
        self.put("code read: wanted", read.is_some());
        self.put("code read: page", read.map_or(0, |location| location.page));
        self.put("code read: index", read.map_or(0, |location| location.index));
        self.put("code read: time", read.map_or(0, |location| location.time));
        let (answer, bits) = match before.fetch {
            Fetch::Code(bits) => (0u32, bits),
            Fetch::Exception => (1, 0),
            Fetch::Nop => (2, 0),
        };
        self.put("fetch: answer", answer);
        self.put("fetch: 64 bits", bits);
        self.put("decode: error flags", before.error_flags);
        self.put("decode: charge", before.charge);
        self.location("source", before.source);
        self.location("destination", before.destination);
    }

    fn case(&mut self, case: &Case) {
        self.put("depth limit", case.settings.limit);
        self.put("multiplier", case.settings.multiplier);
        self.put("time step", case.settings.time_step);
        self.state(&case.state);
        self.record("plain", &case.records.plain);
        self.record("panic", &case.records.panic);
        self.record("nop", &case.records.nop);
        self.word("code word", case.code_word);
        self.register("source", case.source);
    }

    fn finished(&mut self, finished: &Finished) {
        self.state(&finished.state);
        if let Some(before) = &finished.before {
            self.before_execute(before);
        }
        let write = finished.write;
        self.put("write: made", write.is_some());
        self.location("write", write.map(|write| write.location));
        self.register("write: value", write.map(|write| write.value).unwrap_or_default());
        let event = match finished.event {
            Event::None => 0u32,
            Event::Opened => 1,
            Event::Closed { panicked: false } => 2,
            Event::Closed { panicked: true } => 3,
        };
        self.put("event", event);
    }
}

pub fn case_line(case: &Case) -> String {
    let mut writer = Writer::default();
    if case.part == Part::Execute {
        writer.line.push_str(EXECUTE);
    }
    writer.case(case);
    writer.line
}

/// The fields of a case that are not 0, by name. Settings are left out where they are `usual`.
pub fn case_in_words(case: &Case, usual: Settings) -> String {
    let mut writer = Writer {
        line: String::new(),
        names: Some(Vec::new()),
    };
    writer.case(case);
    let usual = if case.settings == usual { 3 } else { 0 };
    let names = writer.names.unwrap_or_default();
    let fields = names.iter().zip(writer.line.split(' ')).skip(usual);
    let words = fields.filter(|(_, number)| *number != "0");
    Vec::from_iter(words.map(|(name, number)| format!("{name} {number}"))).join(", ")
}

pub fn finished_line(finished: &Finished) -> String {
    let mut writer = Writer {
        line: "ok".into(),
        names: None,
    };
    writer.finished(finished);
    writer.line
}

/// The name of each number of a finished case's line.
pub fn finished_names(finished: &Finished) -> Vec<String> {
    let mut writer = Writer {
        line: String::new(),
        names: Some(Vec::new()),
    };
    writer.finished(finished);
    writer.names.unwrap_or_default()
}
