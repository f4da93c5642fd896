//! What a case in the domain shows, in words.

use super::edges::{self, about};
use super::run::{name, Kept, Run};
use crate::case::*;
use crate::oracle::{Outcome, BUILT_WITH};

const NARROW: i64 = 1 << 16;

pub fn of(run: &Run) -> Vec<String> {
    let mut labels = vec![end(run)];
    let Some(kept) = run.kept else { return labels };
    match run.case.part {
        Part::Cycle => {
            labels.push(format!("depth {}", run.case.state.depth()));
            labels.push(format!("{}, {:?} {}", end(run), kept.choice, name(kept.record)));
            labels.extend(edges::of(run, kept.record));
        }
        Part::Execute => labels.extend(alone_labels(run, kept.record)),
    }
    let Outcome::Finished(finished) = run.outcome else { return labels };
    labels.extend(operation_labels(run, &kept));
    if let Some(before) = &finished.before {
        labels.extend(cycle_labels(run, &kept, finished, before));
    }
    labels
}

/// How the case ended.
fn end(run: &Run) -> String {
    let part = run.case.part;
    match run.outcome {
        Outcome::Finished(finished) => format!("{part:?} with event {:?}", finished.event),
        Outcome::Panicked(place) => format!("{part:?} panics at {place}"),
        Outcome::Refused(refusal) => format!("{part:?} {refusal}"),
        Outcome::Outside(_) => format!("{part:?} outside"),
    }
}

fn cycle_labels(run: &Run, kept: &Kept, finished: &Finished, before: &BeforeExecute) -> Vec<String> {
    [
        fetch_labels(run, before),
        charge_labels(run),
        decode_labels(run, kept, before),
        frame_labels(run),
        operand_labels(run, kept),
        address_labels(run, kept.record),
        register_labels(run, kept.record),
        arithmetic_labels(kept.record, finished),
    ]
    .concat()
}

fn fetch_labels(run: &Run, before: &BeforeExecute) -> Vec<String> {
    let state = &run.case.state;
    let pc = run.current(place::PC);
    let is_page_changed = state.previous_code_page != run.current(place::CODE_PAGE);
    let is_super_pc_changed = u32::from(state.previous_super_pc) != pc / 4;
    let answer = match before.fetch {
        // such bits do not tell from where they are
        Fetch::Code(0) => return Vec::new(),
        Fetch::Code(_) => "code",
        Fetch::Exception => "exception",
        Fetch::Nop => "nop",
    };
    vec![
        format!("fetch {answer} at sub pc {}, read {}", pc % 4, before.code_read.is_some()),
        format!("fetch {answer}, page changed {is_page_changed}, super pc {is_super_pc_changed}"),
    ]
}

fn charge_labels(run: &Run) -> Vec<String> {
    let price = run.case.records.plain.price;
    let distance = about(i64::from(price) - i64::from(run.current(place::ERGS)));
    let state = &run.case.state;
    vec![
        format!("price and ergs {distance}, ended {}", state.has_ended()),
        format!("price and ergs {distance}, pending {}", state.pending_exception),
        format!("price 0 {}, ergs 0 {}", price == 0, run.current(place::ERGS) == 0),
    ]
}

fn decode_labels(run: &Run, kept: &Kept, before: &BeforeExecute) -> Vec<String> {
    let plain = &run.case.records.plain;
    let operation = operation::NAMES[usize::from(plain.operation)];
    if before.error_flags == 0 {
        let is_met = kept.choice == Choice::Plain;
        return vec![
            format!("condition {} with flags {:?}", plain.condition, run.case.state.flags),
            format!("{operation}, condition {}, met {is_met}", plain.condition),
            format!("pending {}, met {is_met}", run.case.state.pending_exception),
        ];
    }
    let is_lone = before.error_flags.is_power_of_two();
    let flags = (0..5).filter(|i| before.error_flags >> i & 1 == 1);
    let of_flag = |i| [format!("{operation}, error flag {i}"), format!("error flag {i}, lone {is_lone}")];
    flags.flat_map(of_flag).collect()
}

/// Kernel mode and static, with what the record asks for.
fn frame_labels(run: &Run) -> Vec<String> {
    let plain = &run.case.records.plain;
    let address = match run.case.state.current.0[..4].iter().position(|&word| word != 0) {
        Some(i) => format!("has word {i}"),
        None => format!("and the first not of the kernel {}", about(i64::from(run.current(4)) - NARROW)),
    };
    vec![
        format!("kernel only {}, address {address}", plain.kernel_only),
        format!(
            "allowed when static {}, static {}",
            plain.allowed_when_static,
            run.current(place::STATIC)
        ),
    ]
}

fn operand_labels(run: &Run, kept: &Kept) -> Vec<String> {
    let Kept { choice, record } = kept;
    let operation = format!("{choice:?} {}", operation::NAMES[usize::from(record.operation)]);
    let (source, destination) = (record.source_kind, record.destination_kind);
    let mut labels = vec![
        format!("{operation}, source kind {source}"),
        format!("{operation}, destination kind {destination}"),
        format!("{operation}, swap {}", record.swap),
        format!("{operation}, last pc {}", run.current(place::PC) == u32::from(u16::MAX)),
        format!("source kind {source}, destination kind {destination}"),
    ];
    let is_kernel = run.case.state.current.is_kernel();
    let may_be = [record.src0_may_be_pointer, record.src1_may_be_pointer];
    if record.is_nop() {
        // its memory source is the empty value
        let is_memory = !matches!(source, kind::REGISTER | kind::IMMEDIATE);
        let is_spared = is_memory && run.case.source.is_pointer && !may_be[usize::from(record.swap)];
        labels.push(format!("nop is spared a pointer {is_spared}, kernel {is_kernel}"));
        return labels;
    }
    for (i, may_be) in may_be.into_iter().enumerate().filter(|(i, _)| run.sources(record)[*i].is_pointer) {
        labels.push(format!(
            "pointer in src{i}, may be {may_be}, kernel {is_kernel}, swap {}",
            record.swap
        ));
        labels.push(format!("pointer in src{i}, source kind {source}"));
    }
    labels
}

/// How addresses and sp wrap around.
fn address_labels(run: &Run, record: &Record) -> Vec<String> {
    let low = |number: u8| i64::from(run.case.state.register(number).value[0] as u16);
    let source = low(record.src0) + i64::from(record.imm_0);
    let destination = low(record.dst0) + i64::from(record.imm_1);
    let sp = i64::from(run.current(place::SP));
    let is_pop = record.source_kind == kind::PUSH_POP;
    let changed_sp = if is_pop { (sp - source).rem_euclid(NARROW) } else { sp };
    [
        source_labels(record, source, sp),
        destination_labels(record, destination, changed_sp),
    ]
    .concat()
}

fn source_labels(record: &Record, sum: i64, sp: i64) -> Vec<String> {
    let address = sum % NARROW;
    let kind = record.source_kind;
    if matches!(kind, kind::REGISTER | kind::IMMEDIATE) {
        return Vec::new();
    }
    let mut labels = vec![
        format!("address of a source and 65536 {}", about(sum - NARROW)),
        format!("source kind {kind}, sp less address {}", about(sp - address)),
    ];
    if kind == kind::PUSH_POP && address != 0 {
        labels.push(format!("pop at sp {}", about(sp)));
    }
    labels
}

fn destination_labels(record: &Record, sum: i64, sp: i64) -> Vec<String> {
    let address = sum % NARROW;
    let kind = record.destination_kind;
    if kind == kind::REGISTER {
        return Vec::new();
    }
    let is_pop = record.source_kind == kind::PUSH_POP;
    let mut labels = vec![
        format!("address of a destination and 65536 {}", about(sum - NARROW)),
        format!("destination kind {kind}, nop {}, pop {is_pop}", record.is_nop()),
    ];
    if kind != kind::PUSH_POP {
        labels.push(format!("destination kind {kind}, sp less address {}", about(sp - address)));
    } else if address != 0 {
        labels.push(format!("push, sp and 65536 {}", about(sp + address - NARROW)));
        labels.push(format!("push at sp and the last {}", about(sp + 1 - NARROW)));
    }
    labels
}

/// Which register is what, where it holds something.
fn register_labels(run: &Run, record: &Record) -> Vec<String> {
    let state = &run.case.state;
    let is_arithmetic = matches!(record.operation, operation::ADD | operation::SUB);
    let is_value = is_arithmetic || record.operation == operation::NEAR_CALL;
    let is_told = |number: u8| number == 0 || state.register(number).value != [0; 4];
    let mut labels = Vec::new();
    if is_told(record.src0) {
        match record.source_kind {
            kind::REGISTER if is_value => labels.push(format!("src0 is register {}", record.src0)),
            kind::REGISTER | kind::IMMEDIATE => {}
            _ => labels.push(format!("src0 adds register {}", record.src0)),
        }
    }
    if is_told(record.src1) && is_arithmetic {
        labels.push(format!("src1 is register {}", record.src1));
    }
    match record.destination_kind {
        kind::REGISTER if is_arithmetic => labels.push(format!("dst0 is register {}", record.dst0)),
        kind::REGISTER => {}
        _ if is_told(record.dst0) => labels.push(format!("dst0 adds register {}", record.dst0)),
        _ => {}
    }
    labels
}

fn arithmetic_labels(record: &Record, finished: &Finished) -> Vec<String> {
    if !matches!(record.operation, operation::ADD | operation::SUB) {
        return Vec::new();
    }
    let flags = finished.state.flags;
    vec![
        format!("{}, set flags {}, flags then {flags:?}", name(record), record.set_flags),
        format!("{}, set flags {}, swap {}", name(record), record.set_flags, record.swap),
    ]
}

/// What near calls and returns do, in a whole cycle or alone.
fn operation_labels(run: &Run, kept: &Kept) -> Vec<String> {
    match kept.record.operation {
        operation::NEAR_CALL => near_call_labels(run, kept.record),
        operation::RETURN => return_labels(run, kept),
        _ => Vec::new(),
    }
}

fn near_call_labels(run: &Run, record: &Record) -> Vec<String> {
    let part = run.case.part;
    let word = run.sources(record)[0].value;
    let low = word[0] as u32;
    let is_cut = low.checked_mul(BUILT_WITH.multiplier).is_none();
    let wanted = i64::from(low.saturating_mul(BUILT_WITH.multiplier));
    vec![
        format!("{part:?}: near call wants 0 {}, all of src0 0 {}", low == 0, word == [0; 4]),
        format!(
            "{part:?}: near call wants and holds {}, cut {is_cut}",
            about(wanted - i64::from(run.held()))
        ),
        format!("{part:?}: near call from a local frame {}", run.current(place::LOCAL)),
        format!(
            "{part:?}: near call, opening of the caller and counter {}",
            about(i64::from(run.current(place::OPENING)) - i64::from(run.case.state.cycle_counter))
        ),
    ]
}

fn return_labels(run: &Run, kept: &Kept) -> Vec<String> {
    let Kept { choice, record } = kept;
    let part = run.case.part;
    let mut labels = vec![format!("{part:?}: {choice:?} {}, to label {}", name(record), record.to_label)];
    if let Some(caller) = run.case.state.saved.last() {
        let distance = i64::from(run.current(place::OPENING)) - i64::from(caller.0[place::OPENING]);
        labels.push(format!(
            "{part:?}: return, openings of the closed frame and the caller {}",
            about(distance)
        ));
    }
    if part == Part::Cycle {
        let is_ok = record.return_kind == return_kind::OK;
        labels.push(format!(
            "ok {is_ok}, pubdata of the closed frame {}",
            size(run.current(place::PUBDATA))
        ));
        labels.push(format!("ok {is_ok}, counter {}", size(run.case.state.revert_counter)));
        labels.push(format!("return with a stipend {}", run.current(place::STIPEND) != 0));
    }
    labels
}

/// The value of a two's complement word, but for its ends roughly.
fn size(word: u32) -> &'static str {
    match word as i32 {
        i32::MIN => "the least",
        i32::MAX => "the most",
        0 => "0",
        value if value < 0 => "below 0",
        _ => "above 0",
    }
}

/// Few: whole cycles show the rest.
fn alone_labels(run: &Run, record: &Record) -> Vec<String> {
    let refusal = run.outcome.refusal().map(|refusal| refusal.number);
    if refusal.is_some_and(|number| number > 9) {
        return Vec::new();
    }
    let depth = match run.case.state.depth() {
        0 => "0",
        depth if depth == BUILT_WITH.limit => "the limit",
        _ => "between",
    };
    let pending = format!("alone: pending {}", run.case.state.pending_exception);
    let of_depth = format!("alone: {}, depth {depth}", name(record));
    match record.operation {
        operation::NEAR_CALL => vec![pending, of_depth, format!("alone: near call, source kind {}", record.source_kind)],
        operation::RETURN => vec![pending, of_depth],
        _ => vec![pending, format!("alone: {}", name(record))],
    }
}
