//! Prints, as assembly, the instructions of an object with one function: the same ones in the same order, without the padding between them. An assembler
//! can then be told where branches may lie (docs/SPEED.md). It reads what objdump prints.
use std::collections::{BTreeMap, BTreeSet};
use std::env;
use std::fmt::Write;
use std::process::{Command, ExitCode};

type Answer<T> = Result<T, String>;

struct Instruction {
    address: i64,
    text: String,
    /// Section or symbol, and what is added to its address.
    refers: Option<(String, i64)>,
}

struct Function {
    name: String,
    instructions: Vec<Instruction>,
    /// Jump tables: where each begins, and by the place of each entry where it leads.
    tables: BTreeSet<i64>,
    entries: BTreeMap<i64, i64>,
}

fn objdump(object: &str, options: &[&str]) -> Answer<String> {
    let ran = Command::new("objdump")
        .args(options)
        .arg(object)
        .output()
        .map_err(|e| format!("objdump: {e}"))?;
    String::from_utf8(ran.stdout).map_err(|e| format!("objdump: {e}"))
}

fn hex(digits: &str) -> Option<i64> {
    i64::from_str_radix(digits.trim_start_matches("0x"), 16).ok()
}

/// `NAME+0x10` or `NAME-0x4`.
fn reference(text: &str) -> Option<(String, i64)> {
    let place = text.rfind(['+', '-'])?;
    let (name, by) = text.split_at(place);
    let by = hex(&by[1..]).map(|n| if by.starts_with('-') { -n } else { n })?;
    Some((name.to_string(), by))
}

fn is_padding(text: &str) -> bool {
    ["nop", "data16", "cs nop", "xchg   %ax,%ax"]
        .iter()
        .any(|start| text.starts_with(start))
}

/// The lines of a disassembly: a function's name, an instruction, or what the instruction before refers to.
fn read_function(listing: &str) -> Answer<(String, Vec<Instruction>)> {
    let (mut names, mut instructions) = (Vec::new(), Vec::<Instruction>::new());
    for line in listing.lines() {
        if let Some((_, name)) = line.strip_suffix(">:").and_then(|l| l.split_once('<')) {
            names.push(name.to_string());
        } else if let Some((_, text)) = line.split_once("R_X86_64_PC32\t").or(line.split_once("R_X86_64_PLT32\t")) {
            let last = instructions.last_mut().ok_or("a relocation before any instruction")?;
            let refers = reference(text.trim()).filter(|(to, by)| *by == -4 || to.starts_with(".rodata."));
            last.refers = Some(refers.ok_or_else(|| format!("not read: {line}"))?);
        } else if line.contains("R_X86_64") {
            return Err(format!("not read: {line}"));
        } else if let Some((address, text)) = line.split_once(":\t") {
            let address = hex(address.trim()).ok_or_else(|| format!("not read: {line}"))?;
            let text = text.split('#').next().unwrap_or("").trim_end().to_string();
            instructions.push(Instruction {
                address,
                text,
                refers: None,
            });
        }
    }
    match names.as_slice() {
        [name] => Ok((name.clone(), instructions)),
        _ => Err(format!("{} functions, where one is read", names.len())),
    }
}

/// An entry holds its target's distance from the table's beginning; its relocation counts from the entry itself.
fn read_tables(object: &str, name: &str, instructions: &[Instruction]) -> Answer<(BTreeSet<i64>, BTreeMap<i64, i64>)> {
    let section = format!(".rodata.{name}");
    let own = instructions
        .iter()
        .filter_map(|i| i.refers.as_ref())
        .filter(|(to, _)| *to == section);
    let tables: BTreeSet<i64> = own.map(|(_, by)| by + 4).collect();
    let mut entries = BTreeMap::new();
    for line in objdump(object, &["--reloc", "--section", &section])?.lines() {
        let words: Vec<&str> = line.split_whitespace().collect();
        if let [place, "R_X86_64_PC32", to] = words[..] {
            let read = hex(place).zip(reference(to)).ok_or_else(|| format!("not read: {line}"))?;
            let (place, (_, by)) = read;
            let table = tables.range(..=place).next_back().ok_or_else(|| format!("in no table: {line}"))?;
            entries.insert(place, by - (place - table));
        }
    }
    Ok((tables, entries))
}

fn read(object: &str) -> Answer<Function> {
    let (name, instructions) = read_function(&objdump(object, &["--disassemble", "--reloc", "--no-show-raw-insn"])?)?;
    let (tables, entries) = read_tables(object, &name, &instructions)?;
    Ok(Function {
        name,
        instructions,
        tables,
        entries,
    })
}

/// Where a jump leads: `jne    74 <name+0x74>`.
fn target(text: &str, name: &str) -> Option<i64> {
    let (before, _) = text.split_once(&format!(" <{name}"))?;
    hex(before.rsplit(' ').next()?)
}

fn instruction_line(i: &Instruction, name: &str) -> String {
    let operation = i.text.split(' ').next().unwrap_or("");
    match (&i.refers, target(&i.text, name)) {
        (Some((symbol, _)), Some(_)) => format!("\t{operation} {symbol}@PLT\n"),
        (None, Some(to)) => format!("\t{operation} .Lat{to}\n"),
        (Some((to, by)), None) => {
            let label = if to.starts_with(".rodata.") {
                format!(".Ltable{}", by + 4)
            } else {
                to.clone()
            };
            format!("\t{}\n", i.text.replace("0x0(%rip)", &format!("{label}(%rip)")))
        }
        (None, None) => format!("\t{}\n", i.text),
    }
}

/// The constants of 16 bytes, by their symbols.
fn constants(object: &str) -> Answer<String> {
    const SECTION: &str = ".rodata.cst16";
    let dump = objdump(object, &["--full-contents", "--section", SECTION])?;
    let rows = dump.lines().filter_map(|line| {
        let (place, rest) = line.strip_prefix(' ')?.split_once(' ')?;
        Some((hex(place)?, rest.get(..35)?.replace(' ', "")))
    });
    let rows: BTreeMap<i64, String> = rows.collect();
    let mut out = String::new();
    for line in objdump(object, &["--syms"])?.lines().filter(|line| line.contains(SECTION)) {
        let words: Vec<&str> = line.split_whitespace().collect();
        let (Some(place), Some(symbol)) = (words.first().and_then(|w| hex(w)), words.last()) else {
            continue;
        };
        if let Some(row) = rows.get(&place).filter(|_| symbol.starts_with(".LC")) {
            let bytes: Vec<String> = (0..16).map(|k| format!("0x{}", &row[2 * k..2 * k + 2])).collect();
            let _ = writeln!(out, "{symbol}:\n\t.byte {}", bytes.join(","));
        }
    }
    Ok(out)
}

fn assembly(f: &Function, constants: &str) -> String {
    let name = &f.name;
    let mut labels: BTreeSet<i64> = f.entries.values().copied().collect();
    labels.extend(f.instructions.iter().filter_map(|i| target(&i.text, name)));
    let mut out = format!("\t.section .text.{name},\"ax\",@progbits\n\t.p2align 6\n\t.globl {name}\n\t.type {name},@function\n{name}:\n");
    for i in &f.instructions {
        if labels.contains(&i.address) {
            let _ = writeln!(out, ".Lat{}:", i.address);
        }
        if !is_padding(&i.text) {
            out.push_str(&instruction_line(i, name));
        }
    }
    let _ = writeln!(
        out,
        "\t.size {name},.-{name}\n\t.section .rodata.{name},\"a\",@progbits\n\t.p2align 2"
    );
    let mut table = 0;
    for (place, to) in &f.entries {
        if f.tables.contains(place) {
            table = *place;
            let _ = writeln!(out, ".Ltable{table}:");
        }
        let _ = writeln!(out, "\t.long .Lat{to}-.Ltable{table}");
    }
    let _ = write!(
        out,
        "\t.section .rodata.cst16,\"aM\",@progbits,16\n\t.p2align 4\n{constants}\t.section .note.GNU-stack,\"\",@progbits\n"
    );
    out
}

fn main() -> ExitCode {
    let Some(object) = env::args().nth(1) else {
        eprintln!("place OBJECT");
        return ExitCode::from(2);
    };
    match read(&object).and_then(|f| Ok(assembly(&f, &constants(&object)?))) {
        Ok(text) => {
            print!("{text}");
            ExitCode::SUCCESS
        }
        Err(why) => {
            eprintln!("{object}: {why}");
            ExitCode::FAILURE
        }
    }
}
