//! A kernel to commented text that packs to the same bytes.

use crate::form;
use crate::kernel::{Kernel, Record, Section, INPUT};
use crate::line::{self, Scope, OPERATORS, RULES};

/// Where the comments begin.
const COLUMN: usize = 48;

/// A kernel with a name for each array that words can say: a file has no names.
pub fn scope(kernel: Kernel) -> Scope {
    let mut scope = Scope::of(kernel);
    for (number, array) in scope.kernel.arrays().iter().enumerate() {
        let name = if array[0] == INPUT { format!("in{number}") } else { format!("out{number}") };
        let said = wrong(Section::Arrays, number, &scope).is_none();
        scope.names.push(if said { name } else { String::new() });
    }
    scope
}

pub fn unpack(kernel: Kernel) -> String {
    let scope = scope(kernel);
    let Kernel { registers, buffers, .. } = scope.kernel;
    let mut text = String::from("; A kernel file as text: 'quivertext pack TEXT FILE' makes the file again.\n\n");
    text += &commented(&count("registers", registers, 1, 32), "registers of both programs");
    text += &commented(&count("buffers", buffers, 0, 16), "buffers, in the stream program only");
    for section in Section::ALL {
        let records = scope.kernel.records(section);
        let about = match section {
            Section::Arrays => "a stream has count items: cells first, first + step, ..",
            Section::ArrayProgram | Section::StreamProgram => "iN is the counter of the loop at level N",
            Section::Derivation => "each rule with the statements it takes: a array program, s stream program",
        };
        text.push('\n');
        text += &commented(section.title(), &format!("{} records; {about}", records.len()));
        text += &section_text(section, &scope);
    }
    text
}

/// Counts that do not read come after `raw`.
fn count(name: &str, number: i32, low: i32, high: i32) -> String {
    let raw = if (low..=high).contains(&number) { "" } else { "raw " };
    format!("{name} {raw}{number}")
}

fn commented(line: &str, comment: &str) -> String {
    format!("{line:<COLUMN$}; {comment}\n")
}

fn section_text(section: Section, scope: &Scope) -> String {
    let mut text = String::new();
    let mut open: Vec<(usize, bool)> = Vec::new();
    let (mut array, mut stream) = (0, 0);
    for (number, record) in scope.kernel.records(section).iter().enumerate() {
        let words = words(section, number, scope);
        let word = words.split(' ').next().unwrap_or("");
        let depth = if word == "else" || word == "end" { open.len().saturating_sub(1) } else { open.len() };
        let level = open.iter().filter(|(_, is_for)| *is_for).count();
        let comment = match (section, word) {
            (_, "raw") => format!("does not read: {}", wrong(section, number, scope).unwrap_or_default()),
            (Section::Derivation, _) => tied(*record, scope, &mut array, &mut stream),
            (_, "else" | "end") => match open.last() {
                Some((opening, _)) => format!("{word} of {opening}"),
                None => "nothing is open here".to_string(),
            },
            _ => meaning(*record, section, level, scope),
        };
        match word {
            "for" | "if" => open.push((number, word == "for")),
            "end" => drop(open.pop()),
            _ => {}
        }
        text += &commented(&format!("{}{words}", "  ".repeat(1 + depth.min(8))), &format!("{number}: {comment}"));
    }
    text
}

/// A record as a line, "" past the section's end. What words cannot say stays raw.
pub fn words(section: Section, number: usize, scope: &Scope) -> String {
    let Some(record) = scope.kernel.records(section).get(number) else { return String::new() };
    match wrong(section, number, scope) {
        None => attempt(*record, section, number, scope),
        Some(_) => record.iter().fold("raw".to_string(), |line, number| format!("{line} {number}")),
    }
}

/// Why words cannot say a record: what is outside its range.
pub fn wrong(section: Section, number: usize, scope: &Scope) -> Option<String> {
    let record = scope.kernel.records(section).get(number)?;
    let codes = [2, 11, 11, 12][section as usize];
    if !(1..=codes).contains(&record[0]) {
        return Some(format!("code {}; expected 1 to {codes}", record[0]));
    }
    // an array's own name is not taken yet where its line stands
    let above = Scope::of(Kernel::new(0, 0));
    let reading = if section == Section::Arrays { &above } else { scope };
    let said = match line::parse(&attempt(*record, section, number, scope), section, reading) {
        Ok(said) => said,
        Err(what) => return Some(what),
    };
    let place = record.iter().zip(said).position(|(is, said)| *is != said)?;
    let field = ["code", "p", "q", "k", "x0", "x1", "x2", "x3"][place];
    Some(format!("field {field} is {}; expected {}", record[place], said[place]))
}

/// The line for a record, if words can say it.
fn attempt(record: Record, section: Section, number: usize, scope: &Scope) -> String {
    match section {
        Section::Arrays => array_words(record, scope.names.get(number).map_or("", String::as_str)),
        Section::ArrayProgram | Section::StreamProgram => statement_words(record, section, scope),
        Section::Derivation => rule_words(record, scope),
    }
}

fn array_words(record: Record, name: &str) -> String {
    let [code, length, first, count, step, ..] = record;
    let side = if code == INPUT { "input" } else { "output" };
    let name = if name.is_empty() { String::new() } else { format!(" {name}") };
    format!("{side}{name} length {length} first {first} count {count} step {step}")
}

fn statement_words(record: Record, section: Section, scope: &Scope) -> String {
    let [code, p, q, k, x0, ..] = record;
    let (left, from, to) = (register(p, section, scope), register(q, section, scope), array(q, scope));
    let form = form::show(form_of(record));
    match code {
        1 => format!("set {left} {form}"),
        2 => format!("copy {left} {from}"),
        3 => format!("{} {left} {from} {}", operator(x0), register(k, section, scope)),
        4 => format!("load {left} {to} {form}"),
        5 => format!("store {left} {to} {form}"),
        6 => format!("read {left} {to}"),
        7 => format!("write {left} {to}"),
        8 => format!("for first {p} limit {q} step {k}"),
        9 => format!("if {left}"),
        10 => "else".to_string(),
        _ => "end".to_string(),
    }
}

fn rule_words(record: Record, scope: &Scope) -> String {
    let [code, p, q, ..] = record;
    let form = form::show(form_of(record));
    match code {
        11 => format!("position {} {form}", array(p, scope)),
        12 if q == -1 => format!("buffer b{p} nothing"),
        12 => format!("buffer b{p} {} {form}", array(q, scope)),
        _ => place(code, 1).and_then(|place| RULES.get(place)).unwrap_or(&"").to_string(),
    }
}

fn form_of(record: Record) -> form::Form {
    let [_, _, _, form @ ..] = record;
    form
}

fn operator(number: i32) -> String {
    let word = place(number, 1).and_then(|place| OPERATORS.get(place));
    word.map_or_else(|| format!("operator-{number}"), |word| word.to_string())
}

/// How far a number is above the lowest.
fn place(number: i32, lowest: i32) -> Option<usize> {
    usize::try_from(i64::from(number) - i64::from(lowest)).ok()
}

fn register(number: i32, section: Section, scope: &Scope) -> String {
    let buffer = place(number, scope.kernel.registers).filter(|_| section == Section::StreamProgram);
    buffer.map_or_else(|| format!("r{number}"), |buffer| format!("b{buffer}"))
}

/// An array's name, or its number where it has none.
fn array(number: i32, scope: &Scope) -> String {
    let name = place(number, 0).and_then(|place| scope.names.get(place)).filter(|name| !name.is_empty());
    name.cloned().unwrap_or_else(|| number.to_string())
}

/// What an array or a statement that reads does, in words.
fn meaning(record: Record, section: Section, level: usize, scope: &Scope) -> String {
    let [code, p, q, k, x0, ..] = record;
    let (left, from, to) = (register(p, section, scope), register(q, section, scope), array(q, scope));
    let form = form::show(form_of(record));
    match (section, code) {
        (Section::Arrays, _) => {
            format!("cells 0 to {}; its stream has {k} items, from cell {q} by {x0}", i64::from(p) - 1)
        }
        (_, 1) => format!("{left} := {form}"),
        (_, 2) => format!("{left} := {from}"),
        (_, 3) => {
            let sign = ["+", "-", "*", "/"][place(x0, 1).unwrap_or(0).min(3)];
            format!("{left} := {from} {sign} {}", register(k, section, scope))
        }
        (_, 4) => format!("{left} := {to}[{form}]"),
        (_, 5) => format!("{to}[{form}] := {left}"),
        (_, 6) => format!("{left} := next item of {to}"),
        (_, 7) => format!("next item of {to} := {left}"),
        (_, 8) => format!("i{level} from {p} by {k}, up to but not including {q}"),
        (_, 9) => format!("if {left} is not zero"),
        _ => String::new(),
    }
}

/// What a rule ties together or a hold row says; takes the rule's statements.
fn tied(record: Record, scope: &Scope, array_next: &mut usize, stream_next: &mut usize) -> String {
    let form = form::show(form_of(record));
    match record {
        [11, p, ..] => return format!("row: the position of {} is {form}", array(p, scope)),
        [12, p, -1, ..] => return format!("row: b{p} holds nothing"),
        [12, p, q, ..] => return format!("row: b{p} holds {}[{form}]", array(q, scope)),
        _ => {}
    }
    let stream = taken(Section::StreamProgram, stream_next, scope);
    match record[0] {
        // fill and move have no array side
        3 | 5 => format!("s {stream}"),
        _ => format!("a {} | s {stream}", taken(Section::ArrayProgram, array_next, scope)),
    }
}

fn taken(section: Section, next: &mut usize, scope: &Scope) -> String {
    let number = *next;
    *next += 1;
    match scope.kernel.records(section).get(number) {
        Some(_) => format!("{number} {}", words(section, number, scope)),
        None => "past the end".to_string(),
    }
}
