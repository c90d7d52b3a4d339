//! An answer of the check or of a run, in words, with the records that it speaks of.

use crate::kernel::{count_of, sizes, Kernel, Section};
use crate::line::Scope;
use crate::unpack;
use crate::words;

const ACCEPTED: &str =
    "accepted: the derivation follows the rules to its end, so both programs do the same on every input.\n";
const ANSWERS: &str = "expected 'accepted', 'read N SECTION RECORD', 'check N DERIVATION ARRAY STREAM', \
    'run REASON STATEMENT' or 'stream REASON STATEMENT'";

/// The lines that explain an answer about a file; the error says what the answer should look like.
pub fn explain(file: &[u8], answer: &[&str]) -> Result<String, String> {
    explain_in(file, Kernel::whole(file).map(unpack::scope), answer)
}

/// The same with a text's own names and lines.
pub fn explain_text(scope: Scope, answer: &[&str]) -> Result<String, String> {
    explain_in(&scope.kernel.bytes(), Ok(scope), answer)
}

fn explain_in(file: &[u8], scope: Result<Scope, String>, answer: &[&str]) -> Result<String, String> {
    let (kind, numbers) = answer.split_first().ok_or("no answer to explain")?;
    let numbers: Option<Vec<u32>> = numbers.iter().map(|word| word.parse().ok()).collect();
    let numbers = numbers.ok_or("the numbers of an answer are whole numbers from 0 up")?;
    match (*kind, numbers.as_slice()) {
        ("accepted", []) => Ok(ACCEPTED.to_string()),
        ("read", &[2, section, _]) => Ok(title(words::reading(2), "read", 2, "1 to 5")? + &counted(file, section)),
        ("read", &[number, section, record]) => {
            let title = title(words::reading(number), "read", number, "1 to 5")?;
            Ok(title + &or_broken(scope, |scope| read_place(number, section, record, scope)))
        }
        ("check", &[number, derivation, array, stream]) => {
            let title = title(words::checking(number), "check", number, "10 to 19")?;
            Ok(title + &or_broken(scope, |scope| check_places(number, [derivation, array, stream], scope)))
        }
        ("run" | "stream", &[number, statement]) => {
            let title = title(words::running(number), kind, number, "21 or 31 to 35")?;
            let program = if *kind == "run" { Section::ArrayProgram } else { Section::StreamProgram };
            Ok(title + &or_broken(scope, |scope| run_place(number, program, statement, scope)))
        }
        _ => Err(ANSWERS.to_string()),
    }
}

fn title(meaning: Option<[&str; 2]>, kind: &str, number: u32, range: &str) -> Result<String, String> {
    match meaning {
        Some([meaning, advice]) => Ok(format!("{kind} {number}: {meaning}.\n{advice}\n")),
        None => Err(format!("'{kind} {number}' is no answer; expected {range}")),
    }
}

fn or_broken(scope: Result<Scope, String>, places: impl Fn(&Scope) -> String) -> String {
    match scope {
        Ok(scope) => places(&scope),
        Err(broken) => format!("In this file: {broken}.\n"),
    }
}

fn counted(file: &[u8], section: u32) -> String {
    let name = match section {
        1 => Some("registers"),
        2 => Some("buffers"),
        _ => Section::numbered(section).map(Section::title),
    };
    match (name, count_of(file, section)) {
        (Some(name), Some(count)) => format!("  {name}: the count is {count}\n"),
        _ => format!("There is no count of section {section} in this file.\n"),
    }
}

fn read_place(number: u32, section: u32, record: u32, scope: &Scope) -> String {
    match Section::numbered(section) {
        Some(section) if number == 3 => shown(section, record, scope) + &field(section, record, scope),
        Some(section) => shown(section, record, scope),
        None if section == 0 => "The file's sections are whole: is this the file that was read?\n".to_string(),
        None => format!("Section {section} has no records; those with records are 3 to 6.\n"),
    }
}

/// What of a record is outside its range.
fn field(section: Section, record: u32, scope: &Scope) -> String {
    match unpack::wrong(section, record as usize, scope) {
        Some(what) => format!("Outside its range: {what}.\n"),
        None if section == Section::Arrays => {
            "Taken by itself this record reads: look at the lengths up to here.\n".to_string()
        }
        None => String::new(),
    }
}

fn check_places(number: u32, [derivation, array, stream]: [u32; 3], scope: &Scope) -> String {
    let mut text = String::from("The rule, and the next statements that no rule has taken:\n");
    text += &shown(Section::Derivation, derivation, scope);
    text += &shown(Section::ArrayProgram, array, scope);
    text += &shown(Section::StreamProgram, stream, scope);
    let opening = match number {
        10 | 14 => Some(derivation as usize),
        15 => opening(derivation as usize, scope),
        _ => None,
    };
    let rows = opening.map_or(0..0, |opening| rows(opening, scope));
    if !rows.is_empty() {
        text += "The hold rows:\n";
        text.extend(rows.map(|row| shown(Section::Derivation, row as u32, scope)));
    }
    if matches!(number, 11 | 12 | 19) {
        text += "The arrays and the orders of their streams:\n";
        text.extend((0..scope.kernel.arrays().len()).map(|array| shown(Section::Arrays, array as u32, scope)));
    }
    text
}

fn run_place(number: u32, program: Section, statement: u32, scope: &Scope) -> String {
    if number != 21 {
        return shown(program, statement, scope);
    }
    match sizes(&scope.kernel) {
        Ok(sizes) => sizes.iter().map(|(name, size)| format!("  {name} {size}\n")).collect(),
        Err(what) => format!("{what}\n"),
    }
}

/// One place of a section: its number and its line, or that it is past the section's records.
fn shown(section: Section, number: u32, scope: &Scope) -> String {
    let records = scope.kernel.records(section);
    let line = match records.get(number as usize) {
        Some(_) => unpack::words(section, number as usize, scope),
        None if number as usize == records.len() => "(the section's end: past its last record)".to_string(),
        None => format!("(no such place: the section has only {} records)", records.len()),
    };
    let place = scope.lines[section as usize].get(number as usize);
    let place = place.map_or_else(String::new, |place| format!("  (line {place})"));
    format!("  {:<14} {number:>4}: {line}{place}\n", section.title())
}

/// The numbers of the hold rows after a for.
fn rows(opening: usize, scope: &Scope) -> std::ops::Range<usize> {
    let records = scope.kernel.records(Section::Derivation);
    let first = opening.saturating_add(1).min(records.len());
    match records.get(opening) {
        Some([7, ..]) => first..first + records[first..].iter().take_while(|row| row[0] == 11 || row[0] == 12).count(),
        _ => first..first,
    }
}

/// The for that the end at this place closes.
fn opening(end: usize, scope: &Scope) -> Option<usize> {
    let mut open = Vec::new();
    for (number, record) in scope.kernel.records(Section::Derivation).iter().enumerate().take(end) {
        match record[0] {
            7 | 8 => open.push(number),
            10 => drop(open.pop()),
            _ => {}
        }
    }
    open.pop()
}
