//! A whole text to a kernel: the sections in file order, one record a line.

use crate::kernel::{Kernel, Section};
use crate::line::{self, Scope, Words};

/// What is wrong with a text, and in which line, counted from 1.
#[derive(Debug, PartialEq, Eq)]
pub struct Wrong {
    pub line: usize,
    pub what: String,
}

/// Which heading was met last.
enum Stage {
    Nothing,
    Registers,
    Buffers,
    In(Section),
}

/// The kernel of a text, with the text's names and lines.
pub fn pack(text: &str) -> Result<Scope, Wrong> {
    let mut scope = Scope::of(Kernel::new(0, 0));
    let mut stage = Stage::Nothing;
    let mut line = 0;
    for content in text.lines() {
        line += 1;
        let content = content.split(';').next().unwrap_or("").trim();
        if !content.is_empty() {
            take_line(content, line, &mut stage, &mut scope).map_err(|what| Wrong { line, what })?;
        }
    }
    match heading(&stage) {
        None => Ok(scope),
        Some(due) => Err(Wrong { line: line.max(1), what: format!("the text ends too soon; expected '{due}'") }),
    }
}

/// The heading that is due next; nothing after the derivation's.
fn heading(stage: &Stage) -> Option<&'static str> {
    match stage {
        Stage::Nothing => Some("registers N"),
        Stage::Registers => Some("buffers N"),
        Stage::Buffers => Some(Section::Arrays.title()),
        Stage::In(section) => following(*section).map(Section::title),
    }
}

fn following(section: Section) -> Option<Section> {
    Section::ALL.get(section as usize + 1).copied()
}

fn take_line(content: &str, line: usize, stage: &mut Stage, scope: &mut Scope) -> Result<(), String> {
    match *stage {
        Stage::Nothing => {
            scope.kernel.registers = count(content, "registers", 1, 32)?;
            *stage = Stage::Registers;
        }
        Stage::Registers => {
            scope.kernel.buffers = count(content, "buffers", 0, 16)?;
            *stage = Stage::Buffers;
        }
        Stage::Buffers => {
            if !is_heading(content, Section::Arrays) {
                return Err(format!("found '{content}'; expected 'arrays'"));
            }
            *stage = Stage::In(Section::Arrays);
        }
        Stage::In(section) => match following(section) {
            Some(next) if is_heading(content, next) => *stage = Stage::In(next),
            next => {
                take_record(content, section, next, scope)?;
                scope.lines[section as usize].push(line);
            }
        },
    }
    Ok(())
}

fn take_record(content: &str, section: Section, next: Option<Section>, scope: &mut Scope) -> Result<(), String> {
    let record = line::parse(content, section, scope).map_err(|what| match next {
        Some(next) if what.starts_with("unknown word") => format!("{what}, or the heading '{}'", next.title()),
        _ => what,
    })?;
    scope.kernel.push(section, record);
    if section == Section::Arrays {
        scope.names.push(line::name(content).to_string());
    }
    Ok(())
}

fn is_heading(content: &str, section: Section) -> bool {
    content.split_whitespace().eq(section.title().split(' '))
}

/// A count that is a section of its own. After `raw` it may be any number.
fn count(content: &str, name: &str, low: i32, high: i32) -> Result<i32, String> {
    let mut words = Words { rest: content };
    let word = words.next(name)?;
    if word != name {
        return Err(format!("found '{word}'; expected '{name} N'"));
    }
    let number = match words.rest.trim().strip_prefix("raw ") {
        Some(rest) => {
            words.rest = rest;
            words.number(name, i32::MIN, i32::MAX)?
        }
        None => words.number(name, low, high)?,
    };
    words.end()?;
    Ok(number)
}
