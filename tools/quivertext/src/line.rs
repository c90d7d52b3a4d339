//! One line of text to one record, by document 01's table of what each field may hold.

use crate::form;
use crate::kernel::{Kernel, Record, Section, INPUT, OUTPUT};

/// What a line may speak of: the counts and arrays above it, and the arrays' names ("" for none).
pub struct Scope {
    pub kernel: Kernel,
    pub names: Vec<String>,
    /// For each section the lines that its records stand in; none where the kernel is not from a text.
    pub lines: [Vec<usize>; 4],
}

impl Scope {
    pub fn of(kernel: Kernel) -> Scope {
        Scope { kernel, names: Vec::new(), lines: Default::default() }
    }
}

pub const OPERATORS: [&str; 4] = ["add", "subtract", "multiply", "divide"];
pub const RULES: [&str; 10] = ["same", "read", "fill", "use", "move", "write", "for", "if", "else", "end"];

pub fn parse(text: &str, section: Section, scope: &Scope) -> Result<Record, String> {
    let mut words = Words { rest: text };
    let first = words.next(expected(section))?;
    let record = match section {
        _ if first == "raw" => raw(&mut words)?,
        Section::Arrays => array(first, &mut words, scope)?,
        Section::ArrayProgram | Section::StreamProgram => statement(first, &mut words, section, scope)?,
        Section::Derivation => rule(first, &mut words, scope)?,
    };
    words.end()?;
    Ok(record)
}

/// The words that a line of a section may begin with.
pub fn expected(section: Section) -> &'static str {
    match section {
        Section::Arrays => "input, output or raw",
        Section::ArrayProgram => "set, copy, add, subtract, multiply, divide, load, store, for, if, else, end or raw",
        Section::StreamProgram => "set, copy, add, subtract, multiply, divide, read, write, for, if, else, end or raw",
        Section::Derivation => "same, read, fill, use, move, write, for, if, else, end, position, buffer or raw",
    }
}

fn unknown(word: &str, section: Section) -> String {
    format!("unknown word '{word}'; expected {}", expected(section))
}

fn raw(words: &mut Words) -> Result<Record, String> {
    let mut record = [0; 8];
    for number in &mut record {
        *number = words.number("raw", i32::MIN, i32::MAX)?;
    }
    Ok(record)
}

/// The name that an array line gives its array, "" for none.
pub fn name(text: &str) -> &str {
    match text.split_whitespace().nth(1) {
        Some(name) if !text.trim_start().starts_with("raw") && name != "length" => name,
        _ => "",
    }
}

fn array(first: &str, words: &mut Words, scope: &Scope) -> Result<Record, String> {
    let code = match first {
        "input" => INPUT,
        "output" => OUTPUT,
        _ => return Err(unknown(first, Section::Arrays)),
    };
    let mut word = words.next("a name or 'length'")?;
    if word != "length" {
        new_name(word, scope)?;
        word = words.next("'length'")?;
    }
    if word != "length" {
        return Err(format!("found '{word}'; expected 'length'"));
    }
    let length = words.number("length", 1, 4096)?;
    let first = words.named("first", 0, length - 1)?;
    let count = words.named("count", 1, length)?;
    let step = words.named("step", -4096, 4096)?;
    // below 2^25, as each is at most 4,096
    let last = first + step * (count - 1);
    if step == 0 {
        return Err("step '0'; expected another number".to_string());
    }
    if !(0..length).contains(&last) {
        return Err(format!("the last item would be at index '{last}'; expected 0 to {}", length - 1));
    }
    Ok([code, length, first, count, step, 0, 0, 0])
}

fn new_name(name: &str, scope: &Scope) -> Result<(), String> {
    let reserved = name.strip_prefix(['r', 'b', 'i']).is_some_and(|rest| rest.parse::<u32>().is_ok());
    let letters = name.chars().all(|letter| letter.is_ascii_alphanumeric() || letter == '_' || letter == '-');
    if reserved || name == "nothing" || !letters || !name.starts_with(|first: char| first.is_ascii_alphabetic()) {
        return Err(format!(
            "'{name}' can't be a name; expected a letter, then letters, digits, _ or -, unlike r0, b0, i0"
        ));
    }
    if scope.names.iter().any(|other| other == name) {
        return Err(format!("the name '{name}' is taken; expected another name"));
    }
    Ok(())
}

fn statement(first: &str, words: &mut Words, section: Section, scope: &Scope) -> Result<Record, String> {
    let stream = section == Section::StreamProgram;
    let record = match first {
        "set" => with_form(1, words.register(section, scope)?, 0, words.form()?),
        "copy" => [2, words.register(section, scope)?, words.register(section, scope)?, 0, 0, 0, 0, 0],
        "load" if !stream => with_form(4, words.register(section, scope)?, words.side(INPUT, scope)?, words.form()?),
        "store" if !stream => with_form(5, words.register(section, scope)?, words.side(OUTPUT, scope)?, words.form()?),
        "read" if stream => [6, words.register(section, scope)?, words.side(INPUT, scope)?, 0, 0, 0, 0, 0],
        "write" if stream => [7, words.register(section, scope)?, words.side(OUTPUT, scope)?, 0, 0, 0, 0, 0],
        "for" => for_loop(words)?,
        "if" => [9, words.register(section, scope)?, 0, 0, 0, 0, 0, 0],
        "else" => [10, 0, 0, 0, 0, 0, 0, 0],
        "end" => [11, 0, 0, 0, 0, 0, 0, 0],
        _ => {
            let operator = OPERATORS.iter().zip(1..).find(|(word, _)| **word == first);
            let Some((_, number)) = operator else { return Err(unknown(first, section)) };
            let [p, q, k] =
                [words.register(section, scope)?, words.register(section, scope)?, words.register(section, scope)?];
            [3, p, q, k, number, 0, 0, 0]
        }
    };
    Ok(record)
}

fn for_loop(words: &mut Words) -> Result<Record, String> {
    let first = words.named("first", -65_536, 65_536)?;
    let limit = words.named("limit", -65_536, 65_536)?;
    let step = words.named("step", -65_536, 65_536)?;
    let way = limit - first;
    if step == 0 || way % step != 0 || way / step < 1 {
        return Err(format!(
            "step '{step}' from {first} to {limit}; expected (limit - first) / step whole and at least 1"
        ));
    }
    Ok([8, first, limit, step, 0, 0, 0, 0])
}

fn rule(first: &str, words: &mut Words, scope: &Scope) -> Result<Record, String> {
    match first {
        "position" => Ok(with_form(11, words.array(scope)?, 0, words.form()?)),
        "buffer" => {
            let buffer = words.buffer(scope)?;
            if words.rest.trim() == "nothing" {
                words.rest = "";
                return Ok([12, buffer, -1, 0, 0, 0, 0, 0]);
            }
            Ok(with_form(12, buffer, words.array(scope)?, words.form()?))
        }
        _ => match RULES.iter().zip(1..).find(|(word, _)| **word == first) {
            Some((_, code)) => Ok([code, 0, 0, 0, 0, 0, 0, 0]),
            None => Err(unknown(first, Section::Derivation)),
        },
    }
}

fn with_form(code: i32, p: i32, q: i32, form: form::Form) -> Record {
    let [k, x0, x1, x2, x3] = form;
    [code, p, q, k, x0, x1, x2, x3]
}

/// The words of a line that are not taken yet.
pub struct Words<'a> {
    pub rest: &'a str,
}

impl<'a> Words<'a> {
    pub fn next(&mut self, expected: &str) -> Result<&'a str, String> {
        let text = self.rest.trim();
        if text.is_empty() {
            return Err(format!("the line ends too soon; expected {expected}"));
        }
        let (word, rest) = text.split_at(text.find(char::is_whitespace).unwrap_or(text.len()));
        self.rest = rest;
        Ok(word)
    }

    pub fn end(&self) -> Result<(), String> {
        match self.rest.trim() {
            "" => Ok(()),
            more => Err(format!("'{more}' comes after a whole line; expected the line's end or ; and a comment")),
        }
    }

    pub fn number(&mut self, what: &str, low: i32, high: i32) -> Result<i32, String> {
        let word = self.next(&format!("a number for {what}"))?;
        match word.parse() {
            Ok(number) if (low..=high).contains(&number) => Ok(number),
            _ => Err(format!("{what} '{word}'; expected a number, {low} to {high}")),
        }
    }

    fn named(&mut self, name: &str, low: i32, high: i32) -> Result<i32, String> {
        match self.next(&format!("'{name}'"))? {
            word if word == name => self.number(name, low, high),
            word => Err(format!("found '{word}'; expected '{name}'")),
        }
    }

    fn register(&mut self, section: Section, scope: &Scope) -> Result<i32, String> {
        let Kernel { registers, buffers, .. } = scope.kernel;
        let mut expected = format!("r0 to r{}", i64::from(registers) - 1);
        let buffered = section == Section::StreamProgram && buffers > 0;
        if buffered {
            expected += &format!(" or b0 to b{}", buffers - 1);
        }
        let word = self.next(&expected)?;
        if let Some(number) = numbered(word, 'r', registers) {
            return Ok(number);
        }
        let buffer = numbered(word, 'b', buffers).filter(|_| buffered).and_then(|buffer| buffer.checked_add(registers));
        buffer.ok_or_else(|| format!("no register '{word}' here; expected {expected}"))
    }

    fn buffer(&mut self, scope: &Scope) -> Result<i32, String> {
        let buffers = scope.kernel.buffers;
        let expected = if buffers > 0 { format!("b0 to b{}", buffers - 1) } else { "no row of a buffer".to_string() };
        let word = self.next(&expected)?;
        numbered(word, 'b', buffers).ok_or_else(|| format!("no buffer '{word}'; expected {expected}"))
    }

    /// An array by its name or its number.
    fn array(&mut self, scope: &Scope) -> Result<i32, String> {
        let word = self.next("an array's name or number")?;
        let named = scope.names.iter().position(|name| name == word);
        let place = named.or_else(|| word.parse().ok().filter(|number| *number < scope.names.len()));
        let there: Vec<&str> = scope.names.iter().map(String::as_str).filter(|name| !name.is_empty()).collect();
        place.map(|place| place as i32).ok_or_else(|| {
            let last = scope.names.len().saturating_sub(1);
            format!("no array '{word}'; expected a name ({}) or a number, 0 to {last}", there.join(", "))
        })
    }

    fn side(&mut self, code: i32, scope: &Scope) -> Result<i32, String> {
        let word = self.rest.split_whitespace().next().unwrap_or("").to_string();
        let array = self.array(scope)?;
        let wanted = if code == INPUT { "input" } else { "output" };
        match scope.kernel.arrays().get(array as usize) {
            Some(record) if record[0] == code => Ok(array),
            _ => Err(format!("array '{word}' is no {wanted}; expected an {wanted} array")),
        }
    }

    /// The rest of the line as an index form.
    fn form(&mut self) -> Result<form::Form, String> {
        let text = self.rest.trim();
        self.rest = "";
        if text.is_empty() {
            return Err("the line ends too soon; expected an index form such as 2*i0+i1-3".to_string());
        }
        form::parse(text)
    }
}

/// The number after the letter, if it is below the limit and written plainly (r0, not r00 or r+0).
fn numbered(word: &str, letter: char, limit: i32) -> Option<i32> {
    let number = word.strip_prefix(letter)?.parse().ok().filter(|number| (0..limit).contains(number))?;
    (format!("{letter}{number}") == word).then_some(number)
}
