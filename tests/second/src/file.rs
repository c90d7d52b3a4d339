//! Bytes to sections and records: everything reading may refuse (1 to 5), in document 01's order.
//! A file that reads becomes owned, typed values; each program is kept flat (for the check) and as a tree (for the runs).

pub type Record = [i32; 8];

/// An index form: k, then the factors of the counters of loop levels 0 to 3.
pub type Form = [i64; 5];

/// A refusal of reading (1 to 5), or 21, with its place.
#[derive(Clone, Copy, Debug, PartialEq, Eq)]
pub struct Refused {
    pub number: u16,
    pub section: u16,
    pub record: u16,
}

#[derive(Clone, Debug)]
pub struct Array {
    pub input: bool,
    pub length: usize,
    pub first: i64,
    pub count: usize,
    pub step: i64,
}

#[derive(Clone, Copy, Debug, PartialEq, Eq)]
pub enum Op {
    Add,
    Subtract,
    Multiply,
    Divide,
}

/// One statement record, typed. Unused fields are 0, so equal lines are identical records.
#[derive(Clone, Copy, Debug, PartialEq, Eq)]
pub enum Line {
    Set { register: usize, form: Form },
    Copy { to: usize, from: usize },
    Operation { to: usize, left: usize, right: usize, op: Op },
    Load { register: usize, array: usize, form: Form },
    Store { register: usize, array: usize, form: Form },
    Read { register: usize, stream: usize },
    Write { register: usize, stream: usize },
    For { first: i64, limit: i64, step: i64 },
    If { register: usize },
    Else,
    End,
}

/// One statement with the blocks it holds; `number` is its record number in its program.
#[derive(Clone, Debug)]
pub enum Node {
    Plain { number: usize, line: Line },
    Loop { level: usize, first: i64, step: i64, passes: i64, body: Vec<Node> },
    Branch { number: usize, register: usize, then: Vec<Node>, otherwise: Vec<Node> },
}

#[derive(Clone, Debug)]
pub struct Program {
    pub lines: Vec<Line>,
    pub block: Vec<Node>,
}

/// What a buffer holds: an input array and an index form, or nothing.
pub type Held = Option<(usize, Form)>;

#[derive(Clone, Copy, Debug, PartialEq, Eq)]
pub enum Rule {
    Same,
    Read,
    Fill,
    Use,
    Move,
    Write,
    For,
    If,
    Else,
    End,
    PositionRow { stream: usize, position: Form },
    BufferRow { buffer: usize, holds: Held },
}

#[derive(Clone, Debug)]
pub struct File {
    pub registers: usize,
    pub buffers: usize,
    pub arrays: Vec<Array>,
    pub array_program: Program,
    pub stream_program: Program,
    pub derivation: Vec<Rule>,
}

/// The six sections before any record is looked into.
#[derive(Clone, Debug)]
pub struct Sections {
    pub registers: i32,
    pub buffers: i32,
    pub arrays: Vec<Record>,
    pub array_program: Vec<Record>,
    pub stream_program: Vec<Record>,
    pub derivation: Vec<Record>,
}

const LENGTHS_LIMIT: usize = 8192;
const FORM_LIMIT: i32 = 1_048_576;
const LOOP_LIMIT: i32 = 65_536;
const PASSES_LIMIT: i64 = 65_536;
const OPEN_LIMIT: usize = 8;
const LEVEL_LIMIT: usize = 4;

fn refused<T>(number: u16, section: u16, record: usize) -> Result<T, Refused> {
    Err(Refused { number, section, record: record as u16 })
}

/// The whole reader.
pub fn read(bytes: &[u8]) -> Result<File, Refused> {
    let sections = split(bytes)?;
    let arrays = arrays(&sections.arrays)?;
    let (registers, buffers) = (sections.registers as usize, sections.buffers as usize);
    let array_program = program(&sections.array_program, 4, registers, &arrays)?;
    let stream_program = program(&sections.stream_program, 5, registers + buffers, &arrays)?;
    let derivation = derivation(&sections.derivation, arrays.len(), buffers)?;
    Ok(File { registers, buffers, arrays, array_program, stream_program, derivation })
}

/// Counts and lengths as met (1 and 2); no record is looked into.
pub fn split(bytes: &[u8]) -> Result<Sections, Refused> {
    let fours = bytes.chunks_exact(4);
    if !fours.remainder().is_empty() {
        return refused(1, 0, 0);
    }
    let numbers: Vec<i32> = fours.map(|four| i32::from_le_bytes([four[0], four[1], four[2], four[3]])).collect();
    let mut rest = numbers.as_slice();
    let sections = Sections {
        registers: count(&mut rest, 1, 1, 32)?,
        buffers: count(&mut rest, 2, 0, 16)?,
        arrays: records(&mut rest, 3, 1, 8)?,
        array_program: records(&mut rest, 4, 0, 256)?,
        stream_program: records(&mut rest, 5, 0, 256)?,
        derivation: records(&mut rest, 6, 0, 1024)?,
    };
    if !rest.is_empty() {
        return refused(1, 0, 0);
    }
    Ok(sections)
}

fn count(rest: &mut &[i32], section: u16, least: i32, most: i32) -> Result<i32, Refused> {
    let Some((&number, tail)) = rest.split_first() else {
        return refused(1, 0, 0);
    };
    *rest = tail;
    if number < least || number > most {
        return refused(2, section, 0);
    }
    Ok(number)
}

fn records(rest: &mut &[i32], section: u16, least: i32, most: i32) -> Result<Vec<Record>, Refused> {
    let length = count(rest, section, least, most)? as usize * 8;
    if rest.len() < length {
        return refused(1, 0, 0);
    }
    let (mine, tail) = rest.split_at(length);
    *rest = tail;
    Ok(mine.chunks_exact(8).map(|r| [r[0], r[1], r[2], r[3], r[4], r[5], r[6], r[7]]).collect())
}

fn arrays(records: &[Record]) -> Result<Vec<Array>, Refused> {
    let mut arrays: Vec<Array> = Vec::new();
    for (number, record) in records.iter().enumerate() {
        let Some(array) = array(record) else {
            return refused(3, 3, number);
        };
        let input = array.input;
        arrays.push(array);
        let lengths: usize = arrays.iter().filter(|a| a.input == input).map(|a| a.length).sum();
        if lengths > LENGTHS_LIMIT {
            return refused(3, 3, number);
        }
    }
    Ok(arrays)
}

fn array(record: &Record) -> Option<Array> {
    let [code, length, first, count, step, rest @ ..] = *record;
    let fits = (1..=2).contains(&code)
        && (1..=4096).contains(&length)
        && (1..=length).contains(&count)
        && step != 0
        && (-4096..=4096).contains(&step)
        && rest == [0; 3];
    if !fits {
        return None;
    }
    // Without wrap: at most 4096 x 4095 away from any 32-bit number.
    let (first, step) = (i64::from(first), i64::from(step));
    let last = first + step * i64::from(count - 1);
    let inside = 0..i64::from(length);
    if !inside.contains(&first) || !inside.contains(&last) {
        return None;
    }
    Some(Array { input: code == 1, length: length as usize, first, count: count as usize, step })
}

fn form(record: &Record) -> Option<Form> {
    let mut form = [0; 5];
    for (place, &number) in form.iter_mut().zip(&record[3..]) {
        if !(-FORM_LIMIT..=FORM_LIMIT).contains(&number) {
            return None;
        }
        *place = i64::from(number);
    }
    Some(form)
}

/// What a statement's fields may name.
struct Fields<'a> {
    stream: bool,
    registers: usize,
    arrays: &'a [Array],
}

impl Fields<'_> {
    fn register(&self, field: i32) -> Option<usize> {
        usize::try_from(field).ok().filter(|&r| r < self.registers)
    }

    fn array(&self, field: i32, input: bool) -> Option<usize> {
        let array = usize::try_from(field).ok()?;
        (self.arrays.get(array)?.input == input).then_some(array)
    }

    /// The typed statement, or nothing where a code or field is outside its range (3).
    fn line(&self, record: &Record) -> Option<Line> {
        let [code, p, q, k, x0, ..] = *record;
        let zero_from = |field: usize| record[field..].iter().all(|&number| number == 0);
        match code {
            1 if q == 0 => Some(Line::Set { register: self.register(p)?, form: form(record)? }),
            2 if zero_from(3) => Some(Line::Copy { to: self.register(p)?, from: self.register(q)? }),
            3 if zero_from(5) => {
                let (to, left, right) = (self.register(p)?, self.register(q)?, self.register(k)?);
                Some(Line::Operation { to, left, right, op: op(x0)? })
            }
            4 if !self.stream => {
                Some(Line::Load { register: self.register(p)?, array: self.array(q, true)?, form: form(record)? })
            }
            5 if !self.stream => {
                Some(Line::Store { register: self.register(p)?, array: self.array(q, false)?, form: form(record)? })
            }
            6 if self.stream && zero_from(3) => {
                Some(Line::Read { register: self.register(p)?, stream: self.array(q, true)? })
            }
            7 if self.stream && zero_from(3) => {
                Some(Line::Write { register: self.register(p)?, stream: self.array(q, false)? })
            }
            8 if zero_from(4) => loop_line(p, q, k),
            9 if zero_from(2) => Some(Line::If { register: self.register(p)? }),
            10 if zero_from(1) => Some(Line::Else),
            11 if zero_from(1) => Some(Line::End),
            _ => None,
        }
    }
}

fn op(field: i32) -> Option<Op> {
    match field {
        1 => Some(Op::Add),
        2 => Some(Op::Subtract),
        3 => Some(Op::Multiply),
        4 => Some(Op::Divide),
        _ => None,
    }
}

fn loop_line(first: i32, limit: i32, step: i32) -> Option<Line> {
    let range = -LOOP_LIMIT..=LOOP_LIMIT;
    if step == 0 || ![first, limit, step].iter().all(|number| range.contains(number)) {
        return None;
    }
    let way = limit - first;
    if way % step != 0 || way / step < 1 {
        return None;
    }
    Some(Line::For { first: first.into(), limit: limit.into(), step: step.into() })
}

/// How a block came to its end.
enum Ender {
    Else(usize),
    End(usize),
    SectionOver,
}

/// Recursive descent over one program's records.
struct Parser<'a> {
    records: &'a [Record],
    section: u16,
    fields: Fields<'a>,
    lines: Vec<Line>,
    /// Passes of the loops open here, outermost first.
    loops: Vec<i64>,
    open: usize,
}

fn program(records: &[Record], section: u16, registers: usize, arrays: &[Array]) -> Result<Program, Refused> {
    let fields = Fields { stream: section == 5, registers, arrays };
    let mut parser = Parser { records, section, fields, lines: Vec::new(), loops: Vec::new(), open: 0 };
    let (block, ender) = parser.block()?;
    match ender {
        Ender::SectionOver => Ok(Program { lines: parser.lines, block }),
        Ender::Else(number) | Ender::End(number) => refused(4, section, number),
    }
}

impl Parser<'_> {
    fn block(&mut self) -> Result<(Vec<Node>, Ender), Refused> {
        let mut nodes = Vec::new();
        loop {
            let number = self.lines.len();
            let Some(record) = self.records.get(number) else {
                return Ok((nodes, Ender::SectionOver));
            };
            let Some(line) = self.fields.line(record) else {
                return refused(3, self.section, number);
            };
            self.lines.push(line);
            match line {
                Line::Else => return Ok((nodes, Ender::Else(number))),
                Line::End => return Ok((nodes, Ender::End(number))),
                Line::For { first, limit, step } => nodes.push(self.for_loop(number, first, limit, step)?),
                Line::If { register } => nodes.push(self.branch(number, register)?),
                plain => {
                    self.counters_around(number, &plain)?;
                    nodes.push(Node::Plain { number, line: plain });
                }
            }
        }
    }

    fn for_loop(&mut self, number: usize, first: i64, limit: i64, step: i64) -> Result<Node, Refused> {
        let passes = (limit - first) / step;
        let level = self.loops.len();
        let together: i64 = passes * self.loops.iter().product::<i64>();
        if self.open == OPEN_LIMIT || level == LEVEL_LIMIT || together > PASSES_LIMIT {
            return refused(5, self.section, number);
        }
        self.open += 1;
        self.loops.push(passes);
        let (body, ender) = self.block()?;
        self.loops.pop();
        self.open -= 1;
        match ender {
            Ender::End(_) => Ok(Node::Loop { level, first, step, passes, body }),
            other => self.unmatched(other),
        }
    }

    fn branch(&mut self, number: usize, register: usize) -> Result<Node, Refused> {
        if self.open == OPEN_LIMIT {
            return refused(5, self.section, number);
        }
        self.open += 1;
        let (then, ender) = self.block()?;
        if !matches!(ender, Ender::Else(_)) {
            return self.unmatched(ender);
        }
        let (otherwise, ender) = self.block()?;
        if !matches!(ender, Ender::End(_)) {
            return self.unmatched(ender);
        }
        self.open -= 1;
        Ok(Node::Branch { number, register, then, otherwise })
    }

    /// 4 at the record that ends the block wrongly, or at the section's end.
    fn unmatched<T>(&self, ender: Ender) -> Result<T, Refused> {
        match ender {
            Ender::Else(number) | Ender::End(number) => refused(4, self.section, number),
            Ender::SectionOver => refused(4, self.section, self.records.len()),
        }
    }

    fn counters_around(&self, number: usize, line: &Line) -> Result<(), Refused> {
        match line {
            Line::Set { form, .. } | Line::Load { form, .. } | Line::Store { form, .. }
                if !names_only(form, self.loops.len()) =>
            {
                refused(5, self.section, number)
            }
            _ => Ok(()),
        }
    }
}

/// Whether a form has nonzero terms only for the outermost `loops` levels.
pub fn names_only(form: &Form, loops: usize) -> bool {
    form[1 + loops..].iter().all(|&factor| factor == 0)
}

fn derivation(records: &[Record], arrays: usize, buffers: usize) -> Result<Vec<Rule>, Refused> {
    let mut rules = Vec::with_capacity(records.len());
    for (number, record) in records.iter().enumerate() {
        match rule(record, arrays, buffers) {
            Some(rule) => rules.push(rule),
            None => return refused(3, 6, number),
        }
    }
    Ok(rules)
}

fn rule(record: &Record, arrays: usize, buffers: usize) -> Option<Rule> {
    const PLAIN: [Rule; 10] = [
        Rule::Same,
        Rule::Read,
        Rule::Fill,
        Rule::Use,
        Rule::Move,
        Rule::Write,
        Rule::For,
        Rule::If,
        Rule::Else,
        Rule::End,
    ];
    let [code, p, q, ..] = *record;
    match code {
        1..=10 => record[1..].iter().all(|&number| number == 0).then(|| PLAIN[code as usize - 1]),
        11 => {
            let stream = usize::try_from(p).ok().filter(|&stream| stream < arrays && q == 0)?;
            Some(Rule::PositionRow { stream, position: form(record)? })
        }
        12 => {
            let buffer = usize::try_from(p).ok().filter(|&buffer| buffer < buffers)?;
            let form = form(record)?;
            match usize::try_from(q) {
                Ok(array) if array < arrays => Some(Rule::BufferRow { buffer, holds: Some((array, form)) }),
                Err(_) if q == -1 && form == [0; 5] => Some(Rule::BufferRow { buffer, holds: None }),
                _ => None,
            }
        }
        _ => None,
    }
}
