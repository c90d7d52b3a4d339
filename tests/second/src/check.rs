//! The check: one walk over the derivation with a ledger and a stack of open blocks (10 to 19).

use crate::file::{names_only, Array, File, Form, Held, Line, Rule};

/// A refusal of the check; the two statement records are the next ones that no rule has taken.
#[derive(Clone, Copy, Debug, PartialEq, Eq)]
pub struct Unfit {
    pub number: u16,
    pub derivation: u16,
    pub array: u16,
    pub stream: u16,
}

/// Positions by stream, and what each buffer holds. A loop's hold rows have the same shape.
#[derive(Clone, Debug, PartialEq, Eq)]
struct Ledger {
    positions: Vec<Form>,
    buffers: Vec<Held>,
}

enum Open {
    Loop {
        level: usize,
        first: i64,
        limit: i64,
        step: i64,
        rows: Ledger,
    },
    /// `after_then` is there once the else is met.
    Branch {
        at_if: Ledger,
        after_then: Option<Ledger>,
    },
}

struct Walk<'a> {
    file: &'a File,
    ledger: Ledger,
    open: Vec<Open>,
    derivation: usize,
    array: usize,
    stream: usize,
}

/// Accepted, or the first refusal.
pub fn check(file: &File) -> Result<(), Unfit> {
    let ledger = Ledger { positions: vec![[0; 5]; file.arrays.len()], buffers: vec![None; file.buffers] };
    let mut walk = Walk { file, ledger, open: Vec::new(), derivation: 0, array: 0, stream: 0 };
    match walk.whole() {
        Ok(()) => Ok(()),
        Err(number) => Err(Unfit {
            number,
            derivation: walk.derivation as u16,
            array: walk.array as u16,
            stream: walk.stream as u16,
        }),
    }
}

impl Walk<'_> {
    fn whole(&mut self) -> Result<(), u16> {
        while let Some(&rule) = self.file.derivation.get(self.derivation) {
            self.rule(rule)?;
        }
        let (array, stream) = (&self.file.array_program.lines, &self.file.stream_program.lines);
        if self.array < array.len() || self.stream < stream.len() {
            return Err(17);
        }
        if !self.open.is_empty() {
            return Err(18); // never: openings and ends are taken from both matched programs at once
        }
        let ended = |(position, array): (&Form, &Array)| *position == [array.count as i64, 0, 0, 0, 0];
        if !self.ledger.positions.iter().zip(&self.file.arrays).all(ended) {
            return Err(19);
        }
        Ok(())
    }

    /// One rule. The three places move on only when nothing refuses it.
    fn rule(&mut self, rule: Rule) -> Result<(), u16> {
        let array_line = self.file.array_program.lines.get(self.array).copied();
        let Some(stream_line) = self.file.stream_program.lines.get(self.stream).copied() else {
            return Err(10);
        };
        match rule {
            Rule::Fill => self.fill(stream_line)?,
            Rule::Move => self.move_buffer(stream_line)?,
            _ => {
                self.both_sides(rule, array_line.ok_or(10u16)?, stream_line)?;
                self.array += 1;
            }
        }
        self.stream += 1;
        // The hold rows go with their for.
        self.derivation += if rule == Rule::For { 1 + self.rows_due() } else { 1 };
        Ok(())
    }

    fn both_sides(&mut self, rule: Rule, array_line: Line, stream_line: Line) -> Result<(), u16> {
        match (rule, array_line, stream_line) {
            (Rule::Same, Line::Set { .. } | Line::Copy { .. } | Line::Operation { .. }, same) if same == array_line => {
                Ok(())
            }
            (Rule::Read, Line::Load { register, array, form }, read)
                if read == (Line::Read { register, stream: array }) =>
            {
                self.item(array, form)
            }
            (Rule::Write, Line::Store { register, array, form }, write)
                if write == (Line::Write { register, stream: array }) =>
            {
                self.item(array, form)
            }
            (Rule::Use, Line::Load { register, array, form }, Line::Copy { to, from })
                if to == register && from >= self.file.registers =>
            {
                self.use_buffer(from - self.file.registers, array, form)
            }
            (Rule::For, Line::For { first, limit, step }, same) if same == array_line => {
                self.enter_loop(first, limit, step)
            }
            (Rule::If, Line::If { .. }, same) if same == array_line => {
                self.open.push(Open::Branch { at_if: self.ledger.clone(), after_then: None });
                Ok(())
            }
            (Rule::Else, Line::Else, Line::Else) => self.start_else(),
            (Rule::End, Line::End, Line::End) => self.end_block(),
            _ => Err(10),
        }
    }

    /// Read and write: the item at the next index moves, and the position goes up by one.
    fn item(&mut self, array: usize, form: Form) -> Result<(), u16> {
        self.below_count(array)?;
        if form != self.next_index(array) {
            return Err(12);
        }
        self.ledger.positions[array][0] += 1;
        Ok(())
    }

    fn fill(&mut self, stream_line: Line) -> Result<(), u16> {
        let Line::Read { register, stream } = stream_line else {
            return Err(10);
        };
        let buffer = register.checked_sub(self.file.registers).ok_or(10u16)?;
        self.below_count(stream)?;
        self.ledger.buffers[buffer] = Some((stream, self.next_index(stream)));
        self.ledger.positions[stream][0] += 1;
        Ok(())
    }

    fn move_buffer(&mut self, stream_line: Line) -> Result<(), u16> {
        let Line::Copy { to, from } = stream_line else {
            return Err(10);
        };
        let to = to.checked_sub(self.file.registers).ok_or(10u16)?;
        let from = from.checked_sub(self.file.registers).ok_or(10u16)?;
        if self.ledger.buffers[from].is_none() {
            return Err(13);
        }
        self.ledger.buffers[to] = self.ledger.buffers[from];
        Ok(())
    }

    fn use_buffer(&mut self, buffer: usize, array: usize, form: Form) -> Result<(), u16> {
        if self.ledger.buffers[buffer] == Some((array, form)) {
            Ok(())
        } else {
            Err(13)
        }
    }

    fn next_index(&self, stream: usize) -> Form {
        let array = &self.file.arrays[stream];
        let mut index = self.ledger.positions[stream].map(|number| number * array.step);
        index[0] += array.first;
        index
    }

    /// 11 if some choice of counter values brings the position to the count or above.
    fn below_count(&self, stream: usize) -> Result<(), u16> {
        let ends: Vec<[i64; 2]> = self
            .open
            .iter()
            .filter_map(|open| match open {
                Open::Loop { first, limit, step, .. } => Some([*first, *limit - *step]),
                Open::Branch { .. } => None,
            })
            .collect();
        let position = self.ledger.positions[stream];
        // A form is greatest at a corner, so all corners stand for all choices.
        let corner = |choice: usize| -> i64 {
            let terms = ends.iter().enumerate().map(|(level, end)| position[1 + level] * end[choice >> level & 1]);
            position[0] + terms.sum::<i64>()
        };
        let count = self.file.arrays[stream].count as i64;
        if (0..1 << ends.len()).any(|choice| corner(choice) >= count) {
            return Err(11);
        }
        Ok(())
    }

    fn rows_due(&self) -> usize {
        self.file.arrays.len() + self.file.buffers
    }

    fn enter_loop(&mut self, first: i64, limit: i64, step: i64) -> Result<(), u16> {
        let level = self.open.iter().filter(|open| matches!(open, Open::Loop { .. })).count();
        let rows = self.hold_rows(level).ok_or(10u16)?;
        let names_output = rows.buffers.iter().flatten().any(|(array, _)| !self.file.arrays[*array].input);
        if names_output || !holds(&rows, |form| put(form, level, first), &self.ledger) {
            return Err(14);
        }
        self.ledger = rows.clone();
        self.open.push(Open::Loop { level, first, limit, step, rows });
        Ok(())
    }

    /// The rows after the for, or nothing where they are missing, out of order or name a counter not around.
    fn hold_rows(&self, level: usize) -> Option<Ledger> {
        let start = self.derivation + 1;
        let records = self.file.derivation.get(start..start + self.rows_due())?;
        let (position_rows, buffer_rows) = records.split_at(self.file.arrays.len());
        let mut rows = Ledger { positions: Vec::new(), buffers: Vec::new() };
        for (due, record) in position_rows.iter().enumerate() {
            match record {
                Rule::PositionRow { stream, position } if *stream == due && names_only(position, level + 1) => {
                    rows.positions.push(*position)
                }
                _ => return None,
            }
        }
        for (due, record) in buffer_rows.iter().enumerate() {
            match record {
                Rule::BufferRow { buffer, holds }
                    if *buffer == due && holds.iter().all(|(_, form)| names_only(form, level + 1)) =>
                {
                    rows.buffers.push(*holds)
                }
                _ => return None,
            }
        }
        Some(rows)
    }

    fn start_else(&mut self) -> Result<(), u16> {
        match self.open.last_mut() {
            Some(Open::Branch { at_if, after_then: after_then @ None }) => {
                *after_then = Some(std::mem::replace(&mut self.ledger, at_if.clone()));
                Ok(())
            }
            _ => Err(10), // never: both programs' blocks match
        }
    }

    fn end_block(&mut self) -> Result<(), u16> {
        let next = match self.open.last() {
            Some(Open::Loop { level, limit, step, rows, .. }) => {
                // Counter + step: the factor stays, the constant moves by factor x step.
                if !holds(rows, |form| ahead(form, *level, *step), &self.ledger) {
                    return Err(15);
                }
                with_forms(rows, |form| put(form, *level, *limit))
            }
            Some(Open::Branch { after_then: Some(after_then), .. }) => {
                if after_then.positions != self.ledger.positions {
                    return Err(16);
                }
                both_branches(after_then, &self.ledger)
            }
            _ => return Err(10), // never: both programs' blocks match
        };
        self.open.pop();
        self.ledger = next;
        Ok(())
    }
}

/// The form with the counter of `level` put at `value`.
pub fn put(form: &Form, level: usize, value: i64) -> Form {
    let mut result = ahead(form, level, value);
    result[1 + level] = 0;
    result
}

/// The form with the counter of `level` taken as counter + `way`.
pub fn ahead(form: &Form, level: usize, way: i64) -> Form {
    let mut result = *form;
    result[0] += form[1 + level] * way;
    result
}

fn with_forms(rows: &Ledger, change: impl Fn(&Form) -> Form) -> Ledger {
    Ledger {
        positions: rows.positions.iter().map(&change).collect(),
        buffers: rows.buffers.iter().map(|held| held.map(|(array, form)| (array, change(&form)))).collect(),
    }
}

/// Whether the rows, so changed, are true of the ledger: positions equal, buffers nothing or equal.
fn holds(rows: &Ledger, change: impl Fn(&Form) -> Form, ledger: &Ledger) -> bool {
    let rows = with_forms(rows, change);
    rows.positions == ledger.positions
        && rows.buffers.iter().zip(&ledger.buffers).all(|(row, held)| row.is_none() || row == held)
}

/// After an if, a buffer keeps what both branches have equal.
fn both_branches(one: &Ledger, other: &Ledger) -> Ledger {
    let buffers = one.buffers.iter().zip(&other.buffers).map(|(a, b)| if a == b { *a } else { None }).collect();
    Ledger { positions: other.positions.clone(), buffers }
}
