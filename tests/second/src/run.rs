//! The array run and the stream run: a tree walk over owned memories.

use crate::file::{Array, File, Form, Line, Node, Op};
use std::collections::VecDeque;

const UNSET: u16 = 31;
const ZERO_DIVISOR: u16 = 32;
const INDEX_OUTSIDE: u16 = 33;
const STREAM_EMPTY: u16 = 34;
const STREAM_FULL: u16 = 35;

#[derive(Clone, Copy, Debug, PartialEq, Eq)]
pub enum Outcome {
    Ended,
    Stuck { reason: u16, statement: u16 },
}

/// What a run answers: how it came out, items read and written (0 for the array run), and the output memory.
#[derive(Clone, Debug)]
pub struct Answer {
    pub outcome: Outcome,
    pub read: usize,
    pub written: usize,
    pub output: Vec<i32>,
}

/// Loads and stores, or reads and writes; each answers a stuck reason.
trait Memory {
    fn take(&mut self, line: &Line, counters: &[i64; 4]) -> Result<i32, u16>;
    fn give(&mut self, line: &Line, counters: &[i64; 4], value: i32) -> Result<(), u16>;
}

struct ArrayMemory {
    /// By array number; a load meets only inputs and a store only outputs.
    cells: Vec<Vec<i32>>,
}

struct StreamMemory {
    /// By stream number: what is still to be read.
    inputs: Vec<VecDeque<i32>>,
    /// By stream number: what was written, and how many items there may be.
    outputs: Vec<(Vec<i32>, usize)>,
    read: usize,
    written: usize,
}

fn index_value(form: &Form, counters: &[i64; 4]) -> i64 {
    form[0] + form[1] * counters[0] + form[2] * counters[1] + form[3] * counters[2] + form[4] * counters[3]
}

impl ArrayMemory {
    fn cell(&mut self, array: usize, form: &Form, counters: &[i64; 4]) -> Result<&mut i32, u16> {
        let index = usize::try_from(index_value(form, counters)).map_err(|_| INDEX_OUTSIDE)?;
        self.cells[array].get_mut(index).ok_or(INDEX_OUTSIDE)
    }
}

impl Memory for ArrayMemory {
    fn take(&mut self, line: &Line, counters: &[i64; 4]) -> Result<i32, u16> {
        match line {
            Line::Load { array, form, .. } => self.cell(*array, form, counters).map(|cell| *cell),
            _ => unreachable!("reading keeps reads out of the array program"),
        }
    }

    fn give(&mut self, line: &Line, counters: &[i64; 4], value: i32) -> Result<(), u16> {
        match line {
            Line::Store { array, form, .. } => self.cell(*array, form, counters).map(|cell| *cell = value),
            _ => unreachable!("reading keeps writes out of the array program"),
        }
    }
}

impl Memory for StreamMemory {
    fn take(&mut self, line: &Line, _: &[i64; 4]) -> Result<i32, u16> {
        match line {
            Line::Read { stream, .. } => {
                let item = self.inputs[*stream].pop_front().ok_or(STREAM_EMPTY)?;
                self.read += 1;
                Ok(item)
            }
            _ => unreachable!("reading keeps loads out of the stream program"),
        }
    }

    fn give(&mut self, line: &Line, _: &[i64; 4], value: i32) -> Result<(), u16> {
        match line {
            Line::Write { stream, .. } => {
                let (items, count) = &mut self.outputs[*stream];
                if items.len() == *count {
                    return Err(STREAM_FULL);
                }
                items.push(value);
                self.written += 1;
                Ok(())
            }
            _ => unreachable!("reading keeps stores out of the stream program"),
        }
    }
}

struct Machine<M> {
    registers: Vec<Option<i32>>,
    counters: [i64; 4],
    memory: M,
}

impl<M: Memory> Machine<M> {
    fn new(registers: usize, memory: M) -> Self {
        Machine { registers: vec![None; registers], counters: [0; 4], memory }
    }

    fn whole(&mut self, block: &[Node]) -> Outcome {
        match self.block(block) {
            Ok(()) => Outcome::Ended,
            Err((reason, number)) => Outcome::Stuck { reason, statement: number as u16 },
        }
    }

    /// Runs a block; a stuck statement gives its reason and number.
    fn block(&mut self, nodes: &[Node]) -> Result<(), (u16, usize)> {
        for node in nodes {
            match node {
                Node::Plain { number, line } => self.plain(line).map_err(|reason| (reason, *number))?,
                Node::Loop { level, first, step, passes, body } => {
                    let mut counter = *first;
                    for _ in 0..*passes {
                        self.counters[*level] = counter;
                        self.block(body)?;
                        counter += step;
                    }
                }
                Node::Branch { number, register, then, otherwise } => {
                    let value = self.value(*register).map_err(|reason| (reason, *number))?;
                    self.block(if value != 0 { then } else { otherwise })?;
                }
            }
        }
        Ok(())
    }

    fn value(&self, register: usize) -> Result<i32, u16> {
        self.registers[register].ok_or(UNSET)
    }

    fn plain(&mut self, line: &Line) -> Result<(), u16> {
        match line {
            // The low 32 bits of the exact sum, as signed.
            Line::Set { register, form } => self.registers[*register] = Some(index_value(form, &self.counters) as i32),
            Line::Copy { to, from } => self.registers[*to] = Some(self.value(*from)?),
            Line::Operation { to, left, right, op } => {
                self.registers[*to] = Some(operate(*op, self.value(*left)?, self.value(*right)?)?)
            }
            Line::Load { register, .. } | Line::Read { register, .. } => {
                self.registers[*register] = Some(self.memory.take(line, &self.counters)?)
            }
            Line::Store { register, .. } | Line::Write { register, .. } => {
                let value = self.value(*register)?;
                self.memory.give(line, &self.counters, value)?
            }
            Line::For { .. } | Line::If { .. } | Line::Else | Line::End => {
                unreachable!("blocks are nodes of their own")
            }
        }
        Ok(())
    }
}

fn operate(op: Op, left: i32, right: i32) -> Result<i32, u16> {
    match op {
        Op::Add => Ok(left.wrapping_add(right)),
        Op::Subtract => Ok(left.wrapping_sub(right)),
        Op::Multiply => Ok(left.wrapping_mul(right)),
        Op::Divide if right == 0 => Err(ZERO_DIVISOR),
        Op::Divide => Ok(left.wrapping_div(right)),
    }
}

/// The array run on input array memory of the fitting length.
pub fn array_run(file: &File, input: &[i32]) -> Answer {
    let mut rest = input;
    let mut cells = Vec::new();
    for array in &file.arrays {
        cells.push(if array.input { part(&mut rest, array.length) } else { vec![0; array.length] });
    }
    let mut machine = Machine::new(file.registers, ArrayMemory { cells });
    let outcome = machine.whole(&file.array_program.block);
    let outputs = file.arrays.iter().zip(machine.memory.cells).filter(|(array, _)| !array.input);
    let output = outputs.flat_map(|(_, cells)| cells).collect();
    Answer { outcome, read: 0, written: 0, output }
}

/// The stream run on input stream memory of the fitting length.
pub fn stream_run(file: &File, input: &[i32]) -> Answer {
    let mut rest = input;
    let room = |array: &Array| if array.input { 0 } else { array.count };
    let mut inputs = Vec::new();
    for array in &file.arrays {
        inputs.push(part(&mut rest, if array.input { array.count } else { 0 }).into());
    }
    let outputs = file.arrays.iter().map(|array| (Vec::with_capacity(room(array)), room(array))).collect();
    let memory = StreamMemory { inputs, outputs, read: 0, written: 0 };
    let mut machine = Machine::new(file.registers + file.buffers, memory);
    let outcome = machine.whole(&file.stream_program.block);
    let StreamMemory { outputs, read, written, .. } = machine.memory;
    let mut output = Vec::new();
    for (mut items, count) in outputs {
        items.resize(count, 0); // items never written are 0
        output.append(&mut items);
    }
    Answer { outcome, read, written, output }
}

fn part(rest: &mut &[i32], length: usize) -> Vec<i32> {
    let (mine, tail) = rest.split_at(length);
    *rest = tail;
    mine.to_vec()
}
