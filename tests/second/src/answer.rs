//! The five calls of the C boundary with their 64-bit answer words, and the line that `check` prints.

use crate::check::{check, Unfit};
use crate::file::{read, File, Refused};
use crate::order::{lay_out, put_back};
use crate::run::{array_run, stream_run, Answer, Outcome};

/// `check` takes at most this many bytes of its standard input.
pub const CHECK_TAKES: usize = 49_436;

#[derive(Clone, Copy, Debug, PartialEq, Eq)]
pub enum Call {
    Check,
    ArrayRun,
    StreamRun,
    LayOut,
    PutBack,
}

impl Call {
    pub const ALL: [Call; 5] = [Call::Check, Call::ArrayRun, Call::StreamRun, Call::LayOut, Call::PutBack];

    pub fn from_number(number: u32) -> Option<Call> {
        Call::ALL.get((number as usize).checked_sub(1)?).copied()
    }

    pub fn number(self) -> u32 {
        self as u32 + 1
    }

    /// How many numbers the lent input and output memory of this call have.
    pub fn lengths(self, file: &File) -> (usize, usize) {
        let sum = |input: bool, laid: bool| -> usize {
            let chosen = file.arrays.iter().filter(|array| array.input == input);
            chosen.map(|array| if laid { array.count } else { array.length }).sum()
        };
        match self {
            Call::Check => (0, 0),
            Call::ArrayRun => (sum(true, false), sum(false, false)),
            Call::StreamRun => (sum(true, true), sum(false, true)),
            Call::LayOut => (sum(true, false), sum(true, true)),
            Call::PutBack => (sum(false, true), sum(false, false)),
        }
    }
}

/// Four 16-bit parts, lowest first.
pub fn word(parts: [u16; 4]) -> u64 {
    parts.iter().rev().fold(0, |word, part| word << 16 | u64::from(*part))
}

pub fn parts(word: u64) -> [u16; 4] {
    [word as u16, (word >> 16) as u16, (word >> 32) as u16, (word >> 48) as u16]
}

/// One call as at the C boundary: the answer word, and the output area changed as it says.
pub fn call(call: Call, file: &[u8], input: &[u8], output: &mut Vec<u8>) -> u64 {
    match (call, read(file)) {
        (_, Err(refused)) => refused_word(refused),
        (Call::Check, Ok(file)) => check_word(check(&file)),
        (_, Ok(file)) => with_memory(call, &file, input, output),
    }
}

fn with_memory(call: Call, file: &File, input: &[u8], output: &mut Vec<u8>) -> u64 {
    let (taken, given) = call.lengths(file);
    if input.len() != 4 * taken || output.len() != 4 * given {
        return refused_word(Refused { number: 21, section: 0, record: 0 });
    }
    let input = numbers(input);
    let (memory, word) = match call {
        Call::Check => return check_word(check(file)),
        Call::ArrayRun => run_word(array_run(file, &input)),
        Call::StreamRun => run_word(stream_run(file, &input)),
        Call::LayOut => (lay_out(file, &input), 0),
        Call::PutBack => (put_back(file, &input), 0),
    };
    *output = bytes(&memory);
    word
}

fn refused_word(refused: Refused) -> u64 {
    word([refused.number, refused.section, refused.record, 0])
}

fn check_word(answer: Result<(), Unfit>) -> u64 {
    match answer {
        Ok(()) => 0,
        Err(unfit) => word([unfit.number, unfit.derivation, unfit.array, unfit.stream]),
    }
}

fn run_word(answer: Answer) -> (Vec<i32>, u64) {
    let (read, written) = (answer.read as u16, answer.written as u16);
    let word = match answer.outcome {
        Outcome::Ended => word([0, 0, read, written]),
        Outcome::Stuck { reason, statement } => word([reason, statement, read, written]),
    };
    (answer.output, word)
}

/// Numbers of a memory, low byte first; the length is known to be a multiple of 4.
pub fn numbers(bytes: &[u8]) -> Vec<i32> {
    bytes.chunks_exact(4).map(|four| i32::from_le_bytes([four[0], four[1], four[2], four[3]])).collect()
}

pub fn bytes(numbers: &[i32]) -> Vec<u8> {
    numbers.iter().flat_map(|number| number.to_le_bytes()).collect()
}

/// The line that the program `check` prints, without its line end.
pub fn check_line(input: &[u8]) -> String {
    let taken = &input[..input.len().min(CHECK_TAKES)];
    match read(taken) {
        Err(refused) => format!("read {} {} {}", refused.number, refused.section, refused.record),
        Ok(file) => match check(&file) {
            Ok(()) => "accepted".to_string(),
            Err(u) => format!("check {} {} {} {}", u.number, u.derivation, u.array, u.stream),
        },
    }
}
