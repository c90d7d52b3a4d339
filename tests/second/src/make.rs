//! A batch of requests from a seed: the vectors, document 01's measured lines, the longest file, then a mixture.

use crate::answer::{bytes, Call};
use crate::batch::{Request, AREA_LIMIT};
use crate::file::{read, split, Record, Sections};
use crate::prng::Prng;
use crate::{check, grow, mutate};
use std::io::{self, Write};

/// How many accepted kernels are kept to be changed.
const POOL_LIMIT: usize = 60;

struct Maker<'a, W> {
    rng: Prng,
    sink: &'a mut W,
    left: usize,
    pool: Vec<Sections>,
}

/// Writes exactly `count` requests; `files` are the vectors' kernel files.
pub fn requests(seed: u64, count: usize, files: &[Vec<u8>], sink: &mut impl Write) -> io::Result<()> {
    let mut maker = Maker { rng: Prng::new(seed), sink, left: count, pool: Vec::new() };
    let (lines, longest) = (measured_lines(), longest());
    for file in files.iter().chain(&lines).chain(&longest).filter(|file| file.len() <= AREA_LIMIT) {
        for call in Call::ALL {
            maker.fitting(call, file)?;
        }
        // The longest file is too long to be changed over and over.
        if file.len() < 16_384 && read(file).is_ok_and(|read| check::check(&read).is_ok()) {
            maker.pool.extend(split(file).ok());
        }
    }
    while maker.left > 0 {
        maker.mixture()?;
    }
    Ok(())
}

/// A program of loops around one set, then one write; rows all 0.
fn looped(loops: &[Record]) -> Sections {
    let set = [1, 0, 0, 5, 0, 0, 0, 0];
    let ends = vec![[11, 0, 0, 0, 0, 0, 0, 0]; loops.len()];
    let mut program = loops.to_vec();
    program.push(set);
    program.extend(&ends);
    let mut stream = program.clone();
    program.push([5, 0, 0, 0, 0, 0, 0, 0]);
    stream.push([7, 0, 0, 0, 0, 0, 0, 0]);
    let mut derivation: Vec<Record> = Vec::new();
    for _ in loops {
        derivation.extend([[7, 0, 0, 0, 0, 0, 0, 0], [11, 0, 0, 0, 0, 0, 0, 0]]);
    }
    derivation.push([1, 0, 0, 0, 0, 0, 0, 0]);
    derivation.extend(loops.iter().map(|_| [10, 0, 0, 0, 0, 0, 0, 0]));
    derivation.push([6, 0, 0, 0, 0, 0, 0, 0]);
    let arrays = vec![[2, 1, 0, 1, 1, 0, 0, 0]];
    Sections { registers: 1, buffers: 0, arrays, array_program: program, stream_program: stream, derivation }
}

/// Loop 0 to 3 step 2: refused 3. Passes 65,536 accepted; an inner loop of 2 there: 5. Loop level 4: 5.
pub fn measured_lines() -> Vec<Vec<u8>> {
    let of = |limit: i32, step: i32| -> Record { [8, 0, limit, step, 0, 0, 0, 0] };
    let shapes = [vec![of(3, 2)], vec![of(65_536, 1)], vec![of(65_536, 1), of(2, 1)], vec![of(1, 1); 5]];
    shapes.iter().map(|loops| mutate::file_bytes(&looped(loops))).collect()
}

/// The longest file, which is accepted; then one number and 100 numbers too many.
pub fn longest() -> Vec<Vec<u8>> {
    let with_code = |code: i32| -> Record { [code, 0, 0, 0, 0, 0, 0, 0] };
    let (head, end) = ([8, 0, 2, 1, 0, 0, 0, 0], with_code(11));
    let rows: Vec<Record> = (0..8)
        .map(|stream| [11, stream, 0, 0, 0, 0, 0, 0])
        .chain((0..16).map(|buffer| [12, buffer, -1, 0, 0, 0, 0, 0]))
        .collect();
    let set = [1, 31, 0, 7, 0, 0, 0, 0];
    let (mut program, mut derivation) = (vec![set; 184], vec![with_code(1); 184]);
    for _ in 0..32 {
        program.extend([head, end]);
        derivation.push(with_code(7));
        derivation.extend(&rows);
        derivation.push(with_code(10));
    }
    let mut stream_program = program.clone();
    let mut arrays: Vec<Record> = Vec::new();
    for array in 0..8 {
        let input = array % 2 == 0;
        arrays.push([if input { 1 } else { 2 }, 2048, 1000, 1, 1, 0, 0, 0]);
        program.push([if input { 4 } else { 5 }, 31, array, 1000, 0, 0, 0, 0]);
        stream_program.push([if input { 6 } else { 7 }, 31, array, 0, 0, 0, 0, 0]);
        derivation.push(with_code(if input { 2 } else { 6 }));
    }
    let kernel = Sections { registers: 32, buffers: 16, arrays, array_program: program, stream_program, derivation };
    let file = mutate::file_bytes(&kernel);
    [0, 4, 400].map(|more| [&file[..], &vec![0; more]].concat()).into()
}

impl<W: Write> Maker<'_, W> {
    fn write(&mut self, request: Request) -> io::Result<()> {
        if self.left > 0 {
            self.left -= 1;
            request.write(self.sink)?;
        }
        Ok(())
    }

    /// One call with memories that fit, the output area with old contents; arbitrary ones where the file does not read.
    fn fitting(&mut self, call: Call, file: &[u8]) -> io::Result<()> {
        let (taken, given) = match read(file) {
            Ok(read) => call.lengths(&read),
            Err(_) if call == Call::Check => (0, 0),
            Err(_) => (self.rng.below(5), self.rng.below(5)),
        };
        let input = self.memory(4 * taken);
        let output = self.memory(4 * given);
        self.write(Request { call, file: file.to_vec(), input, output })
    }

    /// One call with some area of a wrong length; a check passes over its areas.
    fn misfitting(&mut self, call: Call, file: &[u8]) -> io::Result<()> {
        let (taken, given) = read(file).map_or((1, 1), |read| call.lengths(&read));
        let (mut input, mut output) = (4 * taken, 4 * given);
        let side = if self.rng.one_in(2) { &mut input } else { &mut output };
        *side = match self.rng.below(6) {
            0 => *side + 1,
            1 => side.saturating_sub(1),
            2 => *side + 4,
            3 => side.saturating_sub(4),
            4 => 0,
            _ => 4 * self.rng.below(40),
        };
        if self.rng.one_in(8) {
            std::mem::swap(&mut input, &mut output);
        }
        let (input, output) = (self.memory(input), self.memory(output));
        self.write(Request { call, file: file.to_vec(), input, output })
    }

    /// So many bytes of numbers, extremes among them.
    fn memory(&mut self, length: usize) -> Vec<u8> {
        let kind = self.rng.below(5);
        let number = |rng: &mut Prng| match if kind == 4 { rng.below(4) } else { kind } {
            0 => rng.pick(&[i32::MIN, i32::MAX, 0, -1, 1]),
            1 => rng.next() as i32,
            2 => rng.between(-9, 9) as i32,
            _ => rng.between(-1000, 1000) as i32,
        };
        let numbers: Vec<i32> = (0..length.div_ceil(4)).map(|_| number(&mut self.rng)).collect();
        let mut memory = bytes(&numbers);
        memory.truncate(length);
        memory
    }

    fn mixture(&mut self) -> io::Result<()> {
        let file = match self.rng.below(24) {
            0..=7 => self.grown(),
            8..=20 => {
                let chosen = self.rng.below(self.pool.len());
                mutate::changed(&mut self.rng, &self.pool[chosen])
            }
            21 => self.noise(),
            22 => self.likely_noise(),
            _ => mutate::file_bytes(&grow::wide(&mut self.rng)),
        };
        if file.len() > AREA_LIMIT {
            return Ok(());
        }
        let most = if read(&file).is_ok() { 3 } else { 1 };
        for _ in 0..1 + self.rng.below(most) {
            let call = self.rng.pick(&CALLS);
            if self.rng.one_in(14) {
                self.misfitting(call, &file)?;
            } else {
                self.fitting(call, &file)?;
            }
        }
        Ok(())
    }

    /// A grown kernel, which also takes a place in the pool.
    fn grown(&mut self) -> Vec<u8> {
        let kernel = grow::kernel(&mut self.rng);
        let file = mutate::file_bytes(&kernel);
        if self.pool.len() < POOL_LIMIT {
            self.pool.push(kernel);
        } else {
            let place = self.rng.below(POOL_LIMIT);
            self.pool[place] = kernel;
        }
        file
    }

    fn noise(&mut self) -> Vec<u8> {
        let length = self.rng.below(200);
        match self.rng.below(3) {
            0 => (0..length).map(|_| self.rng.next() as u8).collect(),
            1 => bytes(&(0..length / 4).map(|_| self.rng.between(-1, 12) as i32).collect::<Vec<_>>()),
            _ => bytes(&(0..length / 4).map(|_| self.rng.between(0, 3) as i32).collect::<Vec<_>>()),
        }
    }

    /// Good counts, and records with a code and mostly small or zero fields.
    fn likely_noise(&mut self) -> Vec<u8> {
        let orders =
            [[1, 3, 0, 3, 1, 0, 0, 0], [2, 3, 2, 3, -1, 0, 0, 0], [1, 1, 0, 1, 1, 0, 0, 0], [2, 1, 0, 1, 1, 0, 0, 0]];
        let arrays = (0..1 + self.rng.below(3)).map(|_| self.rng.pick(&orders)).collect();
        let kernel = Sections {
            registers: self.rng.between(1, 3) as i32,
            buffers: self.rng.between(0, 2) as i32,
            arrays,
            array_program: self.likely_records(&[1, 2, 3, 4, 5, 8, 9, 10, 11]),
            stream_program: self.likely_records(&[1, 2, 3, 6, 7, 8, 9, 10, 11]),
            derivation: self.likely_records(&[1, 2, 3, 4, 5, 6, 7, 8, 9, 10]),
        };
        mutate::file_bytes(&kernel)
    }

    fn likely_records(&mut self, codes: &[i32]) -> Vec<Record> {
        let length = self.rng.below(6);
        let mut records = vec![[0; 8]; length];
        for record in &mut records {
            record[0] = self.rng.pick(codes);
            // Codes 10 and 11 and all rules have zero fields.
            let fields =
                if codes.contains(&6) && !codes.contains(&11) || record[0] > 9 { 0 } else { self.rng.below(4) };
            for field in &mut record[1..1 + fields] {
                *field = self.rng.between(0, 2) as i32;
            }
            if record[0] == 8 {
                *record = [8, 0, self.rng.between(1, 4) as i32, 1, 0, 0, 0, 0];
            }
        }
        records
    }
}

/// Calls of the mixture, by how often they come up.
const CALLS: [Call; 9] = [
    Call::Check,
    Call::Check,
    Call::Check,
    Call::Check,
    Call::ArrayRun,
    Call::StreamRun,
    Call::StreamRun,
    Call::LayOut,
    Call::PutBack,
];
