// How fast the proved code is beside the second implementation: both are called in this one program, on the same bytes, in turns.
// Each call reads the file, and a run clears its output, on both sides. With the word 'cases' it prints the cases' names; with words SIDE CASE N it
// makes N calls of one side and prints nothing, so that their instructions can be counted.
#![allow(dead_code)]

#[path = "../second/src/answer.rs"]
mod answer;
#[path = "../second/src/check.rs"]
mod check;
#[path = "../second/src/file.rs"]
mod file;
#[path = "../second/src/order.rs"]
mod order;
#[path = "../second/src/run.rs"]
mod run;

use answer::Call;
use std::time::Instant;

extern "C" {
    fn sq_check(file: *const u8, n: usize) -> u64;
    fn sq_array_run(file: *const u8, n: usize, input: *const u8, i: usize, output: *mut u8, o: usize) -> u64;
    fn sq_stream_run(file: *const u8, n: usize, input: *const u8, i: usize, output: *mut u8, o: usize) -> u64;
}

fn proved(call: Call, file: &[u8], input: &[u8], output: &mut [u8]) -> u64 {
    let (f, n, i, m) = (file.as_ptr(), file.len(), input.as_ptr(), input.len());
    unsafe {
        match call {
            Call::Check => sq_check(f, n),
            Call::ArrayRun => sq_array_run(f, n, i, m, output.as_mut_ptr(), output.len()),
            _ => sq_stream_run(f, n, i, m, output.as_mut_ptr(), output.len()),
        }
    }
}

// ---- kernels

type Rec = [i32; 8];

fn bytes_of(registers: i32, buffers: i32, sections: &[&[Rec]]) -> Vec<u8> {
    let mut numbers = vec![registers, buffers];
    for s in sections {
        numbers.push(s.len() as i32);
        numbers.extend(s.iter().flatten());
    }
    numbers.iter().flat_map(|n| n.to_le_bytes()).collect()
}

// The smoother of document 01 over 4,096 cells.
fn smoother() -> Vec<u8> {
    let arrays = [[1, 4096, 0, 4096, 1, 0, 0, 0], [2, 4095, 0, 4095, 1, 0, 0, 0]];
    let array = [
        [8, 0, 4095, 1, 0, 0, 0, 0],
        [4, 0, 0, 0, 1, 0, 0, 0],
        [4, 1, 0, 1, 1, 0, 0, 0],
        [3, 0, 0, 1, 1, 0, 0, 0],
        [1, 1, 0, 2, 0, 0, 0, 0],
        [3, 0, 0, 1, 4, 0, 0, 0],
        [5, 0, 1, 0, 1, 0, 0, 0],
        [11, 0, 0, 0, 0, 0, 0, 0],
    ];
    let stream = [
        [6, 2, 0, 0, 0, 0, 0, 0],
        [8, 0, 4095, 1, 0, 0, 0, 0],
        [2, 0, 2, 0, 0, 0, 0, 0],
        [6, 2, 0, 0, 0, 0, 0, 0],
        [2, 1, 2, 0, 0, 0, 0, 0],
        [3, 0, 0, 1, 1, 0, 0, 0],
        [1, 1, 0, 2, 0, 0, 0, 0],
        [3, 0, 0, 1, 4, 0, 0, 0],
        [7, 0, 1, 0, 0, 0, 0, 0],
        [11, 0, 0, 0, 0, 0, 0, 0],
    ];
    let rule = |code| [code, 0, 0, 0, 0, 0, 0, 0];
    let derivation = [
        rule(3),
        rule(7),
        [11, 0, 0, 1, 1, 0, 0, 0],
        [11, 1, 0, 0, 1, 0, 0, 0],
        [12, 0, 0, 0, 1, 0, 0, 0],
        rule(4),
        rule(3),
        rule(4),
        rule(1),
        rule(1),
        rule(1),
        rule(6),
        rule(10),
    ];
    bytes_of(2, 1, &[&arrays, &array, &stream, &derivation])
}

// As many rules and hold rows as a file may have: 8 streams passed once, then 39 empty loops with 24 rows each.
fn longest() -> Vec<u8> {
    let mut arrays = [[1, 1, 0, 1, 1, 0, 0, 0]; 8];
    arrays[7][0] = 2;
    let (mut array, mut stream, mut derivation) = (vec![], vec![], vec![]);
    for q in 0..7 {
        array.push([4, 0, q, 0, 0, 0, 0, 0]);
        stream.push([6, 0, q, 0, 0, 0, 0, 0]);
        derivation.push([2, 0, 0, 0, 0, 0, 0, 0]);
    }
    array.push([5, 0, 7, 0, 0, 0, 0, 0]);
    stream.push([7, 0, 7, 0, 0, 0, 0, 0]);
    derivation.push([6, 0, 0, 0, 0, 0, 0, 0]);
    for _ in 0..39 {
        for program in [&mut array, &mut stream] {
            program.push([8, 0, 2, 1, 0, 0, 0, 0]);
            program.push([11, 0, 0, 0, 0, 0, 0, 0]);
        }
        derivation.push([7, 0, 0, 0, 0, 0, 0, 0]);
        derivation.extend((0..8).map(|p| [11, p, 0, 1, 0, 0, 0, 0]));
        derivation.extend((0..16).map(|p| [12, p, -1, 0, 0, 0, 0, 0]));
        derivation.push([10, 0, 0, 0, 0, 0, 0, 0]);
    }
    bytes_of(1, 16, &[&arrays, &array, &stream, &derivation])
}

// Both programs and the derivation, a rule at a time.
#[derive(Default)]
struct Kernel {
    array: Vec<Rec>,
    stream: Vec<Rec>,
    derivation: Vec<Rec>,
}

impl Kernel {
    fn rule(&mut self, rule: i32, array: Rec, stream: Rec) {
        self.array.push(array);
        self.stream.push(stream);
        self.derivation.push([rule, 0, 0, 0, 0, 0, 0, 0]);
    }

    fn same(&mut self, statement: Rec) {
        self.rule(1, statement, statement);
    }

    // register p := q operator k
    fn work(&mut self, p: i32, q: i32, k: i32, operator: i32) {
        self.same([3, p, q, k, operator, 0, 0, 0]);
    }

    // a for of so many passes, with the hold rows of its two streams
    fn for_passes(&mut self, passes: i32, rows: [Rec; 2]) {
        let statement = [8, 0, passes, 1, 0, 0, 0, 0];
        self.rule(7, statement, statement);
        self.derivation.extend(rows);
    }

    fn if_set(&mut self, register: i32) {
        let statement = [9, register, 0, 0, 0, 0, 0, 0];
        self.rule(8, statement, statement);
    }

    fn or_else(&mut self) {
        let statement = [10, 0, 0, 0, 0, 0, 0, 0];
        self.rule(9, statement, statement);
    }

    fn end(&mut self) {
        let statement = [11, 0, 0, 0, 0, 0, 0, 0];
        self.rule(10, statement, statement);
    }
}

// 256 statements in each program: in two loops of 64 passes a load, then what `body` makes of it, then a store.
fn longest_programs(body: impl Fn(&mut Kernel)) -> Vec<u8> {
    let arrays = [[1, 4096, 0, 4096, 1, 0, 0, 0], [2, 4096, 0, 4096, 1, 0, 0, 0]];
    let mut m = Kernel::default();
    for (register, value) in (1..).zip([2, 3, 5, 7, 11, 13, 17]) {
        m.same([1, register, 0, value, 0, 0, 0, 0]);
    }
    m.for_passes(64, [[11, 0, 0, 0, 64, 0, 0, 0], [11, 1, 0, 0, 64, 0, 0, 0]]);
    m.for_passes(64, [[11, 0, 0, 0, 64, 1, 0, 0], [11, 1, 0, 0, 64, 1, 0, 0]]);
    m.rule(2, [4, 0, 0, 0, 64, 1, 0, 0], [6, 0, 0, 0, 0, 0, 0, 0]);
    // register 7: the item modulo 2
    m.work(7, 0, 1, 4);
    m.work(7, 7, 1, 3);
    m.work(7, 0, 7, 2);
    body(&mut m);
    while m.array.len() < 253 {
        m.work(6, 6, 2, 1);
    }
    m.rule(6, [5, 6, 1, 0, 64, 1, 0, 0], [7, 6, 1, 0, 0, 0, 0, 0]);
    m.end();
    m.end();
    assert_eq!((m.array.len(), m.stream.len()), (256, 256));
    bytes_of(8, 0, &[&arrays, &m.array, &m.stream, &m.derivation])
}

// Ifs of five statements, and after one in four of them a loop of four.
fn small_blocks() -> Vec<u8> {
    longest_programs(|m| {
        let mut i = 0;
        while m.array.len() + 12 < 252 {
            m.if_set(7);
            m.work(2 + i % 4, 3 + i % 3, 0, 1);
            m.or_else();
            m.work(2 + i % 4, 4, 0, 2);
            m.end();
            if i % 4 == 1 {
                m.for_passes(2, [[11, 0, 0, 1, 64, 1, 0, 0], [11, 1, 0, 0, 64, 1, 0, 0]]);
                m.same([1, 5, 0, i, 1, 1, 3, 0]);
                m.work(6, 6, 5, 1);
                m.end();
            }
            i += 1;
        }
    })
}

// One if with 117 statements in each branch.
fn one_if() -> Vec<u8> {
    let branch = |m: &mut Kernel| {
        for i in 0..117 {
            m.work(2 + i % 4, 3 + i % 3, 0, 1 + i % 3);
        }
    };
    longest_programs(|m| {
        m.if_set(7);
        branch(m);
        m.or_else();
        branch(m);
        m.end();
    })
}

// ---- measuring

// Seconds of one call, the least of several rounds in which the two sides take turns.
fn times(call: Call, file: &[u8], input: &[u8], output: usize) -> (f64, f64) {
    let mut ours = vec![0xa5; output];
    let mut theirs = vec![0xa5; output];
    let a = proved(call, file, input, &mut ours);
    let b = answer::call(call, file, input, &mut theirs);
    assert_eq!((a, &ours), (b, &theirs), "the two implementations differ");
    assert_eq!(a & 0xffff, 0, "the kernel is accepted and its runs end");
    let (mut x, mut y) = (f64::MAX, f64::MAX);
    for _ in 0..ROUNDS {
        x = x.min(seconds(|| {
            std::hint::black_box(proved(call, file, input, &mut ours));
        }));
        y = y.min(seconds(|| {
            std::hint::black_box(answer::call(call, file, input, &mut theirs));
        }));
    }
    (x, y)
}

const ROUNDS: usize = 40;
const CALLS: u32 = 50;

fn seconds(mut f: impl FnMut()) -> f64 {
    let start = Instant::now();
    for _ in 0..CALLS {
        f();
    }
    start.elapsed().as_secs_f64() / f64::from(CALLS)
}

fn line(what: &str, unit: &str, amount: f64, (ours, theirs): (f64, f64)) {
    println!("{what:<42} {:>12.0} {:>12.0} {unit:<14} {:>5.2}", amount / ours, amount / theirs, theirs / ours);
}

// ---- the cases

struct Case {
    what: &'static str,
    unit: &'static str,
    amount: f64,
    call: Call,
    file: Vec<u8>,
    output: usize,
}

fn cases() -> [Case; 6] {
    let statements = |before: f64, body: f64| before + 1.0 + 4095.0 * (body + 1.0);
    let case = |what, unit, amount, call, file, output| Case { what, unit, amount, call, file, output };
    [
        case(
            "array run, smoother of 4,096",
            "statements/s",
            statements(0.0, 6.0),
            Call::ArrayRun,
            smoother(),
            4 * 4095,
        ),
        case(
            "stream run, smoother of 4,096",
            "statements/s",
            statements(1.0, 7.0),
            Call::StreamRun,
            smoother(),
            4 * 4095,
        ),
        case("check, smoother", "files/s", 1.0, Call::Check, smoother(), 0),
        case("check, 1,022 derivation records", "files/s", 1.0, Call::Check, longest(), 0),
        case("check, 256 statements in small blocks", "files/s", 1.0, Call::Check, small_blocks(), 0),
        case("check, 256 statements in one if", "files/s", 1.0, Call::Check, one_if(), 0),
    ]
}

fn main() {
    let input: Vec<u8> = (0..4096).flat_map(|n: i32| (n * 7919 - 50_000).to_le_bytes()).collect();
    let words: Vec<String> = std::env::args().skip(1).collect();
    if words == ["cases"] {
        cases().iter().for_each(|case| println!("{}", case.what));
        return;
    }
    if let [side, case, calls] = &words[..] {
        let case = &cases()[case.parse::<usize>().expect("a case from 0 to 5")];
        let mut output = vec![0xa5; case.output];
        for _ in 0..calls.parse::<u32>().expect("how many calls") {
            std::hint::black_box(match &side[..] {
                "proved" => proved(case.call, &case.file, &input, &mut output),
                _ => answer::call(case.call, &case.file, &input, &mut output),
            });
        }
        return;
    }
    println!("{:<42} {:>12} {:>12} {:<14} {:>5}", "", "proved", "second", "", "ratio");
    for case in cases() {
        line(case.what, case.unit, case.amount, times(case.call, &case.file, &input, case.output));
    }
}
